"""The limits and counts of the house rules, each number once.

What a field may hold is a range or a tuple: `value in N` is its test, `N[0]` and
`N[-1]` are its ends, and what lies beside them is beyond.  A number with a
fraction is whole, integer part * 2^d + fraction, where d is coefficient_log2_denom.
"""

# The block ------------------------------------------------------------------

VERSIONS = (1, 2)
TRAILER_BYTES = 12
HEADER_BYTES = 24

# The header -----------------------------------------------------------------

PROFILES = (1, 3, 4)                # GS CCM 001, clauses A.2.1 to A.2.3
LEVELS = (0,)                       # GS CCM 001, table A.1
DEPTHS = (8, 10)                    # of the base and of the enhancement layer, equal
HDR_DEPTHS = (10, 12)
FLAGS = (0, 1)
ZERO = (0,)
HALF_WIDTHS = range(1, 2048 + 1)
HALF_HEIGHTS = range(1, 1152 + 1)
LUMINANCES = range(10000 + 1)       # max_display_mastering_luminance, in 1 cd/m2
LUMINANCE_UNITS = 10000             # of min_display_mastering_luminance in 1 cd/m2


def minus8(depths):
    """What the fields named _minus8 hold."""
    return tuple(depth - 8 for depth in depths)


def denominators(EL_bit_depth):
    """coefficient_log2_denom."""
    return range(EL_bit_depth + 5, 32 + 1)


def darkest(brightest):
    """min_display_mastering_luminance, by the largest one."""
    return range(LUMINANCE_UNITS * brightest)


# A section ------------------------------------------------------------------

N = range(15 + 1)                   # num_pivots_minus2
POLYNOMIAL, MMR = 0, 1              # mapping_idc (GS CCM 001, table 1)
ORDERS = range(1 + 1)               # poly_order_minus1
MMR_ORDERS = range(2 + 1)           # mmr_order_minus1
COEF_INTS = range(-64, 63 + 1)      # the integer part of a polynomial's coefficient,
MMR_INTS = range(-65536, 65535 + 1)     # of an MMR constant or coefficient,
NLQ_INTS = range(1 + 1)             # and of hdr_in_max, slope and threshold


def methods(cmp):
    """mapping_idc of a component."""
    return (POLYNOMIAL,) if cmp == 0 else (POLYNOMIAL, MMR)


def orders(mapping_idc):
    """What stands after mapping_idc: poly_order_minus1 or mmr_order_minus1."""
    return MMR_ORDERS if mapping_idc == MMR else ORDERS


def integers(mapping_idc):
    return MMR_INTS if mapping_idc == MMR else COEF_INTS


def integer_bytes(mapping_idc):
    """How many bytes the integer part of a coefficient has."""
    return 4 if mapping_idc == MMR else 1


def samples(depth):
    """A sample; a pred_pivot_value and an nlq_offset too."""
    return range(1 << depth)


def fractions(d):
    return range(1 << d)


def coefficients(d, mapping_idc=POLYNOMIAL):
    """fp_coef; fp_mmr_constant and fp_mmr_coef."""
    allowed = integers(mapping_idc)
    return range(allowed.start << d, allowed.stop << d)


def nlq_numbers(d):
    """fp_hdr_in_max, fp_linear_deadzone_slope, fp_linear_deadzone_threshold."""
    return range(NLQ_INTS.start << d, NLQ_INTS.stop << d)


# Counts and lengths ---------------------------------------------------------

def pivots(n):
    return n + 2


def pieces(n):
    """Of a plan, whatever its block's version: one up to each pivot but the first, one above the last."""
    return n + 2


def carried(n, version):
    """Of a section: version 1 has none above the last pivot, and piece n stands for it."""
    return pieces(n) - 1 if version == VERSIONS[0] else pieces(n)


def table_values(BL_bit_depth):
    """Of a table that is lent: luma, Cb and Cr, each a value for every code."""
    return 3 << BL_bit_depth


MMR_TERMS = 7                       # of each order


def coefs(order, mapping_idc=POLYNOMIAL):
    """Of a piece of this order, less 1; the MMR constant is one of them, the first."""
    return 1 + MMR_TERMS * (order + 1) if mapping_idc == MMR else order + 2


PIVOT_PLACES = pivots(N[-1])
PIECE_PLACES = pieces(N[-1])
COEF_PLACES = coefs(MMR_ORDERS[-1], MMR)


def piece_bytes(order, mapping_idc=POLYNOMIAL):
    return 2 + coefs(order, mapping_idc) * (integer_bytes(mapping_idc) + 4)


def section_bytes(n, version, order, mapping_idc=POLYNOMIAL):
    """The length of a section whose pieces all have this order and method."""
    return 1 + 2 * pivots(n) + carried(n, version) * piece_bytes(order, mapping_idc) + 2 + 3 * 5


def block_bytes(sections):
    return HEADER_BYTES + sum(sections) + TRAILER_BYTES


def longest_section(cmp, version):
    return max(section_bytes(N[-1], version, orders(idc)[-1], idc) for idc in methods(cmp))


# By version; of the longest sections one for each component.
SHORTEST_SECTION = {version: section_bytes(N[0], version, ORDERS[0]) for version in VERSIONS}
LONGEST_SECTIONS = {version: [longest_section(cmp, version) for cmp in range(3)] for version in VERSIONS}
SHORTEST_BLOCK = {version: block_bytes([SHORTEST_SECTION[version]] * 3) for version in VERSIONS}
LONGEST_BLOCK = {version: block_bytes(LONGEST_SECTIONS[version]) for version in VERSIONS}

TEXT_BYTES = 32768                  # of a plan as text (docs/TEXT.md), more than the longest has
