"""The composing block of the house rules, versions 1 and 2: reading it and writing it.

Order of the answers (the house rules, "Reading"): under 12 bytes 1, then 2, then
the rest of 1, then 4, then the sections from first byte to last, each field
for 3 and then for 5, and each section's left-over bytes (3) at its end.
"""

import struct

import limits
from composer import Plan
from limits import DEPTHS, HDR_DEPTHS, HEADER_BYTES, TRAILER_BYTES, minus8


class Refusal(Exception):
    """Carries the refusal number of the house rules."""

    def __init__(self, number):
        super().__init__(number)
        self.number = number


def read(data):
    """Give (0, plan), or (1..5, None); None stands for the all-zero plan."""
    try:
        return 0, _read_block(bytes(data))
    except Refusal as refusal:
        return refusal.number, None


def _read_block(data):
    if len(data) < TRAILER_BYTES:
        raise Refusal(1)
    t = len(data) - TRAILER_BYTES
    A, D0, D1, D2, version, zero = struct.unpack_from(">6H", data, t)
    if (version not in limits.VERSIONS or zero not in limits.ZERO
            or A - D0 != HEADER_BYTES or not D0 > D1 > D2 > 0):
        raise Refusal(2)
    if A > t:
        raise Refusal(1)
    plan = _read_header(data[t - A:t - D0])
    _read_section(plan, 0, data[t - D0:t - D1], version)
    _read_section(plan, 1, data[t - D1:t - D2], version)
    _read_section(plan, 2, data[t - D2:t], version)
    return plan


def version_of(data):
    """What the trailer says, whether there is such a version or not."""
    return struct.unpack_from(">H", data, len(data) - 4)[0]


def _read_header(header):
    """House rules, table of the header; every fault is 4."""
    (profile, level, d, bl, el, hdr, flag, zero7, half_width, half_height,
     lum_max, zero14, lum_min, zero20) = struct.unpack(">8B4HII", header)
    plan = Plan(
        ccm_profile=profile, ccm_level=level, coefficient_log2_denom=d,
        BL_bit_depth_minus8=bl, EL_bit_depth_minus8=el,
        hdr_bit_depth_minus8=hdr, disable_residual_flag=flag,
        half_width=half_width, half_height=half_height,
        max_display_mastering_luminance=lum_max,
        min_display_mastering_luminance=lum_min)
    if any((zero7, zero14, zero20)) or not header_in_range(plan):
        raise Refusal(4)
    return plan


def header_in_range(plan):
    """House rules, column "Allowed" of the header, on the plan's fields."""
    lum_max = plan.max_display_mastering_luminance
    return (plan.ccm_profile in limits.PROFILES
            and plan.ccm_level in limits.LEVELS
            and plan.BL_bit_depth_minus8 in minus8(DEPTHS)
            and plan.EL_bit_depth_minus8 in minus8(DEPTHS)
            and plan.BL_bit_depth_minus8 == plan.EL_bit_depth_minus8
            and plan.coefficient_log2_denom in limits.denominators(plan.EL_bit_depth)
            and plan.hdr_bit_depth_minus8 in minus8(HDR_DEPTHS)
            and plan.disable_residual_flag in limits.FLAGS
            and plan.half_width in limits.HALF_WIDTHS
            and plan.half_height in limits.HALF_HEIGHTS
            and lum_max in limits.LUMINANCES
            and plan.min_display_mastering_luminance in limits.darkest(lum_max))


class _Fields:
    """Takes the fields of one section in order; one too long is refused 3."""

    def __init__(self, section):
        self.section = section
        self.at = 0

    def take(self, size, signed=False):
        if self.at + size > len(self.section):
            raise Refusal(3)
        field = self.section[self.at:self.at + size]
        self.at += size
        return int.from_bytes(field, "big", signed=signed)

    def end(self):
        if self.at != len(self.section):
            raise Refusal(3)


def _in_range(value, allowed):
    """Hand the value back when it is allowed, else refuse 5."""
    if value not in allowed:
        raise Refusal(5)
    return value


def _take_fixed_point(fields, integers, d, size=1):
    """An integer part of this many bytes and a fraction below 2^d: two fields."""
    integer = _in_range(fields.take(size, signed=integers[0] < 0), integers)
    fraction = _in_range(fields.take(4), limits.fractions(d))
    return integer * (1 << d) + fraction


def _read_piece(plan, cmp, piece, fields):
    """House rules, "Section": what stands after mapping_idc goes by it."""
    idc = _in_range(fields.take(1), limits.methods(cmp))
    order = _in_range(fields.take(1), limits.orders(idc))
    plan.mapping_idc[cmp][piece] = idc
    plan.order_minus1[cmp][piece] = order
    for i in range(limits.coefs(order, idc)):
        plan.fp_coef[cmp][piece][i] = _take_fixed_point(
            fields, limits.integers(idc), plan.coefficient_log2_denom, limits.integer_bytes(idc))


def _read_section(plan, cmp, section, version):
    """House rules, "Section"."""
    d = plan.coefficient_log2_denom
    fields = _Fields(section)
    n = _in_range(fields.take(1), limits.N)
    plan.num_pivots_minus2[cmp] = n
    for i in range(limits.pivots(n)):
        plan.pred_pivot_value[cmp][i] = _in_range(
            fields.take(2), limits.samples(plan.BL_bit_depth))
    for piece in range(limits.carried(n, version)):
        _read_piece(plan, cmp, piece, fields)
    if limits.carried(n, version) < limits.pieces(n):
        repeat_last_piece(plan, cmp)
    plan.nlq_offset[cmp] = _in_range(fields.take(2), limits.samples(plan.EL_bit_depth))
    plan.fp_hdr_in_max[cmp] = _take_fixed_point(fields, limits.NLQ_INTS, d)
    plan.fp_linear_deadzone_slope[cmp] = _take_fixed_point(fields, limits.NLQ_INTS, d)
    plan.fp_linear_deadzone_threshold[cmp] = _take_fixed_point(fields, limits.NLQ_INTS, d)
    fields.end()


def repeat_last_piece(plan, cmp):
    """House rules: what version 1 carries is read as if its piece n stood twice."""
    n = plan.num_pivots_minus2[cmp]
    plan.mapping_idc[cmp][n + 1] = plan.mapping_idc[cmp][n]
    plan.order_minus1[cmp][n + 1] = plan.order_minus1[cmp][n]
    plan.fp_coef[cmp][n + 1] = list(plan.fp_coef[cmp][n])


def last_piece_repeated(plan, cmp):
    n = plan.num_pivots_minus2[cmp]
    return (plan.mapping_idc[cmp][n + 1] == plan.mapping_idc[cmp][n]
            and plan.order_minus1[cmp][n + 1] == plan.order_minus1[cmp][n]
            and plan.fp_coef[cmp][n + 1] == plan.fp_coef[cmp][n])


def has_place_for(version, plan):
    """Whether a block of this version holds every piece of a plan in range."""
    return all(limits.carried(n, version) == limits.pieces(n) or last_piece_repeated(plan, cmp)
               for cmp, n in enumerate(plan.num_pivots_minus2))


def write(plan, version=limits.VERSIONS[0]):
    """The block of a plan in range, which writer.py tests; cases are made from it too."""
    assert has_place_for(version, plan)             # no case loses a piece in silence
    sections = [section_bytes(plan, cmp, version) for cmp in range(3)]
    return assemble(header_bytes(plan), sections, version)


def assemble(header, sections, version=limits.VERSIONS[0]):
    """Header, sections, and the trailer that fits them."""
    D2 = len(sections[2])
    D1 = D2 + len(sections[1])
    D0 = D1 + len(sections[0])
    trailer = struct.pack(">6H", D0 + len(header), D0, D1, D2, version, 0)
    return header + b"".join(sections) + trailer


def header_bytes(plan):
    return struct.pack(
        ">8B4HII",
        plan.ccm_profile, plan.ccm_level, plan.coefficient_log2_denom,
        plan.BL_bit_depth_minus8, plan.EL_bit_depth_minus8,
        plan.hdr_bit_depth_minus8, plan.disable_residual_flag, 0,
        plan.half_width, plan.half_height,
        plan.max_display_mastering_luminance, 0,
        plan.min_display_mastering_luminance, 0)


def section_bytes(plan, cmp, version):
    d = plan.coefficient_log2_denom
    n = plan.num_pivots_minus2[cmp]
    out = bytearray([n])
    for i in range(limits.pivots(n)):
        out += struct.pack(">H", plan.pred_pivot_value[cmp][i])
    for piece in range(limits.carried(n, version)):
        out += piece_bytes(plan, cmp, piece)
    out += struct.pack(">H", plan.nlq_offset[cmp])
    out += _fixed_point_bytes(plan.fp_hdr_in_max[cmp], d)
    out += _fixed_point_bytes(plan.fp_linear_deadzone_slope[cmp], d)
    out += _fixed_point_bytes(plan.fp_linear_deadzone_threshold[cmp], d)
    return bytes(out)


def piece_bytes(plan, cmp, piece):
    idc, order = plan.mapping_idc[cmp][piece], plan.order_minus1[cmp][piece]
    out = bytearray([idc, order])
    for i in range(limits.coefs(order, idc)):
        out += _fixed_point_bytes(plan.fp_coef[cmp][piece][i], plan.coefficient_log2_denom,
                                  limits.integer_bytes(idc))
    return bytes(out)


def _fixed_point_bytes(number, d, size=1):
    """The fraction adds upward, also below zero: the integer part, of this many bytes, rounds down."""
    integer = number >> d
    return integer.to_bytes(size, "big", signed=True) + struct.pack(">I", number - (integer << d))
