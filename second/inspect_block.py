"""The program `inspect` once more: python3 inspect_block.py WORD... says what inspect has to say.

The names are the standard's. A number with a fraction is shown as its two fields and as value /
2^coefficient_log2_denom, rounded down (toward minus infinity) to six digits after the point.
"""

import struct
import sys
from collections import namedtuple

import block
import composer
import inspect_plot
import limits
import plan_text
import words

USE = ["use: inspect [--rules] [--plot] BLOCK...", "not shown"]

# A field of a section: its first byte there and its length, its indices after the section's, what it may hold in words.
Field = namedtuple("Field", "at size name indices allowed")

SIGNED = ("poly_coef_int", "mmr_constant_int", "mmr_coef_int")


class Noted(block._Fields):
    """Fields that note how far each section was read, and the field that was read last."""
    sections = []

    def __init__(self, section):
        super().__init__(section)
        self.last = 0
        if len(Noted.sections) == 3:
            Noted.sections.clear()              # those of a block before
        Noted.sections.append(self)

    def take(self, size, signed=False):
        self.last = self.at
        return super().take(size, signed)

    def end(self):
        self.last = self.at
        super().end()


block._Fields = Noted


def fraction(value, d):
    millionths = value * 10**6 >> d
    sign = "-" if millionths < 0 else ""
    return "%s%d.%06d" % (sign, abs(millionths) // 10**6, abs(millionths) % 10**6)


def listed(allowed):
    """1, 3 or 4"""
    values = [str(value) for value in allowed]
    return " or ".join([", ".join(values[:-1]), values[-1]] if values[1:] else values)


def spanned(allowed):
    return "%d to %d" % (allowed[0], allowed[-1])


def below(allowed):
    return "less than %d" % allowed.stop


def as_base(allowed):
    return listed(allowed) + ", as BL_bit_depth_minus8 is"


def header_fault(head):
    """The first field that is outside its column: the depths before the denominator, whose column is made of them."""
    (profile, level, d, bl, el, hdr, flag, zero7, half_width, half_height,
     lum_max, zero14, lum_min, zero20) = struct.unpack(">8B4HII", head)
    depths = limits.minus8(limits.DEPTHS)
    rows = [
        ("ccm_profile", profile, limits.PROFILES, listed),
        ("ccm_level", level, limits.LEVELS, listed),
        ("BL_bit_depth_minus8", bl, depths, listed),
        ("EL_bit_depth_minus8", el, depths, listed),
        ("EL_bit_depth_minus8", el, (bl,), as_base),
        ("coefficient_log2_denom", d, limits.denominators(el + 8), spanned),
        ("hdr_bit_depth_minus8", hdr, limits.minus8(limits.HDR_DEPTHS), listed),
        ("disable_residual_flag", flag, limits.FLAGS, listed),
        ("zero (byte 7)", zero7, limits.ZERO, listed),
        ("W/2", half_width, limits.HALF_WIDTHS, spanned),
        ("H/2", half_height, limits.HALF_HEIGHTS, spanned),
        ("max_display_mastering_luminance", lum_max, limits.LUMINANCES, spanned),
        ("zero (bytes 14-15)", zero14, limits.ZERO, listed),
        ("min_display_mastering_luminance", lum_min, limits.darkest(lum_max), below),
        ("zero (bytes 20-23)", zero20, limits.ZERO, listed),
    ]
    for name, value, allowed, said in rows:
        if value not in allowed:
            return "%s is %d, allowed %s" % (name, value, said(allowed))


def coefficients(order, mapping_idc):
    """The names of a piece's coefficients with the standard's indices: mmr_coef has the order from 1 and the term."""
    for at, name in enumerate(plan_text.coef_names(order, mapping_idc)):
        if name == "mmr_constant":
            yield (name,)
        elif name == "mmr_coef":
            i, j = divmod(at - 1, limits.MMR_TERMS)
            yield name, i + 1, j
        else:
            yield name, at


def section_fields(section, cmp, plan, version):
    """The fields in order, as far as the section's own numbers say where they are."""
    sample = below(limits.samples(plan.BL_bit_depth))
    fraction = below(limits.fractions(plan.coefficient_log2_denom))
    at = 0

    def field(size, name, allowed, *indices):
        nonlocal at
        at += size
        return Field(at - size, size, name, indices, allowed)

    n = section[0]
    yield field(1, "num_pivots_minus2", spanned(limits.N))
    for i in range(limits.pivots(n)):
        yield field(2, "pred_pivot_value", sample, i)
    for piece in range(limits.carried(n, version)):
        idc = section[at]
        yield field(1, "mapping_idc", listed(limits.methods(cmp)), piece)
        order = section[at]
        yield field(1, plan_text.ORDER_NAMES[idc], spanned(limits.orders(idc)), piece)
        for name, *indices in coefficients(order, idc):
            yield field(limits.integer_bytes(idc), name + "_int", spanned(limits.integers(idc)), piece, *indices)
            yield field(4, name, fraction, piece, *indices)
    yield field(2, "nlq_offset", sample)
    for name in plan_text.NLQ_NUMBERS:
        yield field(1, name + "_int", spanned(limits.NLQ_INTS))
        yield field(4, name, fraction)


def value_of(section, field):
    """What stands at a field's place."""
    return int.from_bytes(section[field.at:field.at + field.size], "big", signed=field.name in SIGNED)


def section_fault(section, cmp, plan, version, place):
    for field in section_fields(section, cmp, plan, version):
        if field.at == place:
            name = field.name + "".join("[%d]" % i for i in (cmp,) + field.indices)
            return "%s is %d, allowed %s" % (name, value_of(section, field), field.allowed)


def fault(number, data):
    """Where the failure was met (None for rule 1), and what was found there and what is allowed."""
    t = len(data) - limits.TRAILER_BYTES
    if t < 0:
        return None, "%d bytes, allowed %d or more" % (len(data), limits.TRAILER_BYTES)
    A, D0, D1, D2, version, zero = struct.unpack_from(">6H", data, t)
    if number == 1:
        return None, "A is %d, allowed at most %d" % (A, t)
    if number == 2:
        return t, ("A is %d, D0 is %d, D1 is %d, D2 is %d, version is %d, zero is %d, "
                   "allowed A = D0 + %d, D0 > D1 > D2 > 0, version %s, zero %s"
                   % (A, D0, D1, D2, version, zero,
                      limits.HEADER_BYTES, listed(limits.VERSIONS), listed(limits.ZERO)))
    if number == 4:
        return t - A, header_fault(data[t - A:t - D0])
    cmp = len(Noted.sections) - 1
    begin, end = (t - D0, t - D1, t - D2, t)[cmp:cmp + 2]
    place = Noted.sections[-1].last
    if number == 3:
        return begin + place, "section %d is bytes %d up to %d" % (cmp, begin, end)
    plan = block._read_header(data[t - A:t - D0])
    return begin + place, section_fault(data[begin:end], cmp, plan, version, place)


def fixed_point(values, name, piece=(), indices=()):
    """A number with a fraction: its two fields, and about what it comes to."""
    d = values["d"]
    integer, part = values[(name + "_int",) + piece + indices], values[(name,) + piece + indices]
    index = "".join("[%d]" % k for k in indices)
    return "%s_int%s %d + %s%s %d/2^%d, about %s" % (
        name, index, integer, name, index, part, d, fraction((integer << d) + part, d))


def piece_lines(values, piece):
    idc = values["mapping_idc", piece]
    order = values[plan_text.ORDER_NAMES[idc], piece]
    yield "  piece %d" % piece
    yield "    mapping_idc %d" % idc
    yield "    %s %d" % (plan_text.ORDER_NAMES[idc], order)
    for name, *indices in coefficients(order, idc):
        yield "    " + fixed_point(values, name, (piece,), tuple(indices))


def section_lines(section, cmp, plan, version):
    """Every field of a section as its bytes have it, and the pivots that come of them."""
    values = {(field.name,) + field.indices: value_of(section, field)
              for field in section_fields(section, cmp, plan, version)}
    values["d"] = plan.coefficient_log2_denom
    n = values[("num_pivots_minus2",)]
    pivots = composer.assign_pivot_values(plan.pred_pivot_value, plan.num_pivots_minus2)[cmp]
    yield "  num_pivots_minus2 %d" % n
    yield "  pred_pivot_value " + " ".join("%d" % values["pred_pivot_value", i] for i in range(limits.pivots(n)))
    yield "  pivot_value " + " ".join("%d" % pivot for pivot in pivots)
    for piece in range(limits.carried(n, version)):
        yield from piece_lines(values, piece)
    yield "  nlq_offset %d" % values[("nlq_offset",)]
    for name in plan_text.NLQ_NUMBERS:
        yield "  " + fixed_point(values, name)


def header_lines(plan):
    for name in ("ccm_profile", "ccm_level", "coefficient_log2_denom", "BL_bit_depth_minus8", "EL_bit_depth_minus8",
                 "hdr_bit_depth_minus8", "disable_residual_flag"):
        yield "  %s %d" % (name, getattr(plan, name))
    yield "  W/2 %d" % plan.half_width
    yield "  H/2 %d" % plan.half_height
    yield "  max_display_mastering_luminance %d cd/m2" % plan.max_display_mastering_luminance
    yield "  min_display_mastering_luminance %d x 0.0001 cd/m2" % plan.min_display_mastering_luminance


def shown(name, data, plan):
    """Every field of a block that is read, with the byte where each part begins."""
    t = len(data) - limits.TRAILER_BYTES
    trailer = struct.unpack_from(">5H", data, t)
    A, D0, D1, D2, version = trailer
    yield "%s, %d bytes" % (name, len(data))
    yield "header at byte %d" % (t - A)
    yield from header_lines(plan)
    for cmp, (begin, end) in enumerate(((t - D0, t - D1), (t - D1, t - D2), (t - D2, t))):
        yield "section %d, %s, at byte %d" % (cmp, inspect_plot.NAMES[cmp], begin)
        yield from section_lines(data[begin:end], cmp, plan, version)
    yield "trailer at byte %d" % t
    for field, value in zip(("A", "D0", "D1", "D2", "version"), trailer):
        yield "  %s %d" % (field, value)


def inspect(name, data, plotted=False):
    """The lines about one block: its fields, a picture of its mappings where that was asked, or why it is refused."""
    Noted.sections.clear()
    number, plan = block.read(data)
    if number != 0:
        place, found = fault(number, data)
        return [words.refused(name, number, found, place), "not shown"]
    lines = inspect_plot.lines(plan, block.version_of(data)) if plotted else shown(name, data, plan)
    return [*lines, "shown"]


def file_lines(name, read, plotted):
    try:
        return inspect(name, read(name), plotted)
    except OSError as error:
        return [words.unread(name, error.errno), "not shown"]


def rules():
    return ["%d %s: %s" % (number, words.NAMES[number], words.ADVICE[number]) for number in sorted(words.NAMES)]


def answer(given, read):
    """All lines for the words that inspect is given; read(name) gives a file's bytes or raises OSError."""
    lines, left = [], list(given)
    if not left:
        return USE
    while left:
        word = left.pop(0)
        if word == "--rules":
            lines += rules() + ["shown"]
        elif word != "--plot":
            lines += file_lines(word, read, False)
        elif left:
            lines += file_lines(left.pop(0), read, True)
        else:
            lines += USE
    return lines


def contents(path):
    with open(path, "rb") as file:
        return file.read()


def main():
    print("\n".join(answer(sys.argv[1:], contents)))


if __name__ == "__main__":
    main()
