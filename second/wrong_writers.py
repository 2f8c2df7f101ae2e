"""Writers with one mistake each, by name: what the cases of write_vectors have to tell from the right one.

write_cases.py says which kind of case shows which of them, and selftest.py holds it to that.
"""

import struct
from collections import namedtuple

import block
import limits
import writer
from block_cases import HEADER_FIELDS, Base
from jobs import breaks_rule_7
from limits import HEADER_BYTES, LONGEST_BLOCK, TRAILER_BYTES, VERSIONS
from places import changed

# A writer is its two calls; the right one is the module writer.
Writer = namedtuple("Writer", "write_into length")


def lending(bytes_of, refuses=writer.refuses):
    """A writer of other bytes, or with another rule 7; its length follows from both."""
    def length(plan, version):
        return 0 if refuses(plan, version) else len(bytes_of(plan, version))

    def write_into(plan, version, out):
        size = length(plan, version)
        if size == 0:
            return 7, 0, bytes(out)
        if len(out) < size:
            return 12, 0, bytes(out)
        return 0, size, bytes_of(plan, version) + bytes(out[size:])
    return Writer(write_into, length)


# The block's bytes ----------------------------------------------------------

def other_plan(change):
    """The block of another plan, which `change` gives."""
    return lending(lambda plan, version: block.write(change(plan), version))


def swapped(*names):
    """Two fields of each component."""
    def change(plan):
        edits = []
        for cmp in range(3):
            values = [getattr(plan, name)[cmp] for name in names]
            edits += [((name, cmp), value) for name, value in zip(names, reversed(values))]
        return changed(plan, edits)
    return other_plan(change)


def pivots_summed(plan):
    """The pivots themselves, where the block has their differences."""
    return changed(plan, [(("pred_pivot_value", cmp, i), sum(plan.pred_pivot_value[cmp][:i + 1]))
                          for cmp in range(3) for i in range(limits.pivots(plan.num_pivots_minus2[cmp]))])


def sections_of(plan, version):
    return [block.section_bytes(plan, cmp, version) for cmp in range(3)]


def other_sections(change):
    """The block of other sections, which `change` gives; the trailer fits them."""
    return lending(lambda plan, version: block.assemble(block.header_bytes(plan), change(plan, version), version))


def chroma_swapped(plan, version):
    y, cb, cr = sections_of(plan, version)
    return [y, cr, cb]


def last_piece_lost(plan, version):
    """One piece less than the version has; a section of a single piece is as it should be."""
    def cut(cmp, section):
        last = limits.carried(plan.num_pivots_minus2[cmp], version) - 1
        size = len(block.piece_bytes(plan, cmp, last)) if last > 0 else 0
        after = len(section) - 2 - 3 * 5
        return section[:after - size] + section[after:]
    return [cut(cmp, section) for cmp, section in enumerate(sections_of(plan, version))]


def three_coefficients(plan, version):
    """The third coefficient of every polynomial, used or not."""
    return sections_of(changed(plan, [(("order_minus1", cmp, piece), 1) for cmp in range(3)
                                      for piece in range(limits.pieces(plan.num_pivots_minus2[cmp]))
                                      if plan.mapping_idc[cmp][piece] == limits.POLYNOMIAL]), version)


def last_pieces_repeated(plan, version):
    """Piece n twice, whatever piece n + 1 is."""
    alike = changed(plan, [])
    for cmp in range(3):
        block.repeat_last_piece(alike, cmp)
    return sections_of(alike, version)


def other_pieces(bytes_of):
    """The block of other MMR pieces, which `bytes_of` gives of the order, the numbers that are used and d."""
    def section(plan, cmp, version):
        """The right one, with each MMR piece's bytes put in another's place."""
        n, data = plan.num_pivots_minus2[cmp], block.section_bytes(plan, cmp, version)
        at = 1 + 2 * limits.pivots(n)
        out, rest = data[:at], data[len(data) - 17:]
        for piece in range(limits.carried(n, version)):
            order, idc = plan.order_minus1[cmp][piece], plan.mapping_idc[cmp][piece]
            used = plan.fp_coef[cmp][piece][:limits.coefs(order, idc)]
            out += (bytes_of(order, used, plan.coefficient_log2_denom) if idc == limits.MMR
                    else block.piece_bytes(plan, cmp, piece))
        return out + rest
    return other_sections(lambda plan, version: [section(plan, cmp, version) for cmp in range(3)])


def mmr_bytes(order, numbers, d, size=4, idc=limits.MMR):
    """A piece with integer parts of so many bytes."""
    parts = [((z >> d) % 256 ** size).to_bytes(size, "big") + (z % (1 << d)).to_bytes(4, "big") for z in numbers]
    return bytes([idc, order]) + b"".join(parts)


def by_term(numbers):
    """All orders of a term together."""
    rest = numbers[1:]
    return numbers[:1] + [rest[at] for j in range(limits.MMR_TERMS) for at in range(j, len(rest), limits.MMR_TERMS)]


def other_fields(change):
    """The block's bytes after `change`, which is given them, the plan and where each field is."""
    def bytes_of(plan, version):
        data = bytearray(block.write(plan, version))
        change(plan, data, Base(0, data, plan).fields)
        return bytes(data)
    return lending(bytes_of)


def get(data, field, signed=False):
    return int.from_bytes(data[field.offset:field.offset + field.size], "big", signed=signed)


def put(data, field, value):
    data[field.offset:field.offset + field.size] = (value % 256 ** field.size).to_bytes(field.size, "big")


def little_endian(plan, data, fields):
    for field in fields.values():
        put(data, field, int.from_bytes(data[field.offset:field.offset + field.size], "little"))


def zeros_only(plan, data, fields):
    data[:] = bytes(len(data))


def lost(*ends):
    """The fields whose names end so are written as 0."""
    def change(plan, data, fields):
        for name in fields:
            if name.endswith(ends):
                put(data, fields[name], 0)
    return other_fields(change)


def fixed_point(fields):
    """(integer part, fraction) of every number that has both."""
    return [(fields[name], fields[name[:-len("int")] + "fraction"]) for name in fields if name.endswith("_int")]


def toward_zero(plan, data, fields):
    """-1.5 as -1 and 0.5, the fraction with the integer part's sign, where it is -2 and 0.5."""
    for integer, fraction in fixed_point(fields):
        whole, rest = get(data, integer, signed=True), get(data, fraction)
        if whole < 0 < rest:
            put(data, integer, whole + 1)
            put(data, fraction, (1 << plan.coefficient_log2_denom) - rest)


def fraction_of_32(plan, data, fields):
    """As if every fraction had 32 bits behind the point."""
    for _, fraction in fixed_point(fields):
        put(data, fraction, get(data, fraction) << (32 - plan.coefficient_log2_denom))


def sign_lost(plan, data, fields):
    for integer, _ in fixed_point(fields):
        put(data, integer, get(data, integer) % (256 ** integer.size // 2))


def version_1_always(plan, data, fields):
    put(data, fields["version"], 1)


def distances(change):
    """The trailer's four distances are those that `change` gives."""
    def change_bytes(plan, data, fields):
        at = len(data) - TRAILER_BYTES
        struct.pack_into(">4H", data, at, *change(*struct.unpack_from(">4H", data, at)))
    return other_fields(change_bytes)


# Where it is written, and what is answered ----------------------------------

def but(change):
    """The right writer, but for what `change` makes of its answer."""
    return Writer(lambda plan, version, out: change(plan, version, out, *writer.write_into(plan, version, out)),
                  writer.length)


def left_alone(places):
    """Some bytes of the block stay as they were: `places` of its length."""
    def change(plan, version, out, number, size, after):
        kept = bytearray(after)
        for at in places(size) if number == 0 else ():
            kept[at] = out[at]
        return number, size, bytes(kept)
    return but(change)


def after_the_block(change):
    """What stands after the block is what `change` gives."""
    def change_rest(plan, version, out, number, size, after):
        return number, size, after[:size] + change(after[size:]) if number == 0 and after[size:] else after
    return but(change_rest)


def at_the_end(plan, version, out, number, size, after):
    """The block's last byte is the slice's, as where one is read."""
    return number, size, bytes(out[size:]) + after[:size]


def whole_slice(plan, version, out, number, size, after):
    return number, len(out) if number == 0 else 0, after


def exact_fit_refused(plan, version, out, number, size, after):
    return (12, 0, bytes(out)) if number == 0 and len(out) == size else (number, size, after)


def low_bytes(plan, version, out, number, size, after):
    """12 by the low bytes of both lengths too."""
    return (12, 0, bytes(out)) if number == 0 and len(out) % 256 < size % 256 else (number, size, after)


def twelve_first(plan, version, out, number, size, after):
    """12 by the shortest block, before the plan is looked at."""
    return (12 if len(out) < limits.SHORTEST_BLOCK[1] else number), size, after


def twelve_for_seven(plan, version, out, number, size, after):
    return 12 if number == 7 else number, size, after


def twelve_before_pieces(plan, version, out, number, size, after):
    """12 by the length that version 1 would have, before the last two pieces are compared."""
    taken = number == 7 and version == 1 and not breaks_rule_7(plan)
    return (12 if taken and len(out) < len(carried_bytes(plan, version)) else number), size, after


def short_filled(plan, version, out, number, size, after):
    return number, size, block.write(plan, version)[:len(out)] if number == 12 else after


def bad_cleared(plan, version, out, number, size, after):
    return number, size, bytes(len(out)) if number == 7 else after


def versions_as(seen):
    """Every version is taken for `seen` of it."""
    return Writer(lambda plan, version, out: writer.write_into(plan, seen(version), out),
                  lambda plan, version: writer.length(plan, seen(version)))


# Rule 7 ---------------------------------------------------------------------

def forgiving(mended):
    """Rule 7 tests what `mended` makes of the plan, and that is written."""
    return lending(lambda plan, version: block.write(mended(plan), version),
                   lambda plan, version: writer.refuses(mended(plan), version))


def carried_bytes(plan, version):
    """The pieces that the version carries, and the others lost."""
    return block.assemble(block.header_bytes(plan), sections_of(plan, version), version)


METHOD, ORDER = "mapping_idc", "order_minus1"
PARTS = (METHOD, ORDER, *range(limits.COEF_PLACES))         # of a piece: the last ones are its coefficients


def comparing(parts, components=range(3)):
    """Version 1 is refused where pieces n and n + 1 differ in these parts, in these components."""
    def part(plan, cmp, piece, name):
        return plan.fp_coef[cmp][piece][name] if name in range(limits.COEF_PLACES) else getattr(plan, name)[cmp][piece]

    def differ(plan):
        return any(part(plan, cmp, n, name) != part(plan, cmp, n + 1, name) for name in parts
                   for cmp, n in enumerate(plan.num_pivots_minus2) if cmp in components)
    return lending(carried_bytes, lambda plan, version: version not in VERSIONS or breaks_rule_7(plan)
                   or version == 1 and differ(plan))


def unused_cleared(plan):
    """The plan with every place 0 that its counts say is not used; a plan of wrong counts as it is."""
    edits = []
    for cmp in range(3):
        n = plan.num_pivots_minus2[cmp]
        edits += [(("pred_pivot_value", cmp, i), 0) for i in range(limits.pivots(n), limits.PIVOT_PLACES)]
        for piece in range(limits.PIECE_PLACES):
            used = used_numbers(plan, cmp, piece) if piece < limits.pieces(n) else 0
            edits += [((name, cmp, piece), 0) for name in (METHOD, ORDER) if used == 0]
            edits += [(("fp_coef", cmp, piece, i), 0) for i in range(used, limits.COEF_PLACES)]
    return changed(plan, edits)


def used_numbers(plan, cmp, piece):
    return limits.coefs(plan.order_minus1[cmp][piece], plan.mapping_idc[cmp][piece])


def edited_pieces(change):
    """The plan after the edits that `change` gives for each used piece: of its method, order and numbers."""
    def mended(plan):
        edits = []
        for cmp in range(3):
            for piece in range(min(limits.pieces(plan.num_pivots_minus2[cmp]), limits.PIECE_PLACES)):
                edits += change(plan, cmp, piece)
        return changed(plan, edits)
    return mended


def unused_mmr(plan, cmp, piece):
    """The numbers after those of an MMR piece's order, cleared."""
    if plan.mapping_idc[cmp][piece] != limits.MMR:
        return []
    return [(("fp_coef", cmp, piece, i), 0) for i in range(used_numbers(plan, cmp, piece), limits.COEF_PLACES)]


def methods_as(components, seen):
    """mapping_idc of these components is taken for `seen` of it."""
    return edited_pieces(lambda plan, cmp, piece: [((METHOD, cmp, piece), seen(plan.mapping_idc[cmp][piece]))]
                         if cmp in components else [])


def large_polynomials(plan, cmp, piece):
    """A polynomial's numbers that only MMR has the range for, brought into range."""
    d = plan.coefficient_log2_denom
    allowed, seen = limits.coefficients(min(d, 32)), limits.coefficients(min(d, 32), limits.MMR)
    return [(("fp_coef", cmp, piece, i), min(max(z, allowed[0]), allowed[-1]))
            for i, z in enumerate(plan.fp_coef[cmp][piece])
            if plan.mapping_idc[cmp][piece] == limits.POLYNOMIAL and z in seen]


def has_large_mmr(plan):
    """Whether an MMR number is beyond a polynomial's range."""
    allowed = limits.coefficients(plan.coefficient_log2_denom)
    return any(z not in allowed for cmp in (1, 2) for idc, row in zip(plan.mapping_idc[cmp], plan.fp_coef[cmp])
               if idc == limits.MMR for z in row)


def luminance_cleared(plan):
    return changed(plan, [(("min_display_mastering_luminance",), 0)])


WRONG = {
    "a fraction with the integer part's sign": other_fields(toward_zero),
    "a fraction of 32 bits": other_fields(fraction_of_32),
    "the integer part's sign lost": other_fields(sign_lost),
    "hdr_in_max's integer part lost": lost("max_int"),
    "the slope's integer part lost": lost("slope_int"),
    "the threshold's integer part lost": lost("threshold_int"),
    "slope and threshold swapped": swapped("fp_linear_deadzone_slope", "fp_linear_deadzone_threshold"),
    "hdr_in_max and slope swapped": swapped("fp_hdr_in_max", "fp_linear_deadzone_slope"),
    "Cb and Cr swapped": other_sections(chroma_swapped),
    "the last piece lost": other_sections(last_piece_lost),
    "three coefficients always": other_sections(three_coefficients),
    "pivots in place of their differences": other_plan(pivots_summed),
    "little endian": other_fields(little_endian),
    "zeros only": other_fields(zeros_only),
    **{"no " + field.name: lost(field.name) for field in HEADER_FIELDS
       if field.name != "level" and not field.name.startswith("zero")},
    "distances to the trailer's end": distances(lambda *all: [x + TRAILER_BYTES for x in all]),
    "A without the header": distances(lambda A, *rest: [A - HEADER_BYTES, *rest]),
    "distances in the other order": distances(lambda A, D0, D1, D2: [A, D2, D1, D0]),
    "distances of one byte": distances(lambda *all: [x % 256 for x in all]),
    "version 0 written": lost("version"),
    "the last byte left": left_alone(lambda size: [size - 1]),
    "the first byte left": left_alone(lambda size: [0]),
    "the header's zeros left": left_alone(lambda size: [7, 14, 15, 20, 21, 22, 23]),
    "one byte after the block overwritten": after_the_block(lambda rest: b"\0" + rest[1:]),
    "the bytes after the block cleared": after_the_block(lambda rest: bytes(len(rest))),
    "the slice's last byte overwritten": after_the_block(lambda rest: rest[:-1] + b"\0"),
    "written at the slice's end": but(at_the_end),
    "the slice's length answered": but(whole_slice),
    "exact fit refused": but(exact_fit_refused),
    "lengths by their low bytes": but(low_bytes),
    "12 before 7": but(twelve_first),
    "12 for 7": but(twelve_for_seven),
    "12 after a part was written": but(short_filled),
    "7 after the slice was cleared": but(bad_cleared),
    "every version taken": versions_as(lambda version: VERSIONS[0]),
    "every version taken for 2": versions_as(lambda version: 2),
    "version 3 taken for 2": versions_as(lambda version: 2 if version == 3 else version),
    "version 2 refused": lending(block.write, lambda plan, version: version != 1 or writer.refuses(plan, version)),
    "version 1 in every trailer": other_fields(version_1_always),
    "version 1's sections in version 2": other_sections(lambda plan, version: sections_of(plan, 1)),
    "piece n twice in version 2": other_sections(last_pieces_repeated),
    "version 1 of pieces that differ": comparing(()),
    "only luma's pieces compared": comparing(PARTS, [0]),
    "only Cb's pieces compared": comparing(PARTS, [1]),
    "Cr's pieces not compared": comparing(PARTS, [0, 1]),
    "only the orders compared": comparing([ORDER]),
    "only the first coefficients compared": comparing([0]),
    "the orders not compared": comparing([part for part in PARTS if part != ORDER]),
    "the methods not compared": comparing([part for part in PARTS if part != METHOD]),
    "the third coefficients not compared": comparing([part for part in PARTS if part != 2]),
    "only three coefficients compared": comparing(PARTS[:5]),
    "the last coefficients not compared": comparing(PARTS[:-1]),
    "only first and second orders compared": comparing(PARTS[:-limits.MMR_TERMS]),
    "12 before the pieces are compared": but(twelve_before_pieces),
    "a version by its low byte": versions_as(lambda version: version % 256),
    "unused places not tested": forgiving(unused_cleared),
    "unused MMR numbers not tested": forgiving(edited_pieces(unused_mmr)),
    "luma's method not tested": forgiving(methods_as([0], lambda idc: limits.POLYNOMIAL)),
    "methods above 1 taken for MMR": forgiving(methods_as([1, 2], lambda idc: min(idc, limits.MMR))),
    "methods above 1 taken for polynomials": forgiving(methods_as([1, 2], lambda idc: idc if idc == limits.MMR else 0)),
    "polynomials by the range of MMR": forgiving(edited_pieces(large_polynomials)),
    "MMR by the range of polynomials": lending(block.write, lambda plan, version: writer.refuses(plan, version)
                                               or has_large_mmr(plan)),
    "MMR refused": lending(block.write, lambda plan, version: writer.refuses(plan, version)
                           or any(limits.MMR in row for row in plan.mapping_idc)),
    "MMR's method lost": other_pieces(lambda order, numbers, d: mmr_bytes(order, numbers, d, idc=limits.POLYNOMIAL)),
    "MMR's order for the order less 1": other_pieces(lambda order, numbers, d: mmr_bytes(order + 1, numbers, d)),
    "the constant last": other_pieces(lambda order, numbers, d: mmr_bytes(order, numbers[1:] + numbers[:1], d)),
    "MMR numbers by term": other_pieces(lambda order, numbers, d: mmr_bytes(order, by_term(numbers), d)),
    "all three orders always": other_pieces(
        lambda order, numbers, d: mmr_bytes(order, numbers + [0] * (limits.COEF_PLACES - len(numbers)), d)),
    "the last MMR number lost": other_pieces(lambda order, numbers, d: mmr_bytes(order, numbers[:-1], d)),
    "MMR integer parts of one byte": other_pieces(lambda order, numbers, d: mmr_bytes(order, numbers, d, 1)),
    "MMR integer parts of two bytes": other_pieces(lambda order, numbers, d: mmr_bytes(order, numbers, d, 2)),
    "MMR integer parts of 16 bits": other_pieces(lambda order, numbers, d: mmr_bytes(
        order, [((z >> d) + 32768) % 65536 - 32768 << d | z % (1 << d) for z in numbers], d)),
    "the darkest luminance not tested": forgiving(luminance_cleared),
    "a length though the version is refused": Writer(
        writer.write_into, lambda plan, version: writer.length(plan, version if version in VERSIONS else VERSIONS[0])),
    "a length though the pieces differ": Writer(
        writer.write_into, lambda plan, version: writer.length(plan, version) or writer.length(plan, VERSIONS[-1])),
    "the longest block's length": Writer(
        writer.write_into, lambda plan, version: LONGEST_BLOCK[version] if writer.length(plan, version) else 0),
}
