"""Readers with one mistake each, by name: what the vectors have to tell from the right one.

block_cases.py and sample_cases.py say which kind of case shows which of them, and selftest.py holds them to that. A
reader is what block.read is: bytes to a number and a plan.
"""

import struct
from types import SimpleNamespace

import block
import composer
import limits
from places import changed


def but(change):
    """The right reader, but for the edits to its plan that `change` gives for each component."""
    def read(data):
        number, plan = block.read(data)
        for cmp in range(3) if number == 0 else ():
            n = plan.num_pivots_minus2[cmp]
            plan = changed(plan, change(plan, cmp, n, block.version_of(data)))
        return number, plan
    return read


def piece_edits(cmp, piece, idc, order, coefs):
    return ([(("mapping_idc", cmp, piece), idc), (("order_minus1", cmp, piece), order)]
            + [(("fp_coef", cmp, piece, i), z) for i, z in enumerate(coefs)])


def as_piece(plan, cmp, piece, copied):
    """Edits that make a piece what the piece `copied` is."""
    return piece_edits(cmp, piece, plan.mapping_idc[cmp][copied], plan.order_minus1[cmp][copied],
                       plan.fp_coef[cmp][copied])


def copying(piece, components=range(3)):
    """In these components version 1's piece n + 1 is this piece, or zeros where it is None."""
    def change(plan, cmp, n, version):
        if version != 1 or cmp not in components:
            return []
        if piece is None:
            return piece_edits(cmp, n + 1, 0, 0, [0] * limits.COEF_PLACES)
        return as_piece(plan, cmp, n + 1, piece)
    return but(change)


def losing(*fields):
    """Version 1's piece n + 1 is a copy, but for these fields: the name and what stands after the piece's index."""
    return but(lambda plan, cmp, n, version: [((name, cmp, n + 1, *i), 0) for name, *i in fields]
               if version == 1 else [])


def last_piece_overwritten(plan, cmp, n, version):
    """As in version 1, whatever the block says."""
    return as_piece(plan, cmp, n + 1, n)


def versions_as(seen):
    """Every version is taken for `seen` of it."""
    def read(data):
        if len(data) < limits.TRAILER_BYTES:
            return block.read(data)
        return block.read(bytes(data[:-4]) + struct.pack(">H", seen(block.version_of(data))) + bytes(data[-2:]))
    return read


def one_as(version, other):
    return versions_as(lambda given: other if given == version else given)


def by_sections(tried):
    """Each section is read as one of the versions that `tried` gives of the trailer's and of the component."""
    def read(data):
        number, plan = block.read(data)
        if number in (1, 2, 4):
            return number, plan
        t = len(data) - limits.TRAILER_BYTES
        A, *starts, version, _ = struct.unpack_from(">6H", data, t)
        plan = block._read_header(data[t - A:t - starts[0]])
        for cmp, (start, stop) in enumerate(zip(starts, starts[1:] + [0])):
            answers = [section_read(plan, cmp, data[t - start:t - stop], one) for one in tried(version, cmp)]
            number, plan = next((answer for answer in answers if answer[0] == 0), answers[-1])
            if number != 0:
                return number, None
        return 0, plan
    return read


def section_read(plan, cmp, section, version):
    """(0, the plan with this section), or the refusal's number and None."""
    read = changed(plan, [])
    try:
        block._read_section(read, cmp, section, version)
    except block.Refusal as refusal:
        return refusal.number, None
    return 0, read


# MMR pieces -----------------------------------------------------------------

def pieces_by(read_piece):
    """The right reader, but for how it reads a piece."""
    def read(data):
        block._read_piece = read_piece
        try:
            return block.read(data)
        finally:
            block._read_piece = RIGHT_PIECE
    return read


def taken(allowed, size=1, signed=False):
    """A field, 5 where it is not allowed."""
    return lambda fields: block._in_range(fields.take(size, signed), allowed)


def at_once(size, take):
    """So many bytes are there, or it is 3, before a field is tested."""
    def part(fields, *given):
        fields.take(size)
        fields.at -= size
        return take(fields, *given)
    return part


# How the parts of an MMR piece are read; each mistake is another one.
RIGHT_PIECE = block._read_piece
RIGHT = {
    "method": lambda fields, cmp: taken(limits.methods(cmp))(fields),
    "order": taken(limits.MMR_ORDERS),
    "count": lambda order: limits.coefs(order, limits.MMR),
    "integer": taken(limits.MMR_INTS, 4, signed=True),
    "fraction": lambda fields, d: taken(limits.fractions(d), 4)(fields),
    "number": lambda integer, fraction, d: (integer << d) + fraction,
    "place": lambda i, count: i,
}


def mmr(**other):
    """A reader of MMR pieces with other parts."""
    parts = SimpleNamespace(**{**RIGHT, **other})

    def read_piece(plan, cmp, piece, fields):
        idc, d = parts.method(fields, cmp), plan.coefficient_log2_denom
        if idc != limits.MMR:
            fields.at -= 1
            return RIGHT_PIECE(plan, cmp, piece, fields)
        order = parts.order(fields)
        count = parts.count(order)
        plan.mapping_idc[cmp][piece], plan.order_minus1[cmp][piece] = idc, order
        for i in range(count):
            number = parts.number(parts.integer(fields), parts.fraction(fields, d), d)
            plan.fp_coef[cmp][piece][parts.place(i, count)] = number
    return pieces_by(read_piece)


def refusing(number):
    """mapping_idc 1 of chroma is refused by this number."""
    def method(fields, cmp):
        idc = fields.take(1)
        if idc == limits.MMR and cmp > 0:
            raise block.Refusal(number)
        return block._in_range(idc, limits.methods(cmp))
    return mmr(method=method)


def by_profile(data):
    """MMR is refused where the standard's profile has none."""
    number, plan = block.read(data)
    has_none = number == 0 and plan.ccm_profile != 1 and any(composer.has_mmr(plan, cmp) for cmp in (1, 2))
    return (5, None) if has_none else (number, plan)


def by_term(i, count):
    """The place of a number where all orders of a term stand together."""
    orders = (count - 1) // limits.MMR_TERMS
    return 0 if i == 0 else 1 + (i - 1) % orders * limits.MMR_TERMS + (i - 1) // orders


def integers(first, last, size=4, signed=True):
    return mmr(integer=taken(range(first, last + 1), size, signed))


LOW, HIGH = limits.MMR_INTS[0], limits.MMR_INTS[-1]

WRONG = {
    "the copy forgotten": copying(None),
    "the copy forgotten in chroma": copying(None, (1, 2)),
    "piece 0 copied": copying(0),
    "the order not copied": losing(["order_minus1"]),
    "the first coefficient not copied": losing(["fp_coef", 0]),
    "the third coefficient not copied": losing(["fp_coef", 2]),
    "the method not copied": losing(["mapping_idc"]),
    "only three coefficients copied": losing(*(["fp_coef", i] for i in range(3, limits.COEF_PLACES))),
    "the last coefficient not copied": losing(["fp_coef", limits.COEF_PLACES - 1]),
    "a copy in version 2 too": but(last_piece_overwritten),
    "version 3 taken for 1": one_as(3, 1),
    "version 3 taken for 2": one_as(3, 2),
    "version 0 taken for 1": one_as(0, 1),
    "version 2 refused": one_as(2, 3),
    "version 2 taken for 1": one_as(2, 1),
    "version 1 taken for 2": one_as(1, 2),
    "as many pieces as a section has": by_sections(lambda version, cmp: limits.VERSIONS),
    "version 2 of luma alone": by_sections(lambda version, cmp: [version if cmp == 0 else 1]),
    "version 2 of chroma alone": by_sections(lambda version, cmp: [version if cmp > 0 else 1]),
    "a version by its low byte": versions_as(lambda version: version % 256),
    "a version by its high byte if that is not 0": versions_as(lambda version: version // 256 or version),
    "MMR refused 6": refusing(6),
    "MMR refused 5": refusing(5),
    "MMR in profile 1 alone": by_profile,
    "MMR in luma too": mmr(method=lambda fields, cmp: taken(limits.methods(1))(fields)),
    "methods above 1 taken for MMR": mmr(method=lambda fields, cmp: min(fields.take(1), limits.MMR)),
    "a method by its lowest bit": mmr(method=lambda fields, cmp: fields.take(1) % 2),
    "orders above 2 taken for 2": mmr(order=lambda fields: min(fields.take(1), limits.MMR_ORDERS[-1])),
    "order 2 refused": mmr(order=taken(limits.ORDERS)),
    "as many orders as mmr_order_minus1 says": mmr(count=lambda order: 1 + limits.MMR_TERMS * order),
    "all three orders always": mmr(count=lambda order: limits.COEF_PLACES),
    "no constant": mmr(count=lambda order: limits.coefs(order, limits.MMR) - 1),
    "the constant last": mmr(place=lambda i, count: (i + 1) % count),
    "MMR numbers by term, then by order": mmr(place=by_term),
    "MMR integer parts of one byte": integers(-64, 63, 1),
    "MMR integer parts of two bytes": integers(LOW, HIGH, 2),
    "MMR integer parts without a sign": integers(LOW, HIGH, signed=False),
    "MMR integer parts by their low 17 bits": mmr(
        integer=lambda fields: (fields.take(4) - LOW) % (HIGH - LOW + 1) + LOW),
    "65,536 taken": integers(LOW, HIGH + 1),
    "-65,537 taken": integers(LOW - 1, HIGH),
    "-65,536 refused": integers(LOW + 1, HIGH),
    "65,535 refused": integers(LOW, HIGH - 1),
    "a polynomial's integer parts in MMR": integers(limits.COEF_INTS[0], limits.COEF_INTS[-1]),
    "MMR integer parts of 16 bits": integers(-32768, 32767),
    "an MMR fraction of 2^d taken": mmr(fraction=lambda fields, d: taken(range((1 << d) + 1), 4)(fields)),
    "MMR fractions not tested": mmr(fraction=lambda fields, d: fields.take(4)),
    "an MMR fraction with the integer part's sign": mmr(
        number=lambda integer, fraction, d: (integer << d) + (-fraction if integer < 0 else fraction)),
    "an MMR number as one field": mmr(integer=at_once(8, RIGHT["integer"])),
    "mapping_idc and the order as one field": mmr(method=at_once(2, RIGHT["method"])),
}
