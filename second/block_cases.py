"""Reading cases for block_vectors: edges of the house rules' block, then damage.

A case is a base block, some byte edits, and the slice of it that is read.  Where
one thing alone is wrong with a block, or nothing is, the case is made with the
number that it is to show, and reading has to give it: so no case is lost when a
limit moves.  SHOWS says which wrong readers a kind of case tells from the right
one; selftest.py builds them (wrong_readers.py) and holds the cases to it.
"""

from collections import namedtuple

import block
import limits
from generator import Generator
from limits import (DEPTHS, HDR_DEPTHS, HEADER_BYTES, SHORTEST_SECTION, TRAILER_BYTES, VERSIONS,
                    denominators, minus8)
from sample_cases import PIECES, Nlq, Section, make_plan, set_piece, visible_piece

Case = namedtuple("Case", "kind base start stop edits")
Field = namedtuple("Field", "name offset size")

SHOWS = {
    "valid": (
        "the copy forgotten", "the copy forgotten in chroma", "piece 0 copied", "the order not copied",
        "the first coefficient not copied", "the third coefficient not copied", "version 1 taken for 2"),
    "longest": ("the copy forgotten", "piece 0 copied"),
    "trailer version": (
        "version 3 taken for 1", "version 0 taken for 1", "a version by its low byte",
        "a version by its high byte if that is not 0"),
    "valid, version 2": (
        "version 2 refused", "version 2 taken for 1", "a copy in version 2 too", "version 2 of luma alone",
        "version 2 of chroma alone"),
    "longest, version 2": ("version 2 taken for 1", "a copy in version 2 too"),
    "trailer version, version 2": (
        "version 3 taken for 2", "a version by its low byte", "a version by its high byte if that is not 0"),
    "other version": ("version 2 refused", "version 2 taken for 1", "as many pieces as a section has"),
    "other version, version 2": ("version 1 taken for 2", "as many pieces as a section has"),
    "other number of pieces": ("as many pieces as a section has",),
    "other number of pieces, version 2": ("as many pieces as a section has",),
    "section field, version 2": ("version 2 taken for 1", "a copy in version 2 too"),
    "MMR valid": (
        "MMR refused 6", "MMR refused 5", "order 2 refused", "as many orders as mmr_order_minus1 says",
        "all three orders always", "no constant", "the constant last", "MMR numbers by term, then by order",
        "MMR integer parts of one byte", "MMR integer parts of two bytes", "MMR integer parts without a sign",
        "a polynomial's integer parts in MMR", "MMR integer parts of 16 bits",
        "an MMR fraction with the integer part's sign", "the method not copied", "only three coefficients copied",
        "the last coefficient not copied", "the order not copied", "the copy forgotten in chroma",
        "MMR in profile 1 alone"),
    "MMR valid, version 2": (
        "MMR in profile 1 alone", "MMR refused 6", "order 2 refused", "MMR numbers by term, then by order",
        "a copy in version 2 too", "version 2 of luma alone"),
    "MMR field": (
        "methods above 1 taken for MMR", "a method by its lowest bit", "orders above 2 taken for 2",
        "MMR integer parts by their low 17 bits", "65,536 taken", "-65,537 taken", "-65,536 refused",
        "65,535 refused", "an MMR fraction of 2^d taken", "MMR fractions not tested"),
    "MMR field, version 2": (
        "methods above 1 taken for MMR", "65,536 taken", "-65,537 taken", "an MMR fraction of 2^d taken"),
    "MMR for luma": ("MMR in luma too",),
    "MMR for luma, version 2": ("MMR in luma too",),
    "MMR shape": ("orders above 2 taken for 2", "all three orders always", "no constant"),
    "MMR fraction and d": ("an MMR fraction of 2^d taken", "MMR fractions not tested"),
    "MMR cut": ("an MMR number as one field", "mapping_idc and the order as one field", "MMR refused 5"),
    "MMR length": ("MMR refused 5", "no constant"),
    "MMR faults": ("MMR refused 5", "65,536 taken", "-65,537 taken"),
    "MMR longest": ("order 2 refused", "the constant last", "the last coefficient not copied"),
    "MMR longest, version 2": ("order 2 refused", "the constant last", "a copy in version 2 too"),
    "MMR damaged": ("MMR integer parts by their low 17 bits", "MMR fractions not tested"),
}

HEADER_FIELDS = (
    Field("profile", 0, 1), Field("level", 1, 1), Field("d", 2, 1), Field("bl", 3, 1),
    Field("el", 4, 1), Field("hdr", 5, 1), Field("flag", 6, 1), Field("zero7", 7, 1),
    Field("half_width", 8, 2), Field("half_height", 10, 2), Field("lum_max", 12, 2),
    Field("zero14", 14, 2), Field("lum_min", 16, 4), Field("zero20", 20, 4))
TRAILER_FIELDS = (Field("A", 0, 2), Field("D0", 2, 2), Field("D1", 4, 2),
                  Field("D2", 6, 2), Field("version", 8, 2), Field("last", 10, 2))


class Base:
    """A base block; one made from a plan also knows where its fields are."""

    def __init__(self, number, data, plan=None, ignored=0):
        self.number = number
        self.data = data
        self.version = block.version_of(data)
        self.fields = {}
        if plan is not None:
            self._find_fields(plan, ignored)

    def _find_fields(self, plan, at):
        self._add(at, HEADER_FIELDS)
        at += HEADER_BYTES
        for cmp in range(3):
            fields = section_fields(plan, cmp, self.version)
            self._add(at, fields)
            at += fields[-1].offset + fields[-1].size
        self._add(at, TRAILER_FIELDS)

    def _add(self, at, fields):
        for field in fields:
            self.fields[field.name] = field._replace(offset=at + field.offset)

    def value(self, name):
        field = self.fields[name]
        return int.from_bytes(self.data[field.offset:field.offset + field.size], "big")

    def changed(self, edits):
        data = bytearray(self.data)
        for offset, byte in edits:
            data[offset] = byte
        return data

    def put(self, **values):
        """Edits that give these fields these values (a negative one wraps)."""
        return self.put_all(sorted(values.items()))

    def put_all(self, pairs):
        edits = []
        for name, value in pairs:
            field = self.fields[name]
            new = (value % 256 ** field.size).to_bytes(field.size, "big")
            for i, byte in enumerate(new):
                if self.data[field.offset + i] != byte:
                    edits.append((field.offset + i, byte))
        return edits


def section_fields(plan, cmp, version):
    """The fields of one section in order, offsets from its first byte.

    c0 to c2 are the numbers of a polynomial; mmr0 is the constant of MMR, mmr1 to mmr21 are its coefficients.
    """
    fields = []
    at = 0

    def add(name, size):
        nonlocal at
        fields.append(Field("s%d_%s" % (cmp, name), at, size))
        at += size

    def add_fixed_point(name, size=1):
        add(name + "_int", size)
        add(name + "_fraction", 4)

    n = plan.num_pivots_minus2[cmp]
    add("n", 1)
    for i in range(limits.pivots(n)):
        add("pivot%d" % i, 2)
    for piece in range(limits.carried(n, version)):
        idc = plan.mapping_idc[cmp][piece]
        add("p%d_idc" % piece, 1)
        add("p%d_%sorder" % (piece, "mmr_" * idc), 1)
        for i in range(limits.coefs(plan.order_minus1[cmp][piece], idc)):
            add_fixed_point("p%d_%s%d" % (piece, ("c", "mmr")[idc], i), limits.integer_bytes(idc))
    add("offset", 2)
    add_fixed_point("max")
    add_fixed_point("slope")
    add_fixed_point("threshold")
    return fields


class Bases:
    """The numbered base blocks."""

    def __init__(self):
        self.all = []

    def add(self, data):
        return self._keep(Base(len(self.all), data))

    def add_plan(self, plan, ignored=b"", version=1):
        data = ignored + block.write(plan, version)
        return self._keep(Base(len(self.all), data, plan, len(ignored)))

    def _keep(self, base):
        self.all.append(base)
        return base


def read_part(kind, base, start, stop, edits=(), number=None):
    """A case; `number` is what reading has to answer, where the case is to show it."""
    if number is not None:
        answer, _ = block.read(base.changed(edits)[start:stop])
        assert answer == number, "%s: %d in place of %d" % (kind, answer, number)
    return Case(kind + ", version 2" * (base.version == 2), base.number, start, stop, list(edits))


def read_whole(kind, base, edits=(), number=None):
    return read_part(kind, base, 0, len(base.data), edits, number)


# Plans for the base blocks -------------------------------------------------

def small_section(depth, d, cmp, order, version):
    """n = 0, few numbers that are not zero, different in each section."""
    top = (1 << depth) - 1
    coef = [0, 1 << d] if order == 1 else [0, 1 << (d - 1), -1]
    coef[0] = (0, 5, -3)[cmp]
    last = [1 << (d - 1 - cmp), -2, 3 + cmp][:order + 1]
    nlq = Nlq(top // 2 - cmp, (1 << d) - cmp, 7 + cmp, 2 * cmp)
    return Section([cmp, top], [coef, last][:limits.carried(0, version)], nlq)


def small_plan(depth, d, order=1, hdr_bit_depth=12, flag=0, version=1):
    sections = [small_section(depth, d, cmp, order, version) for cmp in range(3)]
    plan = make_plan(depth, d, hdr_bit_depth, 8, 4, sections, flag)
    plan.min_display_mastering_luminance = 0
    return plan


def middle_plan(generator, version=1):
    """n of 2, 4 and 1, pieces of both orders."""
    d = 16
    sections = []
    for pivots in ([0, 300, 512, 1023], [4, 4, 90, 91, 700, 1026], [64, 800, 960]):
        pieces = [visible_piece(d, 2 - i % 2, generator)
                  for i in range(limits.carried(len(pivots) - 2, version))]
        sections.append(Section(pivots, pieces, Nlq(512, 1 << d, 77, 3)))
    plan = make_plan(10, d, 10, 1920, 1080, sections, 1)
    plan.ccm_profile = 3
    return plan


def zero_plan(n, order):
    """Sections of zeros: a wrong n or order then meets a wrong length only."""
    section = Section([0] * limits.pivots(n), [[0] * (order + 1)] * limits.pieces(n), Nlq(0, 0, 0, 0))
    return make_plan(10, denominators(10)[0], 12, 8, 4, [section] * 3)


def longest_plan(depth, d, generator, version=1):
    """All pieces of order 2 in each section, every coefficient its own; the largest size."""
    top = (1 << depth) - 1
    sections = []
    for cmp in range(3):
        pivots = [cmp + 1]
        while len(pivots) < limits.PIVOT_PLACES:
            pivots.append(pivots[-1] + generator.between(1, top))
        pieces = [[generator.among(limits.coefficients(d)) for _ in range(3)]
                  for _ in range(limits.carried(limits.N[-1], version))]
        nlq = Nlq(top - cmp, *(generator.among(limits.nlq_numbers(d)) for _ in range(3)))
        sections.append(Section(pivots, pieces, nlq))
    return make_plan(depth, d, 12, 2 * limits.HALF_WIDTHS[-1], 2 * limits.HALF_HEIGHTS[-1],
                     sections)


# Header and trailer ---------------------------------------------------------

def up_to(allowed, further):
    """(value, answer): from 0 to some beyond the last that is allowed, and the largest byte."""
    values = list(range(allowed[-1] + 1 + further)) + [255]
    return [(value, 0 if value in allowed else 4) for value in values]


def size_edges(allowed):
    least, most = allowed[0], allowed[-1]
    return [(least - 1, 4), (least, 0), (least + 1, 0), (most - 1, 0), (most, 0),
            (most + 1, 4), (2 * most, 4), (65535, 4)]


def never(*values):
    return [(value, 4) for value in values]


HEADER_VALUES = (
    ("profile", up_to(limits.PROFILES, 1)),
    ("level", up_to(limits.LEVELS, 2)),
    ("hdr", up_to(minus8(HDR_DEPTHS), 2)),
    ("flag", up_to(limits.FLAGS, 1)),
    ("zero7", never(1, 128, 255)),
    ("half_width", size_edges(limits.HALF_WIDTHS)),
    ("half_height", size_edges(limits.HALF_HEIGHTS)),
    ("zero14", never(1, 256, 65535)),
    ("zero20", never(1, 1 << 8, 1 << 16, 1 << 24, (1 << 32) - 1)))


def luminances():
    """(max in cd/m2, min in 0.0001 cd/m2, answer)."""
    unit, top = limits.LUMINANCE_UNITS, limits.LUMINANCES[-1]
    half = top // 2
    return (
        (0, 0, 4), (0, 1, 4), (1, 0, 0), (1, 1, 0), (1, unit - 1, 0), (1, unit, 4),
        (1, unit + 1, 4), (6, 6 * unit - 1, 0), (6, 6 * unit, 4),
        (7, (7 * unit - 1) % 65536, 0), (7, 7 * unit % 65536, 0), (7, 65536, 0),
        (7, 7 * unit - 1, 0), (7, 7 * unit, 4), (100, 5000, 0),
        (half, half * unit - 1, 0), (half, half * unit, 4),
        (top - 1, (top - 1) * unit - 1, 0), (top - 1, (top - 1) * unit, 4),
        (top, top * unit - 1, 0), (top, top * unit, 4), (top, (1 << 32) - 1, 4),
        (top + 1, 0, 4), (32768, 0, 4), (65535, 0, 4), (65535, 65535 * unit - 1, 4))


def denominator_values(depth):
    """(d, answer): both depths' least d, the ends for this depth, and far beyond."""
    least, most = denominators(depth)[0], denominators(depth)[-1]
    near = range(denominators(DEPTHS[0])[0] - 1, denominators(DEPTHS[-1])[0] + 2)
    return [(d, 0 if d in denominators(depth) else 4)
            for d in (0, *near, least - 1, least, most - 1, most, most + 1, 2 * most, 255)]


def depth_values(d):
    """(bl, el, d, answer), every two depths; a good header leaves it to the sections."""
    for bl, _ in up_to(minus8(DEPTHS), 1):
        for el, _ in up_to(minus8(DEPTHS), 1):
            for chosen in (d, denominators(DEPTHS[-1])[-1]):
                good = (bl == el and el in minus8(DEPTHS)
                        and chosen in denominators(el + 8))
                yield bl, el, chosen, None if good else 4


def header_cases(bases):
    cases = []
    for base in bases:
        for name, values in HEADER_VALUES:
            cases += [read_whole("header " + name, base, base.put_all([(name, value)]), number)
                      for value, number in values]
        cases += [read_whole("header d", base, base.put(d=d), number)
                  for d, number in denominator_values(base.value("el") + 8)]
        cases += [read_whole("header depths", base, base.put(bl=bl, el=el, d=d), number)
                  for bl, el, d, number in depth_values(base.value("d"))]
        cases += [read_whole("header luminance", base,
                             base.put(lum_max=high, lum_min=low), number)
                  for high, low, number in luminances()]
    return cases


def distances(base):
    """(A, D0, D1, D2, answer): swapped, equal, zero, wrapping; where the sections only
    move, what is read in them decides."""
    A, D0, D1, D2 = (base.value(name) for name in ("A", "D0", "D1", "D2"))
    H, over = HEADER_BYTES, 65536
    wrong = [
        (A, D1, D0, D2), (D1 + H, D1, D0, D2), (A, D0, D2, D1), (A, D2, D1, D0),
        (D2 + H, D2, D1, D0), (A, D0, D0, D2), (A, D0, D1, D1), (A, D0, D2, D2),
        (A, D0, D0, D0), (A, D0, D1, 0), (A, D0, 0, 0), (H, 0, 0, 0),
        (0, 0, 0, 0), (A - 1, D0, D1, D2), (A + 1, D0, D1, D2), (D0, D0, D1, D2),
        (0, D0, D1, D2), (A, D0 - 1, D1, D2), (A, D0 + 1, D1, D2)]
    moved = [(A - 1, D0 - 1, D1, D2), (A + 1, D0 + 1, D1, D2), (A + 2, D0 + 2, D1, D2)]
    wrapping = [(10, 10 - H + over, D1, D2), (H - 1, over - 1, D1, D2), (0, over - H, D1, D2)]
    far = [(over - 1, over - 1 - H, D1, D2)]
    equal = [(over - 1, over - 1, over - 1, over - 1)]
    other = [(3 + H, 3, 2, 1), (A, D0, 2, 1), (A, D0, D0 - 1, D0 - 2), (A, D0, D0 - 1, 1),
             (A, D0, D1, 1), (A, D0, D1 - 1, D2), (A, D0, D1 + 1, D2), (A, D0, D1, D2 - 1),
             (A, D0, D1, D2 + 1)]
    return [(*found, number) for group, number in (
        (wrong, 2), (moved, None), (wrapping, 2), (far, 1), (equal, 2), (other, None))
            for found in group]


def version_values(base):
    """(version, answer): that of the base, and those that there are none of."""
    none = [*range(VERSIONS[0]), VERSIONS[-1] + 1, VERSIONS[-1] + 2, 255, 256, 257, 258, 513, 65535]
    return [(base.version, 0)] + [(version, 2) for version in none]


def trailer_cases(bases):
    """Distances; versions; the last field."""
    cases = []
    for one in bases:
        cases += [read_whole("trailer distances", one, one.put(A=A, D0=D0, D1=D1, D2=D2), number)
                  for A, D0, D1, D2, number in distances(one)]
        cases += [read_whole("trailer version", one, one.put(version=version), number)
                  for version, number in version_values(one)]
        cases += [read_whole("trailer last field", one, one.put(last=last),
                             0 if last in limits.ZERO else 2)
                  for last in (0, 1, 255, 256, 65535)]
    return cases


# Sections -------------------------------------------------------------------

def edge_values(name, depth, d):
    """(value, answer): a field's ends and the numbers beyond them.

    Another n, method or order in range moves the fields after it: what they hold decides.
    """
    if name.endswith("_n"):
        most = limits.N[-1]
        return (0, None), (1, None), (most, None), (most + 1, 5), (most + 2, 5), (255, 5)
    if name.endswith("_idc"):
        return (0, None), (limits.MMR, 5 if name.startswith("s0") else None), (2, 5), (255, 5)
    if name.endswith("_order"):
        allowed = limits.orders(limits.MMR if "_mmr" in name else limits.POLYNOMIAL)
        return (*((order, None) for order in allowed), (allowed[-1] + 1, 5), (255, 5))
    if "_pivot" in name or name.endswith("_offset"):
        top = limits.samples(depth)[-1]
        return (0, 0), (top, 0), (top + 1, 5), (65535, 5)
    if name.endswith("_fraction"):
        top, largest = limits.fractions(d)[-1], (1 << 32) - 1
        return (0, 0), (top, 0), (top + 1, 5), (largest, 0 if largest == top else 5)
    if "_c" in name:
        return integer_edges(limits.COEF_INTS, 8)
    if "_mmr" in name:
        return integer_edges(limits.MMR_INTS, 32)
    most = limits.NLQ_INTS[-1]
    return (0, 0), (most, 0), (most + 1, 5), (255, 5)


def integer_edges(allowed, bits):
    """Of a signed field of so many bits."""
    low, high, most = allowed[0], allowed[-1], 1 << (bits - 1)
    return (low - 1, 5), (low, 0), (-1, 0), (0, 0), (high, 0), (high + 1, 5), (most - 1, 5), (-most, 5)


def names_of_sections(base):
    return [name for name in base.fields if name[0] == "s" and name[1].isdigit()]


def last_piece(base, cmp):
    """What the names of the fields of a section's last piece begin with."""
    return "s%d_p%d_" % (cmp, limits.carried(base.value("s%d_n" % cmp), base.version) - 1)


def names_of_last_pieces(base):
    last = tuple(last_piece(base, cmp) for cmp in range(3))
    return [name for name in base.fields if name.startswith(last)]


def section_edge_cases(bases, names=names_of_sections, kind="section field"):
    cases = []
    for base in bases:
        depth, d = base.value("el") + 8, base.value("d")
        for name in names(base):
            for value, number in edge_values(name, depth, d):
                if value < 1 << 32:
                    edits = base.put_all([(name, value)])
                    cases.append(read_whole(kind, base, edits, number if edits else 0))
    return cases


def shape_cases(bases):
    """n and the order too large or too small for a section of zeros.

    Where the orders are 0 too, nothing but the length can then be wrong.
    """
    most = limits.N[-1]
    cases = []
    for base in bases:
        shape = 3 if base.value("s0_p0_order") == 0 else None
        cases.append(read_whole("section shape", base, number=0))
        for cmp in range(3):
            for name, values, allowed in (
                    ("n", (0, 1, 2, 3, most - 1, most, most + 1), limits.N),
                    ("p0_order", (0, 1, limits.ORDERS[-1] + 1), limits.ORDERS)):
                for value in values:
                    field = "s%d_%s" % (cmp, name)
                    if value != base.value(field):
                        cases.append(read_whole("section shape", base,
                                                base.put_all([(field, value)]),
                                                shape if value in allowed else 5))
    return cases


def denominator_cases(base):
    """Fractions 2^d - 1 and 2^d for each d."""
    cases = []
    for d in denominators(base.value("el") + 8):
        for name in ("s0_p0_c1_fraction", "s1_max_fraction", "s2_threshold_fraction"):
            for value, number in ((limits.fractions(d)[-1], 0), (limits.fractions(d).stop, 5)):
                if value < 1 << 32 and (d % 4 == 3 or name[1] == str(d % 3)):
                    cases.append(read_whole("fraction and d", base,
                                            base.put_all([("d", d), (name, value)]), number))
    return cases


def longest_cases(base):
    """The largest section: its last pieces and pivots, n one too large."""
    top = limits.samples(base.value("bl") + 8)[-1]
    n = limits.N[-1]
    low, high = limits.COEF_INTS[0], limits.COEF_INTS[-1]
    cases = [read_whole("longest", base, number=0)]
    for cmp in range(3):
        section, piece = "s%d_" % cmp, last_piece(base, cmp)
        pivot = section + "pivot%d" % (limits.PIVOT_PLACES - 1)
        for name, value, number in (
                (section + "n", n + 1, 5), (section + "n", n - 1, None), (pivot, top + 1, 5), (pivot, top, 0),
                (piece + "idc", limits.MMR, None if cmp else 5), (piece + "idc", 2, 5),
                (piece + "order", limits.ORDERS[-1] + 1, 5), (piece + "order", 0, None),
                (piece + "c2_int", high + 1, 5), (piece + "c2_int", low - 1, 5),
                (section + "offset", top + 1, 5), (section + "threshold_int", limits.NLQ_INTS[-1] + 1, 5)):
            edits = base.put_all([(name, value)])
            cases.append(read_whole("longest", base, edits, number))
    return cases


def cut_section(base, cmp, size, tails):
    """(base, trailer edits) so that section cmp has only its first size bytes.

    Sections 0 and 1 are cut by moving the next section's distance; the bytes
    that follow are then wrong too, but later.  Section 2 needs its own block.
    """
    if cmp == 2:
        return tails[size], []
    before, after = ("D0", "D1") if cmp == 0 else ("D1", "D2")
    return base, base.put_all([(after, base.value(before) - size)])


def cut_cases(base, tails, least=1, components=range(3)):
    """Each field cut off, whole or in part, in range or not; this many bytes or more are left of a section."""
    cases = []
    depth, d = base.value("el") + 8, base.value("d")
    for cmp in components:
        start = base.fields["s%d_n" % cmp].offset
        sizes = range(least, len(split(base)[1 + cmp]))
        left = [size for size in sizes if cmp < 2 or size in tails]
        for size in left:
            cut, edits = cut_section(base, cmp, size, tails)
            cases.append(read_whole("section cut", cut, edits, 3))
        for name in names_of_sections(base):
            if not name.startswith("s%d" % cmp):
                continue
            field = base.fields[name]
            bad = base.put_all([(name, edge_values(name, depth, d)[-1][0])])
            end = field.offset + field.size - start
            for size in (end, end - 1):
                if size in left:
                    cut, edits = cut_section(base, cmp, size, tails)
                    cases.append(read_whole("bad field and cut", cut,
                                            edits + within(bad, start + size, cut)))
    return cases


def within(edits, end, base):
    """Edits of bytes that the cut base still has as bytes of the section."""
    if "A" in base.fields:
        return edits
    return [(offset, byte) for offset, byte in edits if offset < end]


def split(base):
    """Header and sections of a block made from a plan."""
    starts = [base.fields["profile"].offset]
    starts += [base.fields["s%d_n" % cmp].offset for cmp in range(3)]
    starts.append(base.fields["A"].offset)
    return [base.data[start:stop] for start, stop in zip(starts, starts[1:])]


def one_bad_length(base, cmp, change):
    """The block with section cmp one byte longer or shorter, or more."""
    header, *sections = split(base)
    sections[cmp] = change(sections[cmp])
    return block.assemble(header, sections, base.version)


def length_cases(bases, base):
    """Bytes left over and one byte missing, alone and with other faults."""
    changes = (lambda s: s + b"\0", lambda s: s + b"\1\2", lambda s: s[:-1],
               lambda s: s + bytes(400))
    n, integer, method = limits.N[-1] + 1, limits.NLQ_INTS[-1] + 1, limits.MMR + 1
    faults = (("profile", 2), ("s0_threshold_int", integer), ("s0_n", n),
              ("s1_n", n), ("s1_p0_idc", method), ("s1_threshold_int", integer),
              ("s2_n", n), ("s2_p0_idc", method), ("s2_threshold_int", integer))
    cases = []
    for cmp in range(3):
        for change in changes:
            data = one_bad_length(base, cmp, change)
            changed = bases.add(data)
            grown = len(data) - len(base.data)
            cases.append(read_whole("section length", changed, number=3))
            for name, value in faults:
                moved = grown if name[1] > str(cmp) and name[0] == "s" else 0
                edits = [(offset + moved, byte)
                         for offset, byte in base.put_all([(name, value)])]
                if all(offset < len(data) - TRAILER_BYTES for offset, _ in edits):
                    cases.append(read_whole("section length and fault", changed, edits))
            cases.append(read_part("section length and fault", changed, 1, len(data)))
    return cases


def tiny_cases(bases, base):
    """Sections of one to three bytes under a good header."""
    header = split(base)[0]
    most, beyond = bytes([limits.N[-1]]), bytes([limits.N[-1] + 1])
    cases = []
    for sections in ((b"\0", b"\0", b"\0"), (beyond, b"\0", b"\0"),
                     (b"\0\0", b"\0", b"\0"), (b"\0\4\0", b"\0", b"\0"),
                     (most + b"\0\0", beyond, beyond)):
        tiny = bases.add(block.assemble(header, sections))
        cases.append(read_whole("tiny section", tiny))
        cases.append(read_whole("tiny section", tiny, [(0, 2)]))
    return cases


# Order of the answers -------------------------------------------------------

Fault = namedtuple("Fault", "name value number")


def faults(base):
    """What one field makes wrong with the base block, and the number that it shows."""
    depth, d = base.value("el") + 8, base.value("d")
    n, integer = limits.N[-1] + 1, limits.NLQ_INTS[-1] + 1
    order, coefficient = limits.ORDERS[-1] + 1, limits.COEF_INTS[-1] + 1
    sample, fraction = limits.samples(depth)[-1] + 1, limits.fractions(d)[-1] + 1
    A, D1, D2 = (base.value(name) for name in ("A", "D1", "D2"))
    found = (
        ("version", limits.VERSIONS[-1] + 1, 2), ("last", 1, 2), ("A", A + 1, 2), ("D2", 0, 2),
        ("profile", 2, 4), ("d", denominators(depth)[-1] + 1, 4), ("el", 0, 4),
        ("half_width", limits.HALF_WIDTHS[-1] + 1, 4), ("zero20", 1, 4),
        ("D1", D1 + 1, 3), ("D2", D2 + 1, 3), ("D1", D1 - 1, 3),
        ("s0_n", n, 5), ("s0_pivot1", sample, 5), ("s0_p0_idc", limits.MMR, 5),
        ("s0_p0_order", order, 5), ("s0_p0_c1_fraction", fraction, 5),
        ("s0_threshold_int", integer, 5),
        ("s1_n", n, 5), ("s1_pivot0", sample, 5), ("s1_p0_idc", limits.MMR + 1, 5),
        ("s1_p0_c0_int", coefficient, 5), ("s1_slope_fraction", fraction, 5),
        ("s2_n", n, 5), ("s2_n", 1, 5), ("s2_pivot1", 65535, 5), ("s2_p0_idc", limits.MMR + 1, 5),
        ("s2_p0_idc", 255, 5), ("s2_p0_order", 1, 5), ("s2_p0_order", 255, 5),
        ("s2_offset", sample, 5), ("s2_threshold_fraction", 1 << 31, 5))
    return [Fault(*fault) for fault in found]


def first_met(first, second):
    """What two faults show together: 2, then 4; inside the sections the place decides."""
    for number in (2, 4):
        if number in (first.number, second.number):
            return number
    return None


def order_cases(base):
    """Every two faults together, and every fault with A too large."""
    size = len(base.data)
    cases = []
    for i, first in enumerate(faults(base)):
        edits = base.put_all([first[:2]])
        cases.append(read_whole("one fault", base, edits, first.number))
        cases.append(read_part("fault, A too large", base, 1, size, edits,
                               2 if first.number == 2 else 1))
        cases.append(read_part("fault, under 12 bytes", base, size + 1 - TRAILER_BYTES, size,
                               edits, 1))
        for second in faults(base)[i + 1:]:
            if second.name != first.name:
                cases.append(read_whole("two faults", base,
                                        base.put_all([first[:2], second[:2]]),
                                        first_met(first, second)))
    return cases


# Cuts and ignored bytes ------------------------------------------------------

def truncation_cases(base, near=None):
    """Every cut from the front and from the back, or those so near to an end."""
    size = len(base.data)
    places = [at for at in range(size + 1) if near is None or min(at, size - at) <= near]
    cases = [read_part("cut at the front", base, start, size) for start in places]
    cases += [read_part("cut at the back", base, 0, stop) for stop in places]
    return cases


def ignored_cases(base, ignored, step):
    """Bytes before the header may be there, be cut, or have any value."""
    size = len(base.data)
    cases = [read_part("ignored bytes", base, start, size)
             for start in list(range(0, ignored, step)) + [ignored - 1, ignored,
                                                           ignored + 1]]
    cases += [read_whole("ignored bytes", base, [(at, base.data[at] ^ 0xff)])
              for at in (0, ignored // 2, ignored - 1)]
    return cases


def zero_cases(bases):
    """Runs of equal bytes, shorter and longer than a trailer."""
    cases = []
    for byte in (0, 1, 255):
        base = bases.add(bytes([byte]) * 40)
        cases += [read_part("equal bytes", base, 0, stop, (), 1 if stop < TRAILER_BYTES else 2)
                  for stop in (0, 1, *range(TRAILER_BYTES - 2, TRAILER_BYTES + 2), HEADER_BYTES,
                               40)]
    return cases


# Pieces of the two versions ---------------------------------------------------

def other_version_cases(bases, number=None):
    """The trailer says the other version, so that a section has a piece too few or one too many.

    In sections of zeros nothing but their length is wrong then; what stands in others may come first.
    """
    return [refused_whole("other version", base, base.put(version=3 - base.version), number) for base in bases]


def refused_whole(kind, base, edits=(), number=None):
    """A case that is to be refused, whatever the number is where none is given."""
    assert block.read(base.changed(edits))[0] != 0
    return read_whole(kind, base, edits, number)


def piece_count_cases(bases, base, number=None):
    """One section has a piece less, or one more, than its version says; the distances are right."""
    cases = []
    for cmp in range(3):
        start, stop = (base.fields[name].offset - base.fields["s%d_n" % cmp].offset
                       for name in (last_piece(base, cmp) + "idc", "s%d_offset" % cmp))
        for change in (lambda s: s[:start] + s[stop:], lambda s: s[:stop] + s[start:]):
            changed = bases.add(one_bad_length(base, cmp, change))
            cases.append(refused_whole("other number of pieces", changed, number=number))
    return cases


def last_piece_order_cases(base):
    """A fault in a last piece and another one: 2, then 4, then the one that stands first."""
    sample, integer = limits.samples(base.value("bl") + 8)[-1] + 1, limits.NLQ_INTS[-1] + 1
    method = limits.MMR + 1
    last = (Fault(last_piece(base, 0) + "idc", limits.MMR, 5), Fault(last_piece(base, 1) + "idc", method, 5),
            Fault(last_piece(base, 2) + "order", limits.ORDERS[-1] + 1, 5),
            Fault(last_piece(base, 2) + "c1_int", limits.COEF_INTS[-1] + 1, 5))
    others = (Fault("version", VERSIONS[-1] + 1, 2), Fault("profile", 2, 4), Fault("s0_p0_idc", 2, 5),
              Fault("s0_offset", sample, 5), Fault("s1_p0_idc", method, 5), Fault("s1_offset", sample, 5),
              Fault("s2_p0_idc", method, 5), Fault("s2_threshold_int", integer, 5))
    cases = []
    for one in last:
        for other in others:
            first = min(one, other, key=lambda fault: base.fields[fault.name].offset)
            cases.append(read_whole("two faults", base, base.put_all([one[:2], other[:2]]),
                                    first_met(one, other) or first.number))
    return cases


def second_cases(bases, firsts):
    """Version 2, and blocks of both versions, `firsts` of version 1, that are made or taken for the other one."""
    generator = Generator(203)
    least_8, least_10, most = denominators(8)[0], denominators(10)[0], denominators(10)[-1]

    def add(plan, ignored=b""):
        return bases.add_plan(plan, ignored, 2)

    short = add(small_plan(10, least_10, version=2))
    second = add(small_plan(8, most, order=2, hdr_bit_depth=10, flag=1, version=2))
    middle = add(middle_plan(generator, 2))
    longest_10 = add(longest_plan(10, most, generator, 2))
    longest_8 = add(longest_plan(8, least_8, generator, 2))
    zeros = [add(zero_plan(n, order)) for n, order in ((0, 1), (2, 1), (limits.N[-1], 2))]
    behind = add(small_plan(8, 20, version=2), block.write(small_plan(8, 20)))
    alike = add(middle_plan(generator))
    tails = {size: bases.add(one_bad_length(short, 2, lambda section: section[:size])) for size in (17, 19, 28, 29, 45)}

    cases = [read_whole("valid", base, number=0) for base in (short, second, middle, behind, alike)]
    cases += trailer_cases([behind])
    cases += section_edge_cases([short, second], names_of_last_pieces)
    cases += shape_cases(zeros[:2])
    cases += longest_cases(longest_10)
    cases += longest_cases(longest_8)[:13]
    cases += cut_cases(short, tails, min(tails))
    cases += last_piece_order_cases(short)
    cases += truncation_cases(short, 14)
    cases += other_version_cases([short, second, middle, longest_10, behind, alike] + firsts)
    cases += other_version_cases(zeros, 3)
    cases += piece_count_cases(bases, zeros[0], 3)
    for base in (middle, firsts[-1]):                   # of several pieces each
        cases += piece_count_cases(bases, base)
    return cases + damage_cases([short, short, second, middle, behind], Generator(204), 120)


# MMR ------------------------------------------------------------------------

def mmr_numbers(order, first):
    """Small numbers, each another one from `first` on, every third of them below zero."""
    return [-z if z % 3 == 2 else z for z in range(first, first + limits.coefs(order, limits.MMR))]


def mmr_plan(depth, d, orders, version=1):
    """n = 0: luma a polynomial, chroma MMR of these orders; above the last pivot MMR of the next order."""
    sections = [small_section(depth, d, 0, 1, version)]
    for cmp, order in enumerate(orders, 1):
        after = limits.MMR_ORDERS[(order + 1) % len(limits.MMR_ORDERS)]
        pieces = [mmr_numbers(order, 30 * cmp), mmr_numbers(after, 100 * cmp)]
        sections.append(small_section(depth, d, cmp, 1, version)._replace(pieces=pieces[:limits.carried(0, version)]))
    return make_plan(depth, d, 12, 8, 4, sections)


def whole_range_piece(d, size, generator):
    """So many numbers over the whole range of the method that has as many."""
    allowed = limits.coefficients(d, PIECES[size][0])
    return [generator.among(allowed) for _ in range(size)]


def mixed_plan(depth, d, generator, version=1):
    """Both methods and all orders in one component; luma of polynomials."""
    top = limits.samples(depth)[-1]
    sections = []
    for sizes in ((2, 3), (8, 2, 22, 3, 15, 8), (3, 15, 22)):
        n = len(sizes) - 2
        pivots = [i * top // (n + 1) for i in range(limits.pivots(n))]
        pieces = [whole_range_piece(d, size, generator) for size in sizes[:limits.carried(n, version)]]
        sections.append(Section(pivots, pieces, Nlq(top // 3, 1 << d, 5, 6)))
    return make_plan(depth, d, 12, 16, 16, sections)


def mmr_zero_plan(n, order):
    """Chroma of MMR pieces of zeros: another n, method or order then meets a wrong length only."""
    plan = zero_plan(n, 1)
    for cmp in (1, 2):
        for piece in range(limits.pieces(n)):
            set_piece(plan, cmp, piece, [0] * limits.coefs(order, limits.MMR))
    return plan


def longest_mmr_plan(depth, d, generator, version=1):
    """The longest block there is: all pieces, chroma of MMR of the highest order, every number its own."""
    plan = longest_plan(depth, d, generator, version)
    for cmp in (1, 2):
        for piece in range(limits.carried(limits.N[-1], version)):
            set_piece(plan, cmp, piece, whole_range_piece(d, limits.COEF_PLACES, generator))
        if version == 1:
            block.repeat_last_piece(plan, cmp)
    return plan


def names_of_mmr(base):
    """The fields of chroma from the pieces on."""
    return [name for name in names_of_sections(base) if name[1] in "12" and not name.endswith("_n")
            and "_pivot" not in name]


def names_of_last_mmr(base):
    return [name for name in names_of_last_pieces(base) if name[1] in "12"]


def mmr_values(base):
    """Values of single fields that are telling beside the edges, with what they show: methods, signs, widths."""
    more = limits.MMR_INTS[-1] + 1
    for piece in ("s1_p0_", "s2_p0_"):
        last = limits.coefs(base.value(piece + "mmr_order"), limits.MMR) - 1
        for name in (piece + "mmr0_int", piece + "mmr%d_int" % last):
            yield from ((name, value, 0) for value in (63, 64, -65, 255, 256, 32768, -32769))
            yield from ((name, value, 5) for value in (1 << 23, 1 << 24, -1 << 24, more << 8, more | 1, -more - 256))
        yield from ((piece + "idc", value, 5) for value in (3, 128, 254))
        yield from ((piece + "mmr_order", value, 5) for value in (4, 128, 254))


def mmr_shape_cases(bases):
    """n, the method and the order other ones, in sections of zeros: of one piece only the length is wrong then."""
    cases = []
    for base in bases:
        cases.append(read_whole("MMR shape", base, number=0))
        for cmp in (1, 2):
            section = "s%d_" % cmp
            shape = 3 if last_piece(base, cmp) == section + "p0_" else None
            wrong = [("n", n, shape) for n in (0, 1, 2, limits.N[-1])]
            wrong += [("p0_idc", 0, shape if base.value(section + "p0_mmr_order") in limits.ORDERS else 5)]
            wrong += [("p0_mmr_order", order, shape) for order in limits.MMR_ORDERS]
            wrong += [("n", limits.N[-1] + 1, 5), ("p0_mmr_order", 3, 5), ("p0_mmr_order", 255, 5)]
            cases += [refused_whole("MMR shape", base, base.put_all([(section + name, value)]), number)
                      for name, value, number in wrong if value != base.value(section + name)]
    return cases


def mmr_denominator_cases(base):
    """Fractions 2^d - 1 and 2^d of the constant and of a last coefficient for each d."""
    cases = []
    for d in denominators(base.value("el") + 8):
        name = ("s1_p0_mmr0_fraction", "s2_p0_mmr7_fraction", "s1_p0_mmr6_fraction")[d % 3]
        for value, number in ((limits.fractions(d)[-1], 0), (limits.fractions(d).stop, 5)):
            if value < 1 << 32:
                edits = base.put_all([("d", d), (name, value)])
                cases.append(read_whole("MMR fraction and d", base, edits, number))
    return cases


def mmr_length_cases(bases, base):
    """Bytes left over and bytes missing in a chroma section, alone and with another fault after them."""
    cases = []
    for cmp in (1, 2):
        for change in (lambda s: s + b"\0", lambda s: s + bytes(8), lambda s: s[:-1], lambda s: s[:-8],
                       lambda s: s + bytes(limits.MMR_TERMS * 8)):
            data = one_bad_length(base, cmp, change)
            changed = bases.add(data)
            cases.append(read_whole("MMR length", changed, number=3))
            if cmp == 1:
                at = len(data) - TRAILER_BYTES - base.value("D2")      # the first byte of section 2
                cases.append(read_whole("MMR length", changed, [(at, limits.N[-1] + 1)], 3))
    return cases


def mmr_for_luma_cases(bases, base):
    """Section 1 in the place of section 0 too: nothing is wrong but the method."""
    header, _, cb, cr = split(base)
    made = bases.add(block.assemble(header, [cb, cb, cr], base.version))
    return [read_whole("MMR for luma", made, number=5)]


def mmr_faults(base):
    """Fields of MMR pieces and round about them, in the order of the block; each shows 5."""
    fraction, beyond = limits.fractions(base.value("d")).stop, limits.MMR_INTS[-1] + 1
    return [Fault(name, value, 5) for name, value in (
        ("s0_p0_idc", limits.MMR), ("s0_p0_c1_int", limits.COEF_INTS[-1] + 1), ("s1_p0_idc", limits.MMR + 1),
        ("s1_p0_mmr_order", limits.MMR_ORDERS[-1] + 1), ("s1_p0_mmr0_int", beyond), ("s1_p0_mmr0_fraction", fraction),
        ("s1_p0_mmr4_int", -beyond - 1), ("s1_offset", 65535), ("s2_p0_mmr_order", 255),
        ("s2_p0_mmr0_fraction", fraction), ("s2_p0_mmr7_int", beyond), ("s2_p0_mmr7_fraction", fraction),
        ("s2_threshold_int", 2))]


def mmr_order_cases(base):
    """Each fault with one that comes before it, or with section 1 a byte shorter or longer, which shows at its end."""
    D2, size = base.value("D2"), len(base.data)
    cases = []
    for fault in mmr_faults(base):
        for other, number in ((("version", limits.VERSIONS[-1] + 1), 2), (("half_height", 0), 4),
                              (("D2", D2 + 1), 3 if fault.name.startswith("s2") else 5),
                              (("D2", D2 - 1), 3 if fault.name.startswith("s2") else 5)):
            cases.append(read_whole("MMR faults", base, base.put_all([fault[:2], other]), number))
        edits = base.put_all([fault[:2]])
        cases.append(read_whole("MMR faults", base, edits, fault.number))
        cases.append(read_part("MMR faults", base, 1, size, edits, 1))
    return cases


def longest_mmr_cases(base):
    """The last piece of each chroma section, and one too many of everything."""
    n, beyond = limits.N[-1], limits.MMR_INTS[-1] + 1
    cases = [read_whole("MMR longest", base, number=0)]
    for cmp in (1, 2):
        section, piece = "s%d_" % cmp, last_piece(base, cmp)
        last = piece + "mmr%d_" % (limits.COEF_PLACES - 1)
        cases += [read_whole("MMR longest", base, base.put_all([(name, value)]), number) for name, value, number in (
            (section + "n", n + 1, 5), (section + "n", n - 1, None), (piece + "idc", 2, 5), (piece + "idc", 0, None),
            (piece + "mmr_order", 3, 5), (piece + "mmr_order", 1, None), (piece + "mmr0_int", beyond, 5),
            (last + "int", -beyond - 1, 5), (last + "int", 0, 0), (section + "threshold_int", 2, 5))]
    return cases


def cut_tails(bases, base):
    """{size: block} of which the last section has so many bytes: each field whole, and less its last byte."""
    start = base.fields["s2_n"].offset
    ends = {field.offset + field.size - start for name, field in base.fields.items() if name.startswith("s2_")}
    sizes = {size for end in ends for size in (end, end - 1) if 0 < size < max(ends)}
    return {size: bases.add(one_bad_length(base, 2, lambda section: section[:size])) for size in sorted(sizes)}


def mmr_cases(bases):
    """MMR pieces in both versions."""
    generator = Generator(205)
    least_8, least_10, most = denominators(8)[0], denominators(10)[0], denominators(10)[-1]
    short = bases.add_plan(mmr_plan(10, least_10, (0, 0)))
    higher = bases.add_plan(mmr_plan(8, most, (1, 2)))
    short_two = bases.add_plan(mmr_plan(8, least_8, (0, 2), 2), version=2)
    mixed, mixed_two = (bases.add_plan(mixed_plan(depth, d, generator, version), version=version)
                        for depth, d, version in ((10, most, 1), (8, 20, 2)))
    zeros = [bases.add_plan(mmr_zero_plan(n, order)) for n, order in ((0, 0), (0, 1), (0, 2), (2, 0))]
    zeros.append(bases.add_plan(mmr_zero_plan(0, 1), version=2))
    longest = [bases.add_plan(longest_mmr_plan(depth, d, generator, version), version=version)
               for depth, d, version in ((10, most, 1), (8, least_8, 2))]
    behind = bases.add_plan(mmr_plan(10, 23, (2, 1)), block.write(small_plan(8, 20)))
    tails = cut_tails(bases, short)

    cases = [read_whole("MMR valid", base, number=0) for base in (short, higher, short_two, mixed, mixed_two, behind)]
    cases += [read_whole("MMR valid", base, base.put(profile=profile), 0) for base in (short, mixed_two)
              for profile in limits.PROFILES[1:]]
    cases += section_edge_cases([short, higher], names_of_mmr, "MMR field")
    cases += section_edge_cases([short_two], names_of_last_mmr, "MMR field")
    cases += [read_whole("MMR field", base, base.put_all([(name, value)]), number) for base in (short, higher)
              for name, value, number in mmr_values(base)]
    cases += mmr_shape_cases(zeros)
    cases += mmr_denominator_cases(short)
    cases += [case._replace(kind="MMR cut") for case in cut_cases(short, tails, components=(1, 2))]
    cases += mmr_length_cases(bases, short)
    for base in (short, higher, short_two):
        cases += mmr_for_luma_cases(bases, base)
    cases += mmr_order_cases(short)
    for base in longest:
        assert len(base.data) == limits.LONGEST_BLOCK[base.version]
        cases += longest_mmr_cases(base)
    cases += [refused_whole("MMR, other version", base, base.put(version=3 - base.version))
              for base in (short, higher, short_two, mixed, mixed_two, *longest)]
    ignored = ignored_cases(behind, behind.fields["profile"].offset, 20)
    damaged = damage_cases([short, short, higher, short_two, mixed, mixed_two, behind], Generator(206), 500)
    cases += [case._replace(kind="MMR ignored bytes") for case in ignored]
    return cases + [case._replace(kind="MMR damaged") for case in damaged]


# Random damage ----------------------------------------------------------------

def ends(allowed):
    """The last value and those beyond both ends, as bytes."""
    return {value % 256 for value in (allowed[0], allowed[0] - 1, allowed[-1], allowed[-1] + 1)}


NEAR_VALUES = sorted({*range(6), 127, 128} | ends(limits.N) | ends(limits.COEF_INTS)
                     | {denominators(DEPTHS[0])[-1], denominators(DEPTHS[0])[-1] + 1})


def random_byte(old, generator):
    kind = generator.below(4)
    if kind == 0:
        return (old + generator.choice((1, 255))) % 256
    if kind == 1:
        return old ^ (1 << generator.below(8))
    if kind == 2:
        return generator.choice(NEAR_VALUES)
    return generator.below(256)


def random_offset(base, generator):
    """Half of the edits hit a field other than a fraction."""
    if base.fields and generator.one_in(2):
        fields = [field for name, field in base.fields.items()
                  if not name.endswith("_fraction")]
        field = generator.choice(fields)
        return field.offset + generator.below(field.size)
    return generator.below(len(base.data))


def damaged_case(base, generator):
    edits = {}
    for _ in range(generator.between(1, 3)):
        offset = random_offset(base, generator)
        edits[offset] = random_byte(base.data[offset], generator)
    start, stop = 0, len(base.data)
    cut = generator.below(12)
    if cut == 0:
        start = generator.below(stop)
    elif cut == 1:
        stop = generator.between(0, stop)
    elif cut == 2:
        start = generator.below(stop)
        stop = generator.between(start, stop)
    return read_part("damaged", base, start, stop, edits.items())


def damage_cases(choices, generator, number):
    return [damaged_case(generator.choice(choices), generator) for _ in range(number)]


def data_of(bases, case):
    """The bytes that a case has read."""
    data = bytearray(bases[case.base])
    for offset, byte in case.edits:
        data[offset] = byte
    return bytes(data[case.start:case.stop])


def all_cases():
    """(the base blocks' bytes, the cases)."""
    bases = Bases()
    generator = Generator(201)
    least_8, least_10, most = denominators(8)[0], denominators(10)[0], denominators(10)[-1]
    short_10 = bases.add_plan(small_plan(10, least_10))
    short_8 = bases.add_plan(small_plan(8, least_8, hdr_bit_depth=10))
    second_10 = bases.add_plan(small_plan(10, most, order=2, flag=1))
    second_8 = bases.add_plan(small_plan(8, most - 1, order=2))
    middle = bases.add_plan(middle_plan(generator))
    longest_10 = bases.add_plan(longest_plan(10, most, generator))
    longest_8 = bases.add_plan(longest_plan(8, least_8, generator))
    other = block.write(small_plan(8, 20, order=2))
    after_other = bases.add_plan(small_plan(10, least_10), other)
    noise = bytes(generator.below(256) for _ in range(2000))
    after_noise = bases.add_plan(small_plan(8, least_8), noise)
    zeros = [bases.add_plan(zero_plan(n, order))
             for n, order in ((0, 1), (0, 2), (2, 1), (limits.N[-1], 2))]
    tails = {size: bases.add(one_bad_length(short_10, 2, lambda section: section[:size]))
             for size in range(1, SHORTEST_SECTION[1])}

    cases = [read_whole("valid", base, number=0) for base in bases.all[:5]]
    cases += header_cases([short_10, short_8])
    cases += trailer_cases([short_10, after_other])
    cases += section_edge_cases([short_10, short_8, second_10, second_8])
    cases += shape_cases(zeros)
    cases += denominator_cases(short_10)
    cases += longest_cases(longest_10)
    cases += longest_cases(longest_8)[:13]
    cases += cut_cases(short_10, tails)
    cases += length_cases(bases, short_10)
    cases += tiny_cases(bases, short_10)
    cases += order_cases(short_10)
    cases += truncation_cases(short_10)
    cases += truncation_cases(middle)
    cases += ignored_cases(after_other, len(other), 10)
    cases += ignored_cases(after_noise, len(noise), 250)
    cases += zero_cases(bases)
    cases += damage_cases([short_10, short_10, short_8, short_8, middle, second_8,
                           after_other, tails[SHORTEST_SECTION[1] - 1]], Generator(202), 3000)
    cases += other_version_cases(zeros, 3) + piece_count_cases(bases, zeros[2], 3)
    cases += second_cases(bases, [short_10, second_8, longest_10, after_other, middle])
    cases += mmr_cases(bases)
    return [base.data for base in bases.all], cases
