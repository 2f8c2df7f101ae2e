"""Writing cases for write_vectors: slices, versions, every place at its ends and beyond, shapes, fractions, blocks.

A case is a block's plan with some places changed, a version, the slice's length and what it holds before. It is made
with the number that it is to show, and writing has to give it. SHOWS says which wrong writers each kind of case tells
from the right one; selftest.py builds them (wrong_writers.py) and holds the cases to it.
"""

from collections import namedtuple

import block
import limits
import writer
from block_cases import all_cases as all_block_cases
from block_cases import data_of, longest_mmr_plan, longest_plan, mmr_plan, small_plan
from composer import Plan
from generator import Generator
from jobs import breaks_rule_7
from limits import LONGEST_BLOCK, N, SHORTEST_BLOCK, VERSIONS, denominators
from mmr_cases import random_mmr_plan
from places import PIECE, changed
from plan_cases import base_plan, counts_by, header_cases, method_cases, place_cases, random_cases
from sample_cases import random_plan

Group = namedtuple("Group", "data cases")       # data: a block, from which the plan is read
Case = namedtuple("Case", "kind edits version size first")      # of the slice: its length, what it begins with

LARGEST_BLOCK = 8192        # of those that are read, with the bytes before their header
LARGEST_SLICE = 6720
NO_VERSIONS = (0, 3, 255, 256, 257, 258, 513, 32769, 65535)

SHOWS = {
    "slice": (
        "exact fit refused", "12 after a part was written", "lengths by their low bytes", "the slice's length answered",
        "written at the slice's end", "one byte after the block overwritten", "the bytes after the block cleared",
        "the slice's last byte overwritten", "the last byte left", "the first byte left", "the header's zeros left",
        "zeros only", "distances to the trailer's end", "A without the header", "distances in the other order",
        "distances of one byte", "version 0 written", "the longest block's length"),
    "version": (
        "every version taken", "a version by its low byte", "12 before 7", "12 for 7", "7 after the slice was cleared",
        "a length though the version is refused", "every version taken for 2", "version 3 taken for 2",
        "version 2 refused", "version 1 in every trailer", "version 1's sections in version 2"),
    "other version": (
        "version 2 refused", "version 1 in every trailer", "version 1's sections in version 2",
        "version 1 of pieces that differ", "only luma's pieces compared", "only Cb's pieces compared",
        "Cr's pieces not compared", "every version taken"),
    "last pieces differ": (
        "version 1 of pieces that differ", "only luma's pieces compared", "only Cb's pieces compared",
        "Cr's pieces not compared", "only the orders compared", "only the first coefficients compared",
        "the orders not compared", "the third coefficients not compared", "12 before the pieces are compared",
        "piece n twice in version 2", "7 after the slice was cleared", "12 for 7", "a length though the pieces differ"),
    "slice, version 2": (
        "exact fit refused", "12 after a part was written", "lengths by their low bytes", "the slice's length answered",
        "one byte after the block overwritten", "the last byte left", "distances of one byte",
        "the longest block's length", "version 2 refused", "version 1's sections in version 2",
        "piece n twice in version 2"),
    "shape, version 2": (
        "the last piece lost", "three coefficients always", "distances of one byte", "piece n twice in version 2",
        "version 1's sections in version 2"),
    "good place": (
        "little endian", "slope and threshold swapped", "hdr_in_max and slope swapped", "Cb and Cr swapped",
        "pivots in place of their differences", "no profile", "no d", "no bl", "no el", "no hdr", "no flag",
        "no half_width", "no half_height", "no lum_max", "no lum_min"),
    "bad place": (
        "unused places not tested", "luma's method not tested", "methods above 1 taken for MMR",
        "methods above 1 taken for polynomials", "polynomials by the range of MMR",
        "the darkest luminance not tested", "12 before 7", "12 for 7", "7 after the slice was cleared"),
    "shape": (
        "the last piece lost", "three coefficients always", "the longest block's length", "distances of one byte"),
    "fraction": (
        "a fraction with the integer part's sign", "a fraction of 32 bits", "the integer part's sign lost",
        "hdr_in_max's integer part lost", "the slope's integer part lost", "the threshold's integer part lost"),
    "several places": ("little endian", "unused places not tested"),
    "random plan": (
        "a fraction with the integer part's sign", "the last piece lost", "three coefficients always", "little endian"),
    "as read": (
        "a fraction with the integer part's sign", "slope and threshold swapped", "little endian",
        "distances to the trailer's end", "the last byte left", "zeros only"),
    "plan of zeros": ("12 before 7", "7 after the slice was cleared"),
    "MMR slice": (
        "exact fit refused", "12 after a part was written", "lengths by their low bytes", "the last byte left",
        "distances of one byte", "the longest block's length", "MMR refused", "MMR integer parts of two bytes"),
    "MMR good place": (
        "MMR refused", "MMR by the range of polynomials", "MMR's method lost", "MMR's order for the order less 1",
        "the constant last", "MMR numbers by term", "all three orders always", "the last MMR number lost",
        "MMR integer parts of one byte", "MMR integer parts of two bytes", "MMR integer parts of 16 bits",
        "little endian", "a fraction with the integer part's sign"),
    "MMR bad place": (
        "unused MMR numbers not tested", "luma's method not tested", "methods above 1 taken for MMR",
        "polynomials by the range of MMR", "unused places not tested", "12 for 7", "7 after the slice was cleared"),
    "MMR shape": ("the last piece lost", "version 1 of pieces that differ", "the last MMR number lost"),
    "MMR fraction": (
        "a fraction with the integer part's sign", "a fraction of 32 bits", "the integer part's sign lost",
        "MMR integer parts of one byte", "MMR integer parts of 16 bits", "MMR by the range of polynomials"),
    "MMR last pieces differ": (
        "only three coefficients compared", "the last coefficients not compared", "the methods not compared",
        "only first and second orders compared", "the orders not compared", "only Cb's pieces compared",
        "Cr's pieces not compared", "12 before the pieces are compared"),
    "MMR random plan": ("the constant last", "MMR numbers by term", "MMR integer parts of two bytes"),
}


class Groups:
    """Collects cases under the block that they begin with, each with another first byte of the slice."""

    def __init__(self):
        self.all = []
        self.made = 0

    def begin(self, data):
        """A block whose cases come next; one that is refused gives the plan of zeros."""
        self.plan = plan_of(data)
        self.all.append(Group(data, []))

    def add(self, kind, number, edits, version, size):
        """A case that is to show this number."""
        self.made += 1
        case = Case(kind, edits, version, size, 41 * self.made % 256)
        found, _, _ = writer.write_into(changed(self.plan, edits), version, bytes(size))
        assert found == number, "%s: %d in place of %d for %s" % (kind, found, number, edits)
        self.all[-1].cases.append(case)

    def add_fitting(self, kind, edits, spare, version=None):
        """A plan that can be written: slices of its block's length and so many bytes to spare, or too few."""
        plan = changed(self.plan, edits)
        version = version or least_version(plan)
        for more in spare:
            self.add(kind, 0 if more >= 0 else 12, edits, version, writer.length(plan, version) + more)


def least_version(plan):
    """Of those that a plan in range can be written as."""
    return next(version for version in VERSIONS if block.has_place_for(version, plan))


def plan_of(data):
    number, plan = block.read(data)
    return plan if number == 0 else Plan()


def slice_cases(groups, generator):
    """Every length up to the shortest block's, and those about long ones' and their low bytes."""
    shortest, longest = SHORTEST_BLOCK[1], LONGEST_BLOCK[1]
    groups.begin(block.write(small_plan(10, denominators(10)[0])))
    for size in (*range(shortest + 3), shortest + 256, longest, LARGEST_SLICE):
        groups.add("slice", 0 if size >= shortest else 12, [], 1, size)
    for depth, d in ((10, denominators(10)[-1]), (8, denominators(8)[0])):
        long_slices(groups, "slice", longest_plan(depth, d, generator), 1)


def long_slices(groups, kind, plan, version, more=()):
    """Lengths about a long block's and its low byte."""
    data = block.write(plan, version)
    size, low = len(data), len(data) % 256
    groups.begin(data)
    for given in (0, 1, 12, 24, 36, SHORTEST_BLOCK[version], low - 1, low, low + 1, 512 + low, size - 12, size - 1,
                  size, size + 1, size + 16, LARGEST_SLICE, *more):
        groups.add(kind, 0 if given >= size else 12, [], version, given)


def second_slice_cases(groups, generator):
    """The same for version 2: of the shortest block lengths about both versions'."""
    shortest, longest = SHORTEST_BLOCK[2], LONGEST_BLOCK[2]
    groups.begin(block.write(small_plan(8, denominators(8)[-1], version=2), 2))
    for size in (0, 11, SHORTEST_BLOCK[1] - 1, SHORTEST_BLOCK[1], *range(shortest - 13, shortest + 3), shortest + 256,
                 longest, LARGEST_SLICE):
        groups.add("slice, version 2", 0 if size >= shortest else 12, [], 2, size)
    long_slices(groups, "slice, version 2", longest_plan(10, 27, generator, 2), 2, (1008, 1007))


def version_cases(groups, generator):
    """A version that is none is refused 7, also where the slice is too short; both others are written."""
    for plan in (small_plan(8, denominators(8)[0]), longest_plan(10, 23, generator)):
        data = block.write(plan)
        groups.begin(data)
        for version in NO_VERSIONS:
            for size in (0, len(data) - 1, len(data), len(data) + 1):
                groups.add("version", 7, [], version, size)
        for version in VERSIONS:
            groups.add("version", 12, [], version, 0)
            groups.add_fitting("version", [], (-1, 0, 1), version)


def place_groups(groups, generator):
    """Every place by itself: at its ends it is written, beyond them it is 7 whatever the slice's length is.

    A plan whose pieces are changed is refused as version 2, since as version 1 its last two may differ too.
    """
    for depth, d, sizes in ((10, 23, (0, 3, N[-1])), (8, denominators(8)[-1], (N[-1], 0, 7))):
        plan = base_plan(depth, d, sizes, generator)
        data = block.write(plan)
        groups.begin(data)
        for at, case in enumerate(header_cases(plan) + place_cases(plan)):
            if breaks_rule_7(changed(plan, case.edits)):
                version = 2 if case.edits[0][0][0] in PIECE else 1
                size = (0, len(data) - 1, len(data), len(data) + 9)[at % 4]
                groups.add("bad place", 7, case.edits, version, size)
            else:
                groups.add_fitting("good place", case.edits, ((0,), (1,), (17,), (-1, 0))[at % 4])


def shape_cases(groups, generator):
    """Every number of pieces in every section, orders in turn; then all of one order; then as version 2."""
    for n in N:
        groups.begin(block.write(base_plan(10, 24, (n, (n + 5) % len(N), (n + 10) % len(N)), generator)))
        groups.add_fitting("shape", [], (-1, 0, 2))
        groups.add_fitting("shape", same_orders(groups.plan, 1), (0,))
        groups.add_fitting("shape", same_orders(groups.plan, 0), (0,))
        groups.add_fitting("other version", [], (n % 2 - 1,), 2)


def second_shape_cases(groups, generator):
    """Pieces n + 1 that are unlike piece n; written as version 1 only once all pieces are alike."""
    for sizes in ((0, 1, N[-1]), (N[-1], 0, 7), (6, N[-1], 0)):
        groups.begin(block.write(base_plan(8, 24, sizes, generator, 2), 2))
        groups.add_fitting("shape, version 2", [], (-1, 0, 2), 2)
        groups.add_fitting("shape, version 2", same_orders(groups.plan, 1), (0,), 2)
        groups.add_fitting("shape, version 2", same_orders(groups.plan, 0), (0,), 2)
        size = writer.length(groups.plan, 2)
        for version in (1, *NO_VERSIONS):
            groups.add("other version", 7, [], version, size - version % 2)
        y, cb, cr = (last_pieces_alike(groups.plan, cmp) for cmp in range(3))
        for version in VERSIONS:
            groups.add_fitting("other version", y + cb + cr, (0,), version)
        for edits in (cb + cr, y + cr, y + cb):
            groups.add("other version", 7, edits, 1, size)


def last_pieces_alike(plan, cmp):
    """Edits that make piece n + 1 what piece n is."""
    n = plan.num_pivots_minus2[cmp]
    return ([((name, cmp, n + 1), getattr(plan, name)[cmp][n]) for name in ("mapping_idc", "order_minus1")]
            + [(("fp_coef", cmp, n + 1, i), z) for i, z in enumerate(plan.fp_coef[cmp][n])
               if z != plan.fp_coef[cmp][n + 1][i]])


def same_orders(plan, order):
    """Edits that give every used piece this order."""
    edits = []
    for cmp in range(3):
        for piece in range(limits.pieces(plan.num_pivots_minus2[cmp])):
            edits.append((("order_minus1", cmp, piece), order))
            if order == 0:
                edits.append((("fp_coef", cmp, piece, 2), 0))
    return edits


def coefficients_to_write(d):
    """Below zero with and without a fraction, both ends, and the least beside whole numbers."""
    one, allowed = 1 << d, limits.coefficients(d)
    return (allowed[0], allowed[0] + 1, -one, -one + 1, -one + 32767 % one, -one // 2, -1, 0, 1, one - 1, one,
            allowed[-1] - one + 1, allowed[-1])


def fraction_cases(groups):
    """Each such number in each place of a row, and the ends of the numbers after the pieces, for several d.

    n is 0: a number that stands in both pieces is written as version 1, one in the last alone as version 2.
    """
    for depth, d in ((8, 13), (10, 15), (10, 16), (8, 20), (10, 23), (8, 31), (10, 32)):
        groups.begin(block.write(small_plan(depth, d, order=2)))
        for at, z in enumerate(coefficients_to_write(d)):
            for i in range(3):
                pieces = (1,) if (at + i) % 4 == 3 else (0, 1)
                edits = [(("fp_coef", (at + i) % 3, piece, i), z) for piece in pieces]
                groups.add_fitting("fraction", edits, (at % 2,))
        numbers = limits.nlq_numbers(d)
        for at, v in enumerate((0, 1, (1 << d) - 1, 1 << d, (1 << d) + 1, numbers[-1])):
            for k, name in enumerate(("fp_hdr_in_max", "fp_linear_deadzone_slope", "fp_linear_deadzone_threshold")):
                groups.add_fitting("fraction", [((name, (at + k) % 3), v)], (at % 2,))


def several_places(groups, generator):
    """Good single edits together, and then any."""
    plan = base_plan(10, 25, (2, 6, 1), generator)
    groups.begin(block.write(plan))
    singles = place_cases(plan)
    good = [case for case in singles if not breaks_rule_7(changed(plan, case.edits))]
    for case in random_cases(plan, good, generator, 60) + random_cases(plan, singles, generator, 60):
        if breaks_rule_7(changed(plan, case.edits)):
            groups.add("several places", 7, case.edits, 1, generator.below(SHORTEST_BLOCK[1]))
        else:
            groups.add_fitting("several places", case.edits, (generator.between(-1, 3),))


def random_plans(groups, generator, number, version=1):
    for _ in range(number):
        plan = random_plan(((2, 2), (1920, 1080), (3840, 2160)), generator, version)
        groups.begin(block.write(plan, version))
        groups.add_fitting("random plan", [], (-1, 0, 1 + generator.below(100)), version)


WRITTEN_MMR = ("MMR valid", "MMR valid, version 2", "MMR longest", "MMR longest, version 2")


def blocks_as_read(groups):
    """Every block that block_vectors accepts, with the bytes before its header; some as the other version too.

    Of those with other MMR numbers every fourth.
    """
    bases, cases = all_block_cases()
    accepted = {}
    for at, case in enumerate(cases):
        data = data_of(bases, case)
        if data not in accepted and block.read(data)[0] == 0:
            accepted[data] = case.kind.startswith("MMR") and case.kind not in WRITTEN_MMR and at % 4 > 0
    for at, data in enumerate(data for data, is_left_out in accepted.items() if not is_left_out):
        version = block.version_of(data)
        groups.begin(data)
        groups.add_fitting("as read", [], (at % 3,), version)
        if (version == 2 or at % 10 == 0) and block.has_place_for(3 - version, groups.plan):
            groups.add_fitting("other version", [], (at % 3,), 3 - version)


def differing_cases(groups, generator):
    """Pieces n and n + 1 that differ in one field of one component: version 2 is written, version 1 is refused."""
    plans = [small_plan(10, 20, order=2), small_plan(8, 21), longest_plan(10, 26, generator),
             base_plan(8, 25, (3, 0, N[-1]), generator)]
    for plan in plans:
        groups.begin(block.write(plan))
        for cmp in range(3):
            for edits in one_field(plan, cmp):
                groups.add("last pieces differ", 7, edits, 1, writer.length(plan, 1))
                groups.add("last pieces differ", 7, edits, 1, writer.length(plan, 1) - 1)
                groups.add_fitting("last pieces differ", edits, (0,), 2)


def one_field(plan, cmp):
    """Edits that change the order of one of the two pieces, or one coefficient; in range with each of them."""
    n = plan.num_pivots_minus2[cmp]
    order = plan.order_minus1[cmp][n]
    for piece in (n, n + 1):
        for i in range(limits.coefs(order)):
            place = ("fp_coef", cmp, piece, i)
            z = plan.fp_coef[cmp][n][i]
            yield [(place, z + 1 if z < 0 else z - 1)]
        # the third coefficient is 0, so that no more than the order differs
        thirds = [(("fp_coef", cmp, both, 2), 0) for both in (n, n + 1) if order == 1]
        yield [(("order_minus1", cmp, piece), 1 - order)] + thirds


# MMR ------------------------------------------------------------------------

def mmr_slice_cases(groups, generator):
    """The longest blocks of both versions, and the shortest with MMR in both chroma sections."""
    for depth, d, version in ((10, denominators(10)[-1], 1), (8, denominators(8)[0], 2)):
        long_slices(groups, "MMR slice", longest_mmr_plan(depth, d, generator, version), version,
                    (1008, 1059, LONGEST_BLOCK[3 - version]))
    for version in VERSIONS:
        plan = mmr_plan(10, 20, (0, 0), version)
        groups.begin(block.write(plan, version))
        for more in (-64, -8, -4, -1, 0, 1, 256):
            groups.add("MMR slice", 0 if more >= 0 else 12, [], version, writer.length(plan, version) + more)
        groups.add("MMR slice", 7, [], 3, LARGEST_SLICE)


def mmr_place_groups(groups, generator):
    """Every place of chroma by itself, used by MMR, by polynomials and by none, as place_groups does."""
    for depth, d, sizes, first in ((8, 24, (0, 1, 0), 0), (10, denominators(10)[0], (1, 0, 2), 1)):
        plan = base_plan(depth, d, sizes, generator, 1, counts_by(first, (2, 15, 8, 3)))
        data = block.write(plan)
        groups.begin(data)
        near = max(sizes) + 3
        chosen = [case for case in place_cases(plan, lambda place: place[2] < near) if is_near(case.edits[0][0], near)]
        for at, case in enumerate(chosen + method_cases(plan, 0) + method_cases(plan, 2)):
            if breaks_rule_7(changed(plan, case.edits)):
                groups.add("MMR bad place", 7, case.edits, 2, (0, len(data) - 1, len(data), len(data) + 9)[at % 4])
            else:
                groups.add_fitting("MMR good place", case.edits, ((0,), (1,), (17,), (-1, 0))[at % 4])


def is_near(place, near):
    """A place of one of the first pieces of chroma."""
    return place[0] in PIECE and place[1] > 0 and place[2] < near


def mmr_shape_cases(groups, generator):
    """Several numbers of pieces, methods and orders in turn, in both versions."""
    for n in (0, 1, 2, 7, N[-1]):
        for version in VERSIONS:
            sizes = (n % 4, n, (n + 9) % len(N))
            plan = base_plan(10, 24, sizes, generator, version, counts_by(n % 2, (8, 3, 15, 2)))
            groups.begin(block.write(plan, version))
            groups.add_fitting("MMR shape", [], (-1, 0, 2), version)
            if version == 1:
                groups.add_fitting("MMR shape", [], (n % 2 - 1,), 2)
            else:
                groups.add("MMR shape", 7, [], 1, writer.length(plan, 2))


def mmr_numbers_to_write(d):
    """Below zero with and without a fraction, both ends, those of fewer bytes, and the least beside whole numbers."""
    one, allowed = 1 << d, limits.coefficients(d, limits.MMR)
    return (allowed[0], allowed[0] + 1, -32769 * one + 5, -257 * one, -129 * one + 1, -65 * one, -one, -one + 1,
            -one // 2, -1, 0, 1, one - 1, one, 63 * one, 64 * one, 128 * one, 256 * one + 1, 32768 * one,
            allowed[-1] - one + 1, allowed[-1])


def mmr_fraction_cases(groups):
    """Each such number in some places of a row, for several d; written as in fraction_cases."""
    for depth, d in ((8, 13), (10, 15), (10, 23), (8, 32)):
        groups.begin(block.write(mmr_plan(depth, d, (2, 1))))
        for at, z in enumerate(mmr_numbers_to_write(d)):
            for k, i in enumerate((0, 1 + at % 7, 8 + at % 7, 15 + at % 7)):
                cmp = 1 if i > 14 else 1 + (at + k) % 2
                pieces = (1,) if (at + k) % 4 == 3 else (0, 1)
                groups.add_fitting("MMR fraction", [(("fp_coef", cmp, piece, i), z) for piece in pieces], (at % 2,))


def mmr_differing_cases(groups, generator):
    """Pieces n and n + 1 that differ in one number, in the order or in the method alone, as in differing_cases."""
    for plan in (mmr_plan(10, 20, (0, 2)), mmr_plan(8, 13, (2, 1)),
                 base_plan(8, 25, (1, 2, 0), generator, 1, lambda cmp, piece: (22, 2)[(cmp + piece) % 2])):
        groups.begin(block.write(plan))
        for cmp in (1, 2):
            for at, edits in enumerate(one_mmr_field(plan, cmp)):
                groups.add("MMR last pieces differ", 7, edits, 1, writer.length(plan, 1) - at % 2)
                groups.add_fitting("MMR last pieces differ", edits, (0,), 2)


def one_mmr_field(plan, cmp):
    """Edits of one number of one of the two pieces; of its method, or of its order, where both have but the numbers of
    the lowest polynomial."""
    n = plan.num_pivots_minus2[cmp]
    idc, order = plan.mapping_idc[cmp][n], plan.order_minus1[cmp][n]
    used = limits.coefs(order, idc)
    for i in range(used):
        z = plan.fp_coef[cmp][n][i]
        yield [(("fp_coef", cmp, n + i % 2, i), z + 1 if z < 0 else z - 1)]
    lowest = limits.coefs(0, limits.POLYNOMIAL)
    alike = [((name, cmp, piece), 0) for name in ("mapping_idc", "order_minus1") for piece in (n, n + 1)]
    alike += [(("fp_coef", cmp, piece, i), i + 1 if i < lowest else 0) for piece in (n, n + 1) for i in range(used)]
    for piece in (n, n + 1):
        yield alike + [(("mapping_idc", cmp, piece), limits.MMR)]
        yield alike + [(("mapping_idc", cmp, both), limits.MMR) for both in (n, n + 1)] + [
            (("order_minus1", cmp, piece), 1 + piece % 2)]


def random_mmr_plans(groups, generator, number, version=1):
    for _ in range(number):
        plan = random_mmr_plan(((2, 2), (1920, 1080), (4096, 2304)), generator, version)
        groups.begin(block.write(plan, version))
        groups.add_fitting("MMR random plan", [], (-1, 0, 1 + generator.below(100)), version)


def zero_cases(groups):
    """The plan that a refused block gives."""
    groups.begin(b"")
    for size in (0, SHORTEST_BLOCK[1] - 1, SHORTEST_BLOCK[2], LONGEST_BLOCK[2]):
        for version in (*VERSIONS, 3):
            groups.add("plan of zeros", 7, [], version, size)


def all_groups():
    groups = Groups()
    generator = Generator(501)
    slice_cases(groups, generator)
    version_cases(groups, generator)
    place_groups(groups, generator)
    shape_cases(groups, generator)
    fraction_cases(groups)
    several_places(groups, generator)
    random_plans(groups, generator, 60)
    blocks_as_read(groups)
    zero_cases(groups)
    generator = Generator(502)
    second_slice_cases(groups, generator)
    second_shape_cases(groups, generator)
    differing_cases(groups, generator)
    random_plans(groups, generator, 12, 2)
    generator = Generator(503)
    mmr_slice_cases(groups, generator)
    mmr_place_groups(groups, generator)
    mmr_shape_cases(groups, generator)
    mmr_fraction_cases(groups)
    mmr_differing_cases(groups, generator)
    random_mmr_plans(groups, generator, 16)
    random_mmr_plans(groups, generator, 8, 2)
    return groups.all
