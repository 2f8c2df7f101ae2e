"""Composing cases for sample_vectors about the search for a sample's piece, clause 5.4.2.2, and about every code.

The piece is the first whose next pivot exceeds the sample.  Where pivots are equal, several pieces have the same next
pivot, and a search that does not go through them one by one can end at the wrong one.  All pieces of such a section
are *apart*: at any sample each comes to another number, so that a wrong one shows wherever it is taken.

What is mapped by a table can be filled in piece by piece, a polynomial going on from code to code by its differences.
A picture that has every code shows each place of such a table, and sums that are cut in the middle of a piece and
come back show whether they were cut too early.

SHOWS says which wrong mappings a kind of case tells from the right one, as in sample_cases.py.
"""

from fractions import Fraction
from math import floor

import limits
from generator import Generator
from limits import DEPTHS, HDR_DEPTHS, MMR_TERMS, denominators
from sample_cases import Section, distinct, fit, make_plan, picture, pinned_picture, plane_size, vernier, whole

SEARCHES = (
    "the last of equal pivots", "the piece before a pivot at it", "a halving that ends early, the lower piece",
    "a halving that ends early, the upper piece", "a halving over all places of pivots", "piece 0 up to pivot 2",
    "piece 1 below pivot 1 too", "the piece of the clamped sample", "piece 0 where no pivot exceeds the sample",
    "the last place of pieces where no pivot exceeds the sample")
LAST_SEARCHES = (
    "a halving over all places of pivots, piece n + 1 at most", "piece n where no pivot exceeds the sample",
    "piece n + 1 from the last pivot but one on", "piece n + 1 only above the last pivot",
    "piece n + 1 only at the last pivot", "piece n + 1 just below the last pivot too")
FILLINGS = (
    "the last of equal pivots", "the piece before a pivot at it", "a code for each empty piece",
    "piece 0 going on from code 0", "piece 0 at the sample as it is", "piece n + 1 at the sample as it is",
    "half the second difference", "sums that are cut before they go on")

SHOWS = {
    "equal among few pivots": SEARCHES + ("a code for each empty piece",),
    "equal among few pivots, version 2": SEARCHES + LAST_SEARCHES + ("a code for each empty piece",),
    "equal among many pivots": SEARCHES + ("a code for each empty piece",),
    "equal among many pivots, version 2": SEARCHES + LAST_SEARCHES + ("a code for each empty piece",),
    "MMR equal among few pivots": SEARCHES,
    "MMR equal among few pivots, version 2": SEARCHES + LAST_SEARCHES,
    "MMR equal among many pivots": SEARCHES,
    "MMR equal among many pivots, version 2": SEARCHES + LAST_SEARCHES,
    "every code": FILLINGS,
    "every code, version 2": FILLINGS + ("piece n where no pivot exceeds the sample",),
}


# Equal pivots ---------------------------------------------------------------

FEW = [limits.pivots(n) for n in limits.N[:3]]
MANY = [limits.pivots(n) for n in limits.N[-3:]]


def compositions(number):
    """The lists of numbers from 1 on that add up to this one."""
    if number == 0:
        return [[]]
    return [[first] + rest for first in range(1, number + 1) for rest in compositions(number - first)]


def runs_of(number):
    """How many of so many pivots stand at each value, the lowest first; at one value or more there are several.

    Of few pivots these are all ways: [2, 1] is two equal ones and a greater one.  Of many: all are equal, more than
    half at the lower end, at the upper end or between others, some at both ends, pairs, and triples.
    """
    if number in FEW:
        return [runs for runs in compositions(number) if max(runs) > 1]
    most, third = number // 2 + 1, number // 3
    ones = [1] * (number - most)
    half = len(ones) // 2
    return [[number], [most] + ones, ones + [most], ones[:half] + [most] + ones[half:],
            [third] + [1] * (number - 2 * third) + [third],
            [2] * (number // 2) + [1] * (number % 2), [3] * third + [number % 3] * (number % 3 > 0)]


def ends(depth, values):
    """The lowest and the highest of so many values: a single one at 0, between and at the top; else above it too.

    Values of the last choice follow one another, so that the neighbour of a pivot is a pivot.
    """
    M = 1 << depth
    if values == 1:
        return [(s, s) for s in (0, M // 2, M - 1)]
    return [(0, M - 1), (M // 8, M - M // 8), (1, M), (M // 4, M + M // 8), (M // 2, M // 2 + values - 1)]


def pivots_at(runs, low, high):
    steps = max(len(runs) - 1, 1)
    return [low + i * (high - low) // steps for i, run in enumerate(runs) for _ in range(run)]


def equal_sets(depth, numbers, start):
    """Pivots with equal ones, their ends chosen by turns from `start` on.

    Where pivots are many each way of runs has one choice, else a single value has all three and more values have two.
    """
    sets = []
    for number in numbers:
        for i, runs in enumerate(runs_of(number)):
            places = ends(depth, len(runs))
            turns = 1 if number in MANY else 3 if len(runs) == 1 else 2
            sets += [pivots_at(runs, *places[(start + number + i + 2 * turn) % len(places)]) for turn in range(turns)]
    return sets


def apart_piece(d, level, terms, generator):
    """Numbers whose sum is near level / 20 whatever the samples are: at least 1 / 80 from that of another level."""
    step = (1 << d) // 20
    least = step // (4 * terms)
    return [level * step + generator.below(step // 4)] + [generator.between(-least, least) for _ in range(terms)]


def apart_pieces(d, number, by_mmr, generator):
    """Polynomials of both orders; or the first one MMR, and a third of the others, mostly of order 1: they are long."""
    pieces = []
    for level in generator.shuffled(range(1, number + 1)):
        terms = 1 + generator.below(2)
        if by_mmr and (pieces == [] or generator.one_in(3)):
            terms = MMR_TERMS * generator.choice((1, 1, 1, 1, 1, 1, 2, 3))
        pieces.append(apart_piece(d, level, terms, generator))
    return pieces


def samples_about(pivots, depth):
    """The ends, and each pivot with its neighbours."""
    top = (1 << depth) - 1
    return distinct([0, top] + [pivot + by for pivot in pivots for by in (0, -1, 1)], 0, top)


SHAPES = ((4, 4), (8, 4), (6, 6), (8, 6), (8, 8), (10, 8), (12, 8), (12, 10))


def fitting_shape(wanted):
    """The first that has a place for all wanted samples of each plane."""
    return next((width, height) for width, height in SHAPES
                if all(len(values) <= width * height // (4 if cmp else 1) for cmp, values in enumerate(wanted)))


def equal_case(kind, depth, i, chosen, by_mmr, generator, version):
    """Sections of these pivots; one picture in five has an enhancement."""
    d = (denominators(depth)[0], 18, 25, denominators(depth)[-1])[i % 4]
    sections = []
    for cmp, pivots in enumerate(chosen):
        number = limits.carried(len(pivots) - 2, version)
        sections.append(Section(pivots, apart_pieces(d, number, by_mmr and cmp > 0, generator), vernier(depth, d)))
    wanted = [samples_about(pivots, depth) for pivots in chosen]
    plan = make_plan(depth, d, HDR_DEPTHS[i // 2 % 2], *fitting_shape(wanted), sections)
    planes = [generator.shuffled(fit(values, plane_size(plan, cmp), lambda: generator.below(1 << depth)))
              for cmp, values in enumerate(wanted)]
    case = pinned_picture(kind, plan, planes) if i % 5 == 1 else whole(kind, plan, picture(planes), [])
    return case._replace(version=version)


def equal_cases(kind, numbers, by_mmr, generator):
    """Each component has other pivots; beside MMR the luma has those that it does not have beside polynomials.

    The version is another one each time, but two pivots are of version 2: in version 1 they have a single piece.
    """
    cases, taken = [], 2 if by_mmr else 3
    for start, depth in enumerate(DEPTHS):
        sets = equal_sets(depth, numbers, start + 2 * by_mmr)
        others = [pivots for at, pivots in enumerate(sets) if at % 3]
        for i in range((len(sets) + taken - 1) // taken):
            chosen = [sets[(taken * i + at) % len(sets)] for at in range(taken)]
            version = 2 if len(chosen[-1]) == 2 else 1 + (i + start) % 2
            named = kind + ", version 2" * (version == 2)
            if by_mmr:
                chosen.insert(0, others[(i + 3 * start) % len(others)])
            cases.append(equal_case(named, depth, i, chosen, by_mmr, generator, version))
    return cases


# Every code -----------------------------------------------------------------

def curve(d, depth, codes, middle, slope, bend):
    """A polynomial: middle + slope * x + bend * x^2, where x is how far a code is from that in the middle.

    What is mapped to 65,536 is 1 here, and so is the number of all codes.
    """
    m = Fraction(codes[0] + codes[-1], 2 << depth)
    parts = [middle - slope * m + bend * m * m, slope - 2 * bend * m] + [bend] * (bend != 0)
    return [floor(part * (1 << d)) for part in parts]


WITHIN = 4          # the turn of a curve that is cut nowhere


def curve_in_turn(turn, d, depth, codes, generator):
    """A line through 0, one through the top, a curve below 0 in the middle, one above the top there, one within."""
    width = Fraction(len(codes), 1 << depth)
    sign = generator.choice((-1, 1))
    slope, bend = sign * min(1 / (2 * width), 30), generator.between(12, 22)
    rise = bend * width * width / 4                     # from the middle to the ends
    middle = Fraction(generator.between(4, 6), 10)
    curves = ((0, slope, 0), (1, slope, 0), (-rise / 2, 0, bend), (1 + rise / 2, 0, -bend),
              (middle, slope / 2, generator.choice((-bend, bend))))
    return curve(d, depth, codes, *curves[turn % len(curves)])


def uneven_pivots(low, high, generator):
    """As many as there can be, from low to high, some of them equal, but not the first two."""
    runs = [1] + generator.shuffled([3, 2, 2] + [1] * (limits.PIVOT_PLACES - 8))
    steps = len(runs) - 1
    values = [low + i * (high - low) // steps + generator.below(1 + (high - low) // (2 * steps)) for i in range(steps)]
    return [value for value, run in zip([low] + values[1:] + [high], runs) for _ in range(run)]


def section_of_curves(depth, d, low, high, generator, version):
    """Pieces that are met take turns, and the first is cut nowhere, so that all before its pivot shows."""
    pivots = uneven_pivots(low, high, generator)
    pieces, turn = [], WITHIN
    for first, after in zip(pivots, pivots[1:] + pivots[-1:]):
        codes = range(first, max(after, first + 1))
        pieces.append(curve_in_turn(turn if first < after else WITHIN, d, depth, codes, generator))
        turn += first < after
    return Section(pivots, pieces[:limits.carried(limits.N[-1], version)], vernier(depth, d))


def every_code_case(depth, d, hdr_bit_depth, turn, generator, version):
    """Luma has every code, Cb and Cr every fourth; the pivots leave out codes at both ends, none, or lower ones."""
    M = 1 << depth
    side = 1 << (depth // 2)
    spans = ((M // 16, M - M // 16), (0, M + M // 16), (M // 8, M - 1))
    sections = [section_of_curves(depth, d, *spans[(cmp + turn) % 3], generator, version) for cmp in range(3)]
    plan = make_plan(depth, d, hdr_bit_depth, side, side, sections)
    planes = [generator.shuffled(range(M))] + [generator.shuffled(range((cmp + turn) % 4, M, 4)) for cmp in (1, 2)]
    return pinned_picture("every code" + ", version 2" * (version == 2), plan, planes)._replace(version=version)


def every_code_cases(generator):
    return [every_code_case(8, 13, 12, 0, generator, 1), every_code_case(8, 32, 12, 2, generator, 2),
            every_code_case(10, 32, 12, 2, generator, 1), every_code_case(10, 15, 10, 0, generator, 2)]


def all_cases():
    return (equal_cases("equal among few pivots", FEW, False, Generator(701))
            + equal_cases("equal among many pivots", MANY, False, Generator(702))
            + equal_cases("MMR equal among few pivots", FEW, True, Generator(703))
            + equal_cases("MMR equal among many pivots", MANY, True, Generator(704))
            + every_code_cases(Generator(705)))
