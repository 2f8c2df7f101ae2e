"""Rule 7 for plan_vectors: plans as read, with one place changed, then with several.

A case is made with the answer that it is to show, 0 or 7, wherever one change alone
decides it; what rule 7 says here has to be that answer.
"""

from collections import namedtuple

import jobs
import limits
from block_cases import HEADER_VALUES, denominator_values, depth_values, luminances
from generator import Generator
from limits import N, denominators
from places import PIECE, PLACES, changed, get, is_signed
from sample_cases import PIECES, Nlq, Section, make_plan

Group = namedtuple("Group", "plan cases version")       # the version of the block that the plan is read from
Case = namedtuple("Case", "kind edits")

LOWEST, HIGHEST = -1 << 63, (1 << 63) - 1       # of the field that holds a coefficient
SPARE = 8           # how far d may fall before a number of a base plan breaks its range

# The names of block_cases for the header's fields that a plan has.
HEADER_NAMES = {"profile": "ccm_profile", "level": "ccm_level", "hdr": "hdr_bit_depth_minus8",
                "flag": "disable_residual_flag", "half_width": "half_width",
                "half_height": "half_height"}


def make_case(kind, plan, edits, number=None):
    """A case; `number` is the answer that it is to show."""
    if number is not None:
        refused = jobs.breaks_rule_7(changed(plan, edits))
        assert refused == (number == 7), "%s: %s" % (kind, edits)
    return Case(kind, edits)


def base_plan(depth, d, sizes, generator, version=1, counts=None):
    """A plan with these n; every place that is used is not 0, so that none can be left out.

    `counts` gives how many numbers a piece of a component has; without it all are polynomials.
    """
    small = d - SPARE
    sections = []
    for cmp, n in enumerate(sizes):
        pivots = [1 + generator.below(9)]
        while len(pivots) < limits.pivots(n):
            pivots.append(pivots[-1] + generator.between(1, limits.samples(depth)[-1]))
        pieces = []
        for piece in range(limits.carried(n, version)):
            count = counts(cmp, piece) if counts and cmp else limits.coefs((n + piece) % 2)
            allowed = limits.coefficients(small, PIECES[count][0])
            pieces.append([nonzero(allowed, generator) for _ in range(count)])
        numbers = [nonzero(limits.nlq_numbers(small), generator) for _ in range(3)]
        sections.append(Section(pivots, pieces, Nlq(generator.between(1, 200), *numbers)))
    return make_plan(depth, d, generator.choice(limits.HDR_DEPTHS), 192, 108, sections)


def nonzero(allowed, generator):
    return generator.among(allowed) or 1


# One place ------------------------------------------------------------------

def header_cases(plan):
    """Every field of the header, and those that are compared with each other."""
    depth, d = plan.BL_bit_depth, plan.coefficient_log2_denom
    cases = []
    for name, values in HEADER_VALUES:
        if name in HEADER_NAMES:
            cases += [make_case("header", plan, [((HEADER_NAMES[name],), value)],
                                7 if number else 0) for value, number in values]
    for value, number in denominator_values(depth):
        cases.append(make_case("header, d", plan, [(("coefficient_log2_denom",), value)],
                               7 if number else None if value < d - SPARE else 0))
    for bl, el, value, number in depth_values(d):
        edits = [(("BL_bit_depth_minus8",), bl), (("EL_bit_depth_minus8",), el),
                 (("coefficient_log2_denom",), value)]
        cases.append(make_case("header, depths", plan, edits, 7 if number else None))
    for high, low, number in luminances():
        edits = [(("max_display_mastering_luminance",), high),
                 (("min_display_mastering_luminance",), low)]
        cases.append(make_case("header, luminances", plan, edits, 7 if number else 0))
    return cases


def is_used(plan, place):
    """Whether n, and for a coefficient the method and the order, say that the place is used."""
    name, cmp, *at = place
    n = plan.num_pivots_minus2[cmp]
    if name == "pred_pivot_value":
        return at[0] < limits.pivots(n)
    if name == "fp_coef" and at[1] >= limits.coefs(plan.order_minus1[cmp][at[0]], plan.mapping_idc[cmp][at[0]]):
        return False
    return not at or at[0] < limits.pieces(n)


def used_edges(plan, place):
    """(value, answer) at and beyond the ends of a place that is used."""
    name = place[0]
    depth, d = plan.BL_bit_depth, plan.coefficient_log2_denom
    if name == "num_pivots_minus2":
        n = get(plan, place)
        return ([(value, 7) for value in sorted({0, n // 2, n - 1}) if 0 <= value < n]
                + [(value, 0) for value in (n, n + 1, N[-1] - 1, N[-1]) if n <= value <= N[-1]]
                + [(value, 7) for value in (N[-1] + 1, N[-1] + 2, 255)])
    if name == "mapping_idc":
        # the numbers of a polynomial are some of MMR, but not the other way round
        idc = get(plan, place)
        other = (limits.POLYNOMIAL, 7) if idc == limits.MMR else (limits.MMR, 0 if place[1] else 7)
        return [other, (2, 7), (255, 7)]
    if name == "order_minus1":
        allowed = limits.orders(plan.mapping_idc[place[1]][place[2]])
        return ([(order, 0 if order > get(plan, place) else 7) for order in allowed if order != get(plan, place)]
                + [(allowed[-1] + 1, 7), (255, 7)])
    if name == "fp_coef":
        return coefficient_edges(place, plan.mapping_idc[place[1]][place[2]], d)
    if name in ("pred_pivot_value", "nlq_offset"):
        top = limits.samples(depth)[-1]
        return [(0, 0), (top, 0), (top + 1, 7), (65535, 7)]
    top = limits.nlq_numbers(d)[-1]
    return [(0, 0), (top, 0), (top + 1, 7), (1 << 63, 7), ((1 << 64) - 1, 7)]


def coefficient_edges(place, mapping_idc, d):
    """All edges of a polynomial's number; of MMR, which has many, one good and one bad, the other ones in the next."""
    allowed = limits.coefficients(d, mapping_idc)
    if mapping_idc == limits.MMR:
        return [[(allowed[0] - 1, 7), (allowed[-1], 0)], [(allowed[0], 0), (allowed[-1] + 1, 7)],
                [(allowed[-1] + 1, 7), (allowed[-1], 0)], [(LOWEST, 7), (allowed[0], 0)],
                [(HIGHEST, 7), (0, 0)]][(place[2] + place[3]) % 5]
    return [(allowed[0] - 1, 7), (allowed[0], 0), (allowed[-1], 0), (allowed[-1] + 1, 7),
            (LOWEST if place[2] % 2 else HIGHEST, 7)]


def unused_edges(place, number):
    """A place that is not used has to be 0: the least beside it, and one far away; of MMR's own places one of both."""
    if is_signed(place):
        edges = [((1, -1)[number % 2], 7), ((HIGHEST, LOWEST, 1 << 32)[number % 3], 7)]
        return edges[number % 2:][:1] if is_of_mmr(place) else edges
    return [(1, 7), (65535 if place[0] == "pred_pivot_value" else 255, 7)]


def is_of_mmr(place):
    """Whether only MMR pieces have the place."""
    return place[0] == "fp_coef" and place[3] >= limits.coefs(limits.ORDERS[-1])


def in_turn(place):
    """Of the places that only MMR has one of a piece, in the next piece another."""
    _, cmp, piece, i = place
    return (5 * piece + cmp + i) % (limits.COEF_PLACES - limits.coefs(limits.ORDERS[-1])) == 0


def place_cases(plan, of_mmr=in_turn):
    """Every place of the three components, by itself; of those that only MMR has where `of_mmr` says so."""
    cases = []
    for number, place in enumerate(PLACES):
        if len(place) == 1 or is_of_mmr(place) and not of_mmr(place):
            continue
        if is_used(plan, place):
            kind, edges = place[0] + ", used", used_edges(plan, place)
        else:
            kind, edges = place[0] + ", unused", unused_edges(place, number)
        cases += [make_case(kind, plan, [(place, value)], answer) for value, answer in edges]
    return cases


# Several places -------------------------------------------------------------

def piece_edits(cmp, piece, idc, order, coefs):
    return ([(("mapping_idc", cmp, piece), idc), (("order_minus1", cmp, piece), order)]
            + [(("fp_coef", cmp, piece, i), value) for i, value in enumerate(coefs)])


def grown_cases(plan, cmp):
    """One piece more, with every place of it at its ends, then one place beyond."""
    n = plan.num_pivots_minus2[cmp] + 1
    if n not in N:
        return []
    allowed = limits.coefficients(plan.coefficient_log2_denom)
    top = limits.samples(plan.BL_bit_depth)[-1]
    pivot, piece = ("pred_pivot_value", cmp, limits.pivots(n) - 1), limits.pieces(n) - 1
    good = ([(("num_pivots_minus2", cmp), n), (pivot, top)]
            + piece_edits(cmp, piece, limits.POLYNOMIAL, 1, (allowed[0], allowed[-1], allowed[0])))
    cases = [make_case("one piece more", plan, good, 0),
             make_case("one piece more, n as before", plan, good[1:], 7)]
    for place, value in ((pivot, top + 1), (("mapping_idc", cmp, piece), 2 if cmp else limits.MMR),
                         (("order_minus1", cmp, piece), limits.ORDERS[-1] + 1),
                         (("order_minus1", cmp, piece), 0),
                         (("fp_coef", cmp, piece, 2), allowed[-1] + 1)):
        cases.append(make_case("one piece more, a fault", plan, good + [(place, value)], 7))
    return cases


def shrunk_cases(plan, cmp):
    """One piece less, its places emptied; then one of them is not."""
    n = plan.num_pivots_minus2[cmp] - 1
    if n not in N:
        return []
    used = limits.coefs(plan.order_minus1[cmp][n + 2], plan.mapping_idc[cmp][n + 2])
    freed = ([(("pred_pivot_value", cmp, limits.pivots(n)), 0)]
             + piece_edits(cmp, limits.pieces(n), limits.POLYNOMIAL, 0, [0] * used))
    smaller = [(("num_pivots_minus2", cmp), n)]
    cases = [make_case("one piece less", plan, smaller + freed, 0)]
    for place, _ in freed:
        cases.append(make_case("one piece less, a place left", plan,
                               smaller + freed + [(place, 1)], 7))
    return cases


def order_cases(plan, cmp, first=0):
    """The third coefficient with the order that uses it, and with the one that does not, from this piece on."""
    allowed = limits.coefficients(plan.coefficient_log2_denom)
    cases = []
    for piece in range(first, limits.pieces(plan.num_pivots_minus2[cmp])):
        if plan.mapping_idc[cmp][piece] == limits.MMR:
            continue
        order, third = ("order_minus1", cmp, piece), ("fp_coef", cmp, piece, 2)
        cases += [make_case("order and third coefficient", plan, [(order, value), (third, z)],
                            number)
                  for value, z, number in ((1, allowed[-1], 0), (1, allowed[-1] + 1, 7),
                                           (0, 0, 0), (0, 1, 7))]
    return cases


def rescaled_cases(plan, cmp):
    """The ends of a coefficient and of the nlq numbers follow d."""
    cases = []
    for d in denominators(plan.EL_bit_depth):
        if d >= plan.coefficient_log2_denom:
            idc = plan.mapping_idc[cmp][0]
            for place, allowed in ((("fp_coef", cmp, 0, 1), limits.coefficients(d, idc)),
                                   (("fp_hdr_in_max", cmp), limits.nlq_numbers(d))):
                cases += [make_case("d and a number", plan,
                                    [(("coefficient_log2_denom",), d), (place, value)], number)
                          for value, number in ((allowed[-1], 0), (allowed[-1] + 1, 7))]
    return cases


def mended_cases(plan, cmp):
    """Edits are made in order, so a later one mends; two faults are one answer."""
    n, order = ("num_pivots_minus2", cmp), ("order_minus1", cmp, 0)
    bad_n, bad_order = (n, N[-1] + 1), (order, limits.MMR_ORDERS[-1] + 1)
    good_n, good_order = (n, get(plan, n)), (order, get(plan, order))
    profile = (("ccm_profile",), 2)
    return [make_case("mended", plan, [], 0),
            make_case("mended", plan, [bad_n, bad_order, good_n, good_order], 0),
            make_case("two faults", plan, [bad_n, bad_order], 7),
            make_case("two faults", plan, [profile, bad_order], 7),
            make_case("two faults", plan, [bad_n, bad_order, good_n], 7)]


def random_cases(plan, singles, generator, number):
    """Several of the single edits at once."""
    return [Case("random edits", [generator.choice(singles).edits[0]
                                  for _ in range(generator.between(2, 4))])
            for _ in range(number)]


def group(depth, d, sizes, generator, quarter):
    """A plan of polynomials; of the places that only MMR has another quarter in each of the four groups."""
    plan = base_plan(depth, d, sizes, generator)
    singles = place_cases(plan, lambda place: (place[2] + place[3]) % 4 == quarter)
    good = [case for case in singles if not jobs.breaks_rule_7(changed(plan, case.edits))]
    cases = header_cases(plan) + singles
    for cmp in range(3):
        cases += (grown_cases(plan, cmp) + shrunk_cases(plan, cmp) + order_cases(plan, cmp)
                  + mended_cases(plan, cmp))
    cases += rescaled_cases(plan, d % 3)
    cases += random_cases(plan, good, generator, 30) + random_cases(plan, singles, generator, 10)
    return Group(plan, cases, 1)


def is_about_last_piece(plan, place):
    """A place of piece n + 1, or of the one that there is none of any more."""
    return place[0] in PIECE and place[2] - plan.num_pivots_minus2[place[1]] in (1, 2)


def last_piece_group(depth, d, sizes, generator):
    """Piece n + 1 of version 2, which is unlike piece n: every place of it, and those after it."""
    plan = base_plan(depth, d, sizes, generator, 2)
    cases = [case for case in place_cases(plan) if is_about_last_piece(plan, case.edits[0][0])]
    for cmp in range(3):
        cases += grown_cases(plan, cmp) + shrunk_cases(plan, cmp)
        cases += order_cases(plan, cmp, limits.pieces(plan.num_pivots_minus2[cmp]) - 1)
    return Group(plan, [case._replace(kind=case.kind + ", version 2") for case in cases], 2)


# MMR ------------------------------------------------------------------------

def grown_mmr_cases(plan, cmp):
    """One MMR piece more, with every number at an end, then one place beyond; luma has none."""
    n = plan.num_pivots_minus2[cmp] + 1
    if n not in N:
        return []
    piece, allowed = limits.pieces(n) - 1, limits.coefficients(plan.coefficient_log2_denom, limits.MMR)
    good = [(("num_pivots_minus2", cmp), n), (("pred_pivot_value", cmp, limits.pivots(n) - 1), 1)]
    cases = []
    for order in limits.MMR_ORDERS:
        used = limits.coefs(order, limits.MMR)
        made = good + piece_edits(cmp, piece, limits.MMR, order, [allowed[-(i % 2)] for i in range(used)])
        cases.append(make_case("one MMR piece more", plan, made, 0 if cmp else 7))
        for edit in ((("mapping_idc", cmp, piece), limits.POLYNOMIAL), (("mapping_idc", cmp, piece), limits.MMR + 1),
                     (("order_minus1", cmp, piece), order - 1 if order else limits.MMR_ORDERS[-1] + 1),
                     (("fp_coef", cmp, piece, used - 1), allowed[-1] + 1),
                     (("fp_coef", cmp, piece, used % limits.COEF_PLACES), allowed[0] - 1)):
            cases.append(make_case("one MMR piece more, a fault", plan, made + [edit], 7))
    return cases


def method_cases(plan, cmp):
    """Every third piece as each method and order, its numbers cleared; then with one too large, or one too many."""
    d, cases = plan.coefficient_log2_denom, []
    large = limits.coefficients(d)[-1] + 1
    for piece in range(0, limits.pieces(plan.num_pivots_minus2[cmp]), 3):
        used = limits.coefs(plan.order_minus1[cmp][piece], plan.mapping_idc[cmp][piece])
        for idc in (limits.POLYNOMIAL, limits.MMR):
            for order in limits.orders(idc):
                first = limits.coefs(order, idc)
                edits = piece_edits(cmp, piece, idc, order, [0] * used)
                allowed = idc in limits.methods(cmp)
                cases.append(make_case("other method", plan, edits, 0 if allowed else 7))
                cases.append(make_case("other method, a large number", plan, edits + [
                    (("fp_coef", cmp, piece, first - 1), large)], 0 if allowed and idc == limits.MMR else 7))
                if first < limits.COEF_PLACES:
                    cases.append(make_case("other method, a number too many", plan, edits + [
                        (("fp_coef", cmp, piece, first), 1)], 7))
    return cases


def counts_by(first, others):
    """Every second piece, from `first` on, has all numbers of MMR, the rest have those of `others` in turn."""
    return lambda cmp, piece: (limits.COEF_PLACES if (piece + cmp) % 2 == first
                               else others[(piece // 2 + cmp) % len(others)])


def mmr_group(depth, d, sizes, first, generator, version=1):
    """Chroma of MMR pieces, with polynomials between: every place of it, used and not."""
    plan = base_plan(depth, d, sizes, generator, version, counts_by(first, (8, 15, 2, 15, 3, 8)))
    near = max(sizes) + 3                       # the places of the first piece that is not used, but not all after it
    singles = [case for case in place_cases(plan, lambda place: place[2] < near or in_turn(place))
               if case.edits[0][0][1] in (1, 2)]
    good = [case for case in singles if not jobs.breaks_rule_7(changed(plan, case.edits))]
    cases = list(singles)
    for cmp in range(3):
        cases += (grown_cases(plan, cmp) + shrunk_cases(plan, cmp) + grown_mmr_cases(plan, cmp)
                  + method_cases(plan, cmp) + mended_cases(plan, cmp))
    cases += rescaled_cases(plan, 1) + rescaled_cases(plan, 2)
    cases += random_cases(plan, good, generator, 30) + random_cases(plan, singles, generator, 10)
    return Group(plan, [case._replace(kind="MMR: " + case.kind) for case in cases], version)


def all_groups():
    """Both depths, d at its ends and between, n at its ends and between in every component."""
    generator, mmr = Generator(401), Generator(402)
    return [group(10, denominators(10)[0], (0, 3, N[-1]), generator, 0),
            group(8, denominators(8)[-1], (N[-1], 0, 7), generator, 1),
            group(10, 23, (1, N[-1], 0), generator, 2),
            group(8, denominators(8)[0], (2, N[-1] - 1, 5), generator, 3),
            last_piece_group(10, 24, (N[-1], N[-1] - 1, 0), generator),
            last_piece_group(8, 22, (0, N[-1], 6), generator),
            mmr_group(10, denominators(10)[-1], (0, N[-1], N[-1]), 0, mmr),
            mmr_group(8, denominators(8)[0] + SPARE, (1, N[-1], N[-1]), 1, mmr),
            mmr_group(10, 25, (2, 1, 4), 0, mmr, 2)]
