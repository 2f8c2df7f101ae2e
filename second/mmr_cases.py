"""Composing cases for sample_vectors with MMR pieces: clause 5.4.2.3.3.

A number of the whole range mostly takes the sum far beyond 0 or 65,535.  A *tuned*
piece has a constant that brings the sum at one place of the picture back between
them: there every bit of every term shows.  Each place has a piece of its own, so
that all places of a picture are tuned.

SHOWS says which wrong readers and mappings a kind of case tells from the right
ones, as in sample_cases.py.
"""

from itertools import product

import block
import limits
from composer import assign_pivot_values, clamped, derive_pivot_idx, mmr_terms, row_pair_samples, samples_of
from generator import Generator
from limits import DEPTHS, HDR_DEPTHS, MMR, MMR_ORDERS, denominators
from places import changed
from sample_cases import (Case, Section, fit, last_pivot_sets, make_plan, mapped_plane, picture, pinned_picture,
                          pivot_sets, plane_size, plain_sections, random_base_sample, random_enhancement_sample,
                          random_run, random_section, refused, replaced, set_piece, telling_base_samples, vernier,
                          visible_piece, whole)

SHOWS = {
    "MMR example": (
        "tt[7] not shifted", "MMR numbers by term", "one order less", "Cb's numbers for Cr", "a negative sum's size",
        "the fractions lost", "65,535 by the low 16 bits"),
    "MMR luma": (
        "one rounding in the down-sampling", "no rounding in the down-sampling", "the two rows' mean rounded down",
        "rows before columns", "the luma above alone", "the upper row alone", "the lower row alone",
        "the mean of four", "column 1 left of the picture", "0 left of the picture",
        "the row before left of the picture", "a column to the right", "the last column left out",
        "luma clamped before the down-sampling", "the composed luma", "luma rows k and k + 1"),
    "MMR wide": (
        "one rounding in the down-sampling", "column 1 left of the picture", "the last column left out",
        "Cb and Cr exchanged"),
    "MMR pivots": (
        "luma clamped with the component's pivots", "all clamped with the component's pivots",
        "all clamped with luma's pivots", "luma not clamped", "the other chroma not clamped",
        "only the own sample clamped", "luma clamped before the down-sampling", "the piece of the clamped sample",
        "the piece of the luma sample", "Cb and Cr exchanged", "the composed Cb", "piece 0's numbers always"),
    "MMR last pivot": ("the copy forgotten in chroma", "the method not copied", "only three coefficients copied"),
    "MMR last pivot, version 2": (
        "piece n where no pivot exceeds the sample", "piece n + 1 only above the last pivot",
        "piece n + 1 only at the last pivot", "piece n + 1 at the sample as it is", "a copy in version 2 too"),
    "MMR tuned": (
        "tt[7] not shifted", "tt[14] of the product before its shift", "terms that are not cut off",
        "tt[7] rounded to the nearest", "third powers cut off once", "products exchanged",
        "squares and squared products exchanged", "depth 10 always", "MMR numbers by term",
        "the sum held within 64 bits", "each term shifted before the sum", "each term shifted by d before the sum",
        "the fractions lost", "integer parts toward zero", "one order less", "one rounding in the down-sampling",
        "luma not clamped", "Cb and Cr exchanged", "MMR numbers by term, then by order", "the constant last"),
    "MMR tuned, version 2": (
        "third powers cut off once", "a copy in version 2 too", "piece n where no pivot exceeds the sample"),
    "MMR high": (
        "tt[14] of the product before its shift", "tt[21] of the product before its shift",
        "terms that are not cut off", "tt[7] rounded to the nearest", "third powers cut off once"),
    "MMR ends": (
        "the sum in 64 bits", "the sum held within 64 bits", "a negative sum's size", "65,535 by the low 16 bits"),
    "MMR sums": ("the sum as a float", "each term shifted by d before the sum", "terms that are not cut off"),
    "MMR longest": ("one order less", "piece 0's numbers always", "terms that are not cut off"),
    "MMR longest, version 2": ("one order less", "piece n where no pivot exceeds the sample"),
    "MMR random plan": ("the piece of the clamped sample", "Cb and Cr exchanged", "MMR numbers by term"),
    "MMR random plan, version 2": ("piece n where no pivot exceeds the sample", "a copy in version 2 too"),
}


def numbers(d, order, **given):
    """An MMR piece of zeros, but for these numbers by their place: c1=1.5 is 1.5 of tt[1]."""
    coef = [0] * limits.coefs(order - 1, MMR)
    for name, value in given.items():
        coef[int(name[1:])] = int(value * (1 << d))
    return coef


def visible_mmr_piece(d, order, generator):
    """Numbers whose sum is mostly within 0 and 1.0."""
    quarter = 1 << (d - 2)
    coef = [generator.between(quarter, 3 * quarter)]
    return coef + [generator.between(-quarter // 2, quarter // 2) for _ in range(limits.MMR_TERMS * order)]


def flat(plan, s0, s1, s2):
    """Planes whose every place has these three samples: as luma is the same everywhere, so is the down-sampled one."""
    return [[s] * plane_size(plan, cmp) for cmp, s in enumerate((s0, s1, s2))]


def plain_luma(depth, d):
    return Section([0, (1 << depth) - 1], [[0, 1 << d]], vernier(depth, d))


# Worked examples ------------------------------------------------------------

def examples(d):
    """(MMR pieces, samples) whose mapped samples selftest.py works out by hand."""
    one = 1 << d
    row = [k * one for k in range(1, limits.MMR_TERMS + 1)]
    return (
        (numbers(d, 1, c0=0.5), (512, 512, 512)),
        (numbers(d, 1, c1=1.0), (512, 100, 900)),
        (numbers(d, 1, c7=16.0), (33, 35, 37)),
        (numbers(d, 2, c9=1.0), (100, 512, 900)),
        (numbers(d, 2, c0=-13.0, c14=16.0), (1000, 1000, 1000)),
        (numbers(d, 3, c17=1.0), (100, 900, 512)),
        (numbers(d, 3, c0=-12.0, c21=16.0), (1000, 1000, 1000)),
        ([0] + [z // 32 for z in row], (512, 256, 64)),
        ([0] * 8 + row, (512, 256, 64)),
        ([0] * 15 + row, (512, 256, 64)),
        ([one - 1] + [0] * 7, (0, 0, 0)),
        ([one] + [0] * 7, (1023, 1023, 1023)),
        ([one // 2, -65536 * one, 65536 * one - 1] + [0] * 5, (512, 512, 700)),
        ([-1] + [0] * 7, (300, 400, 500)),
        ([0, one, -one // 2, one // 4] + [0] * 4, (600, 500, 400)),
    )


def example_cases():
    """Each of them in Cb, with the next one's numbers in Cr, at its samples; with and without an enhancement."""
    depth, d = 10, 15
    found = examples(d)
    cases = []
    for i, (coef, samples) in enumerate(found):
        sections = [plain_luma(depth, d)] + [Section([0, 1023], [piece], vernier(depth, d))
                                             for piece in (coef, found[(i + 1) % len(found)][0])]
        plan = make_plan(depth, d, HDR_DEPTHS[i % 2], 2, 2, sections)
        cases.append(pinned_picture("MMR example", plan, flat(plan, *samples)))
        cases.append(whole("MMR example", plan, picture(flat(plan, *samples)), []))
    for i, (coef, samples) in enumerate(((numbers(13, 1, c4=1.0), (200, 100, 7)),
                                         (numbers(13, 1, c7=16.0), (33, 35, 37)))):
        sections = [plain_luma(8, 13)] + [Section([0, 255], [coef], vernier(8, 13))] * 2
        plan = make_plan(8, 13, 12, 2, 2, sections)
        cases.append(pinned_picture("MMR example", plan, flat(plan, *samples)))
    return cases


# Luma -----------------------------------------------------------------------

LUMA_SHAPES = ((2, 2), (2, 4), (4, 2), (2, 8), (4, 4), (6, 6), (8, 4), (8, 8))


def luma_sample(depth, generator):
    top = (1 << depth) - 1
    return generator.choice((0, 1, top - 1, top, generator.below(top + 1), generator.below(top + 1)))


def luma_sections(depth, d):
    """Cb comes to the down-sampled luma, Cr to half of it less a quarter of its square; luma is clamped a little."""
    top = (1 << depth) - 1
    luma = Section([3, top - 3], [[1 << (d - 3), 1 << (d - 1)]], vernier(depth, d))
    return [luma, Section([0, top], [numbers(d, 1, c1=1.0)], vernier(depth, d)),
            Section([0, top], [numbers(d, 2, c0=0.25, c1=0.5, c8=-0.25)], vernier(depth, d))]


def luma_cases(generator):
    """Every small shape, samples at the ends and between; the rows of the worked example."""
    cases = []
    for depth, d in ((10, denominators(10)[0]), (8, denominators(8)[-1]), (8, 13), (10, 24)):
        for i, (width, height) in enumerate(LUMA_SHAPES):
            plan = make_plan(depth, d, HDR_DEPTHS[i % 2], width, height, luma_sections(depth, d))
            planes = [[luma_sample(depth, generator) for _ in range(plane_size(plan, cmp))] for cmp in range(3)]
            cases.append(pinned_picture("MMR luma", plan, planes))
            if i % 3 == 0:
                cases.append(whole("MMR luma", changed(plan, [(("disable_residual_flag",), 1)]), picture(planes), [9]))
    plan = make_plan(10, 15, 12, 4, 2, luma_sections(10, 15))
    cases.append(whole("MMR luma", plan, [10, 20, 30, 40, 11, 21, 31, 41, 500, 600, 700, 800], []))
    return cases


def part_cases(generator):
    """Jobs of some row pairs: no luma beyond them is read, whatever it is, and one within them refuses the job."""
    depth, d = 10, 20
    plan = make_plan(depth, d, 12, 4, 8, luma_sections(depth, d))
    base, enhancement = (random_run(plan.picture_samples, depth, generator) for _ in range(2))
    cases = []
    for first, count in ((0, 1), (1, 1), (2, 1), (3, 1), (1, 2), (0, 3), (2, 2)):
        inside = {at for k in range(first, first + count) for _, at in row_pair_samples(plan, k)}
        wild = [s if at in inside else 65535 - at for at, s in enumerate(base)]
        cases += [Case("MMR part", plan, first, count, wild, enhancement),
                  Case("MMR part", plan, first, count, wild, [])]
        at = generator.choice(sorted(at for at in inside if at < 32))
        cases += refused(11, [Case("MMR part, refused 11", plan, first, count, replaced(base, at, 1 << depth), [])])
    return cases


WIDEST = 2 * limits.HALF_WIDTHS[-1]


def wide_cases(generator):
    """The widest picture, once with an enhancement: other numbers everywhere, and the ends of the rows telling."""
    cases = []
    for depth, d, enhanced in ((10, 23, False), (8, 32, True)):
        top = (1 << depth) - 1
        sections = luma_sections(depth, d)[:2]
        pieces = [visible_mmr_piece(d, 3, generator), visible_piece(d, 2, generator)]
        sections.append(Section([0, top // 2, top], pieces, vernier(depth, d)))
        plan = make_plan(depth, d, 10 if depth == 8 else 12, WIDEST, 2, sections)
        base = random_run(plan.picture_samples, depth, generator)
        for row in (0, 1):
            for x, s in ((0, top), (1, 0), (WIDEST - 1, top), (WIDEST - 2, 0)):
                base[row * WIDEST + x] = s
        enhancement = random_run(plan.picture_samples, depth, generator) if enhanced else []
        cases.append(whole("MMR wide", plan, base, enhancement))
    return cases


# Pivots ---------------------------------------------------------------------

def mixed_pieces(d, number, start, generator):
    """Polynomials and MMR pieces of every order in turn."""
    makers = (lambda: visible_mmr_piece(d, 1, generator), lambda: visible_piece(d, 1, generator),
              lambda: visible_mmr_piece(d, 3, generator), lambda: visible_piece(d, 2, generator),
              lambda: visible_mmr_piece(d, 2, generator))
    return [makers[(start + i) % len(makers)]() for i in range(number)]


def pivot_case(kind, depth, d, i, chosen, generator, version=1):
    """Sections of these pivots, chroma mixed, one of its components at times of polynomials alone."""
    sections = []
    for cmp, pivots in enumerate(chosen):
        number = limits.carried(len(pivots) - 2, version)
        if cmp == 0 or i % 5 == cmp:
            pieces = [visible_piece(d, 1 + piece % 2, generator) for piece in range(number)]
        else:
            pieces = mixed_pieces(d, number, i + 2 * cmp, generator)
        sections.append(Section(pivots, pieces, vernier(depth, d)))
    plan = make_plan(depth, d, HDR_DEPTHS[i % 2], 8, 4, sections)
    planes = [fit(generator.shuffled(telling_base_samples(pivots, depth)), plane_size(plan, cmp),
                  lambda: generator.below(1 << depth)) for cmp, pivots in enumerate(chosen)]
    return pinned_picture(kind, plan, planes)._replace(version=version)


def pivot_cases(generator):
    """Luma's, Cb's and Cr's pivots each others: samples at them, beyond them and between."""
    cases = []
    for depth in DEPTHS:
        sets = pivot_sets(depth)
        for i in range(len(sets)):
            d = (denominators(depth)[0], 19, 26, denominators(depth)[-1])[(i + depth // 2) % 4]
            chosen = [sets[(i + 5 * cmp) % len(sets)] for cmp in range(3)]
            cases.append(pivot_case("MMR pivots", depth, d, i, chosen, generator))
    return cases


def last_pivot_cases(generator):
    """What no pivot exceeds, in both versions."""
    cases = []
    for depth in DEPTHS:
        sets = last_pivot_sets(depth)
        for i in range(0, len(sets), 2):
            chosen = [sets[(i + 4 * cmp) % len(sets)] for cmp in range(3)]
            cases.append(pivot_case("MMR last pivot", depth, 17 + i, i, chosen, generator))
            cases.append(pivot_case("MMR last pivot, version 2", depth, 32 - i, i, chosen, generator, 2))
    return cases


# Tuned pieces ---------------------------------------------------------------

def terms_at(plan, base, cmp, at, order):
    """tt of the place, its samples clamped."""
    pivot_value = assign_pivot_values(plan.pred_pivot_value, plan.num_pivots_minus2)
    samples = samples_of(plan, base, cmp, at)
    return mmr_terms(*(clamped(s, X, plan.num_pivots_minus2, pivot_value) for X, s in enumerate(samples)), order,
                     plan.BL_bit_depth)


def rest_of(coef, tt):
    """The sum without the constant."""
    return sum(z * t for z, t in zip(coef[1:], tt[1:]))


def tuned_piece(plan, base, cmp, at, order, draw, generator):
    """Numbers that `draw` gives, and a constant with which the place comes to a random mapped sample."""
    d = plan.coefficient_log2_denom
    tt = terms_at(plan, base, cmp, at, order)
    while True:
        coef = [0] + [draw(d, generator) for _ in range(limits.MMR_TERMS * order)]
        v = generator.between(1, 65534)
        wanted = (v << (4 + d)) + generator.below(1 << (4 + d))
        coef[0] = (wanted - rest_of(coef, tt)) >> 20
        if coef[0] in limits.coefficients(d, MMR):
            return coef


def piece_of(plan, base, cmp, at):
    pivot_value = assign_pivot_values(plan.pred_pivot_value, plan.num_pivots_minus2)
    return derive_pivot_idx(base[at], cmp, plan.num_pivots_minus2, pivot_value)


def chroma_places(plan, cmp):
    begin = sum(plane_size(plan, before) for before in range(cmp))
    return range(begin, begin + plane_size(plan, cmp))


def steps(number, depth, generator, low=0):
    """So many pivots from one near `low` to one near the top."""
    top = (1 << depth) - 1
    first, last = low + generator.below(1 + top // 20), top - generator.below(1 + top // 20)
    return [first + i * (last - first) // (number - 1) for i in range(number)]


def samples_of_pieces(pivots, number, depth, generator, low=0):
    """So many samples, each of another piece, in any order: the first and last may lie beyond the pivots."""
    top = (1 << depth) - 1
    ends = [low] + pivots[1:] + [top + 1]
    spans = [range(first, after) for first, after in zip(ends, ends[1:]) if first < after][:number]
    return generator.shuffled([generator.among(span) for span in spans])


def clamping_luma(depth, d, generator):
    """A luma section whose pivots leave out both ends, by little or by much."""
    left_out = generator.choice((1, 1 << (depth - 4), 1 << (depth - 2)))
    pivots = [left_out, (1 << depth) - 1 - left_out]
    return Section(pivots, [visible_piece(d, 2, generator)] * 2, vernier(depth, d))


def longest_luma(depth, d, generator, version):
    pieces = [visible_piece(d, 2, generator) for _ in range(limits.carried(limits.N[-1], version))]
    return Section(steps(limits.PIVOT_PLACES, depth, generator), pieces, vernier(depth, d))


def tuned_picture(kind, luma, depth, d, shape, orders, draw, generator, version=1, low=0):
    """Each chroma place has its own piece, tuned to it; `orders` are those of Cb's and Cr's pieces in turn.

    No sample is below `low`.
    """
    width, height = shape
    places = width * height // 4
    number = max(2, places + 1 if version == 1 else places)         # of pivots: version 2 has a piece more
    pivots = [steps(number, depth, generator, low) for _ in range(2)]
    sections = [luma] + [Section(some, [[0, 0]] * number, vernier(depth, d)) for some in pivots]
    plan = make_plan(depth, d, generator.choice(HDR_DEPTHS), width, height, sections)
    planes = [[generator.between(low, (1 << depth) - 1) for _ in range(width * height)]]
    planes += [samples_of_pieces(some, places, depth, generator, low) for some in pivots]
    base = picture(planes)
    for cmp in (1, 2):
        for i, at in enumerate(chroma_places(plan, cmp)):
            set_piece(plan, cmp, piece_of(plan, base, cmp, at),
                      tuned_piece(plan, base, cmp, at, orders[(i + cmp) % len(orders)], draw, generator))
        if version == 1:
            block.repeat_last_piece(plan, cmp)
    return pinned_picture(kind, plan, planes)._replace(version=version)


def any_number(d, generator):
    return generator.among(limits.coefficients(d, MMR))


def some_number(d, generator):
    """Of every size: of the whole range, whole ones, small ones, the least, and zeros."""
    kind = generator.below(6)
    if kind == 0:
        return any_number(d, generator)
    if kind == 1:
        return generator.between(-64, 64) << d
    if kind == 2:
        return generator.between(-64 << d, 64 << d)
    if kind == 3:
        return generator.choice((0, 1, -1, (1 << d) - 1, -(1 << d)))
    return generator.between(-1 << d, 1 << d)


def tuned_cases(generator):
    """Every order, both depths, d at both ends and between; Cb and Cr of other orders; both versions."""
    cases = []
    for depth in DEPTHS:
        ends = (denominators(depth)[0], denominators(depth)[-1], 21)
        for i, (d, orders, draw) in enumerate(product(ends, ([1], [2], [3], [1, 2, 3]), (any_number, some_number))):
            luma = clamping_luma(depth, d, generator)
            shape = ((2, 2), (4, 2), (2, 4), (4, 4), (6, 2))[i % 5]
            cases.append(tuned_picture("MMR tuned", luma, depth, d, shape, orders, draw, generator))
            if i % 4 == 0:
                cases.append(tuned_picture("MMR tuned, version 2", luma, depth, d, (4, 4), orders, draw, generator, 2))
    return cases


def high_cases(generator):
    """High samples, whose products lose most where they are cut off."""
    cases = []
    for depth in DEPTHS:
        low = 7 << (depth - 3)
        for i, (d, orders) in enumerate(product((denominators(depth)[0], denominators(depth)[-1]), ([2], [3], [3, 2]))):
            cases.append(tuned_picture("MMR high", plain_luma(depth, d), depth, d, ((4, 2), (4, 4))[i % 2], orders,
                                       any_number, generator, low=low))
    return cases


def longest_cases(generator):
    """Blocks of the greatest length of each version, of which every chroma place meets another piece."""
    cases = []
    for depth, d, version in ((10, 32, 1), (8, 13, 1), (8, 32, 2), (10, 15, 2)):
        kind, shape = ("MMR longest", (8, 8)) if version == 1 else ("MMR longest, version 2", (34, 2))
        luma = longest_luma(depth, d, generator, version)
        case = tuned_picture(kind, luma, depth, d, shape, [3], any_number, generator, version)
        assert len(block.write(case.plan, version)) == limits.LONGEST_BLOCK[version]
        cases.append(case)
    return cases


# Ends and sums --------------------------------------------------------------

def end_pieces(d, order, generator):
    """Both ends, and numbers beside them; first pairs that cancel, but for a fraction, where samples are equal."""
    allowed = limits.coefficients(d, MMR)
    low, high = allowed[0], allowed[-1]
    half = 1 << (d - 1)
    pairs = [[half]]
    for k in range(order):
        pairs[0] += generator.shuffled([low, high, 0]) + generator.shuffled([high, low, k]) + [0]
    alike = [[value] * (1 + limits.MMR_TERMS * order) for value in (low, high)]
    beside = [generator.choice((low, low + 1, high - 1, high)) for _ in range(1 + limits.MMR_TERMS * order)]
    return pairs + alike + [beside, [low] + [high] * (len(beside) - 1), [high] + [low] * (len(beside) - 1)]


def end_cases(generator):
    cases = []
    for depth in DEPTHS:
        top = (1 << depth) - 1
        for d in (denominators(depth)[0], denominators(depth)[-1]):
            for order in (1, 2, 3):
                pieces = end_pieces(d, order, generator)
                for i in range(0, len(pieces), 2):
                    sections = [plain_luma(depth, d)] + [Section([0, top], [piece], vernier(depth, d))
                                                         for piece in (pieces[i], pieces[i + 1])]
                    plan = make_plan(depth, d, HDR_DEPTHS[i % 2], 4, 2, sections)
                    s = generator.choice((top, top // 2, 1 + top // 3))
                    cases.append(pinned_picture("MMR ends", plan, flat(plan, s, s, s)))
                    planes = [random_run(8, depth, generator)] + [[0, top], [top, 1]]
                    cases.append(pinned_picture("MMR ends", plan, planes))
    return cases


def exact_piece(plan, base, cmp, at, order, wanted, generator):
    """Numbers over the whole range whose sum at the place is `wanted` exactly; tt[7] is odd there."""
    d = plan.coefficient_log2_denom
    tt = terms_at(plan, base, cmp, at, order)
    allowed = limits.coefficients(d, MMR)
    while True:
        coef = [0] + [generator.among(allowed) for _ in range(limits.MMR_TERMS * order)]
        coef[7] = 0
        coef[7] = (wanted - rest_of(coef, tt)) * pow(tt[7], -1, 1 << 20) % (1 << 20)
        coef[7] += (generator.among(allowed) >> 21) << 20
        coef[0] = (wanted - rest_of(coef, tt)) >> 20
        if coef[0] in allowed:
            assert (coef[0] << 20) + rest_of(coef, tt) == wanted
            return coef


def sum_cases(generator):
    """Sums just below, at and just above a multiple of 2^(4 + d), of terms far greater than the sum."""
    cases = []
    for depth in DEPTHS:
        top = (1 << depth) - 1
        ends = (denominators(depth)[0], denominators(depth)[-1])
        for i, (d, K) in enumerate(product(ends, (1, 7, 32768, 40001, 65535))):
            sections = [plain_luma(depth, d)] + [Section([0, top], [[0, 0]], vernier(depth, d))] * 2
            plan = make_plan(depth, d, 12, 2, 2, sections)
            for away in (-1, 0, 1):
                order = 1 + (i + away) % 3
                base = picture(flat(plan, *odd_samples(depth, order, generator)))
                made = changed(plan, [])
                for cmp in (1, 2):
                    wanted = (K << (4 + d)) + (away if cmp == 1 else -away)
                    coef = exact_piece(plan, base, cmp, chroma_places(plan, cmp)[0], order, wanted, generator)
                    set_piece(made, cmp, 0, coef)
                    block.repeat_last_piece(made, cmp)
                cases.append(pinned_picture("MMR sums", made, [base[:4], base[4:5], base[5:]]))
    return cases


def odd_samples(depth, order, generator):
    """Three samples whose tt[7] is odd."""
    while True:
        samples = [generator.among(limits.samples(depth)) for _ in range(3)]
        if mmr_terms(*samples, order, depth)[7] % 2 == 1:
            return samples


# Random plans ---------------------------------------------------------------

RANDOM_SHAPES = ((2, 2), (4, 4), (8, 4), (4, 8), (16, 4), (2, 16), (8, 8), (6, 10))


def random_mmr_piece(d, generator):
    order = 1 + generator.below(len(MMR_ORDERS))
    if generator.one_in(4):
        return [some_number(d, generator) for _ in range(limits.coefs(order - 1, MMR))]
    return visible_mmr_piece(d, order, generator)


def random_mmr_plan(shapes, generator, version=1):
    """A random plan whose chroma has MMR pieces, at times in one component alone."""
    depth = generator.choice(DEPTHS)
    allowed = denominators(depth)
    d = generator.choice((allowed[0], allowed[-1], generator.among(allowed), generator.among(allowed)))
    width, height = generator.choice(shapes)
    sections = [random_section(depth, d, generator, version) for _ in range(3)]
    only = generator.choice((1, 2, None, None))
    for cmp in (1, 2):
        if only in (cmp, None):
            pieces = [random_mmr_piece(d, generator) if generator.below(4) else piece
                      for piece in sections[cmp].pieces[1:]]
            sections[cmp] = sections[cmp]._replace(pieces=[random_mmr_piece(d, generator)] + pieces)
    return make_plan(depth, d, generator.choice(HDR_DEPTHS), width, height, sections, int(generator.one_in(8)))


def random_mmr_picture(plan, generator):
    """(base, enhancement) of good samples, many of them telling."""
    pivot_value = assign_pivot_values(plan.pred_pivot_value, plan.num_pivots_minus2)
    base = [random_base_sample(pivot_value[cmp], plan.BL_bit_depth, generator)
            for cmp in range(3) for _ in range(plane_size(plan, cmp))]
    enhancement = [random_enhancement_sample(plan, cmp, v, generator)
                   for cmp in range(3) for v in mapped_plane(plan, cmp, base)]
    return base, enhancement


def random_cases(generator, number, version=1):
    return [random_case(generator, version) for _ in range(number)]


def random_case(generator, version):
    plan = random_mmr_plan(RANDOM_SHAPES, generator, version)
    base, enhancement = random_mmr_picture(plan, generator)
    if generator.one_in(8):
        enhancement = []
    first, count = 0, plan.half_height
    if generator.one_in(4):
        first = generator.below(plan.half_height)
        count = generator.between(1, plan.half_height - first)
    return Case("MMR random plan" + ", version 2" * (version == 2), plan, first, count, base, enhancement, version)


def flag_cases(generator):
    """Flag 0 and 1; enhancement absent, present, or wrong where it is ignored; one component of polynomials."""
    cases = []
    for depth, d, chosen in ((8, 18, (1,)), (10, 28, (2,)), (10, 15, (1, 2))):
        sections = plain_sections(depth, d, generator)
        for cmp in chosen:
            pieces = [visible_mmr_piece(d, 1 + cmp, generator), sections[cmp].pieces[1]]
            sections[cmp] = sections[cmp]._replace(pieces=pieces)
        base, right = (random_run(24, depth, generator) for _ in range(2))
        for flag, runs in ((0, (right, [])), (1, (right, [], [65535]))):
            plan = make_plan(depth, d, HDR_DEPTHS[flag], 4, 4, sections, flag)
            cases += [whole("MMR flag %d" % flag, plan, base, run) for run in runs]
    return cases


def all_cases():
    return (example_cases()
            + luma_cases(Generator(601))
            + part_cases(Generator(602))
            + wide_cases(Generator(603))
            + pivot_cases(Generator(604))
            + last_pivot_cases(Generator(605))
            + tuned_cases(Generator(606))
            + high_cases(Generator(613))
            + longest_cases(Generator(607))
            + end_cases(Generator(608))
            + sum_cases(Generator(609))
            + flag_cases(Generator(610))
            + random_cases(Generator(611), 40)
            + random_cases(Generator(612), 16, 2))
