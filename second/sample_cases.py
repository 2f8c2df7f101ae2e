"""Composing cases for sample_vectors: edges of clause 5.4, then random plans.

An output sample shows only the top 10 or 12 of 16 bits.  To make the low bits
count, many cases bring samples for which v + r lies just at, or just below,
the place where the rounding of clause 5.4.3.3 goes up: there a mapped sample
or a residual that is off by one changes the answer.

SHOWS says which wrong readers and mappings a kind of case tells from the right
ones; selftest.py builds them (wrong_readers.py, wrong_mappers.py) and holds the
cases to it.
"""

from collections import namedtuple
from itertools import product

import block
import jobs
import limits
from composer import (Plan, assign_pivot_values, derive_pivot_idx, map_by_piece, map_place, map_sample, residual,
                      row_pair_samples)
from generator import Generator
from limits import COEF_PLACES, DEPTHS, HDR_DEPTHS, PIVOT_PLACES, coefficients, denominators, nlq_numbers
from places import changed

Case = namedtuple("Case", "kind plan first count base enhancement version", defaults=[1])

# Pivots are the running sums; a piece is its list of whole numbers, 2 or 3 of a polynomial, 8, 15
# or 22 of MMR.  Of pieces there are n + 2, or n + 1 where the last one stands twice, as version 1 has it.
Section = namedtuple("Section", "pivots pieces nlq")
Nlq = namedtuple("Nlq", "offset maximum slope threshold")

SHOWS = {
    "mapping pivots": (
        "the copy forgotten", "piece 0 copied", "the order not copied", "the first coefficient not copied",
        "the third coefficient not copied", "the piece before a pivot at it", "the piece of the clamped sample",
        "piece n + 1 at the sample as it is", "piece n + 1 just below the last pivot too",
        "piece 0 where no pivot exceeds the sample"),
    "random plan": ("the copy forgotten", "piece 0 copied", "the piece of the clamped sample"),
    "last pivot": (
        "the copy forgotten", "the copy forgotten in chroma", "piece 0 copied", "the order not copied",
        "the first coefficient not copied", "the third coefficient not copied", "piece n + 1 at the sample as it is",
        "piece 0 where no pivot exceeds the sample"),
    "last pivot, version 2": (
        "piece n where no pivot exceeds the sample", "piece n + 1 only above the last pivot",
        "piece n + 1 only at the last pivot", "piece n + 1 just below the last pivot too",
        "the piece before a pivot at it", "the piece of the clamped sample", "piece n + 1 at the sample as it is",
        "piece 0 where no pivot exceeds the sample", "a copy in version 2 too", "version 2 taken for 1",
        "version 2 refused"),
    "random plan, version 2": (
        "piece n where no pivot exceeds the sample", "piece n + 1 only above the last pivot",
        "a copy in version 2 too"),
}


def make_plan(depth, d, hdr_bit_depth, width, height, sections, flag=0):
    plan = Plan(ccm_profile=limits.PROFILES[0], coefficient_log2_denom=d,
                BL_bit_depth_minus8=depth - 8, EL_bit_depth_minus8=depth - 8,
                hdr_bit_depth_minus8=hdr_bit_depth - 8, disable_residual_flag=flag,
                half_width=width // 2, half_height=height // 2,
                max_display_mastering_luminance=4000,
                min_display_mastering_luminance=50)
    for cmp, section in enumerate(sections):
        set_section(plan, cmp, section)
    return plan


# What a piece of so many numbers is: (mapping_idc, order_minus1).
PIECES = {limits.coefs(order, idc): (idc, order)
          for idc in (limits.POLYNOMIAL, limits.MMR) for order in limits.orders(idc)}


def set_piece(plan, cmp, piece, coef):
    plan.mapping_idc[cmp][piece], plan.order_minus1[cmp][piece] = PIECES[len(coef)]
    plan.fp_coef[cmp][piece] = [*coef] + [0] * (COEF_PLACES - len(coef))


def set_section(plan, cmp, section):
    pivots = section.pivots
    plan.num_pivots_minus2[cmp] = len(pivots) - 2
    for i, pivot in enumerate(pivots):
        plan.pred_pivot_value[cmp][i] = pivot - (pivots[i - 1] if i else 0)
    for piece, coef in enumerate(section.pieces):
        set_piece(plan, cmp, piece, coef)
    if len(section.pieces) < len(pivots):
        block.repeat_last_piece(plan, cmp)
    plan.nlq_offset[cmp] = section.nlq.offset
    plan.fp_hdr_in_max[cmp] = section.nlq.maximum
    plan.fp_linear_deadzone_slope[cmp] = section.nlq.slope
    plan.fp_linear_deadzone_threshold[cmp] = section.nlq.threshold


def plane_size(plan, cmp):
    luma = plan.width * plan.height
    return luma if cmp == 0 else luma // 4


def picture(planes):
    """The three planes as one run."""
    return planes[0] + planes[1] + planes[2]


def fit(values, size, spare):
    """The first size values; where there are fewer, spare() makes the rest."""
    values = list(values[:size])
    while len(values) < size:
        values.append(spare())
    return values


def whole(kind, plan, base, enhancement):
    """A case whose job is the whole picture."""
    return Case(kind, plan, 0, plan.half_height, base, enhancement)


def distinct(values, low, high):
    """Values within low..high, each once, in the order given."""
    out = []
    for value in values:
        if low <= value <= high and value not in out:
            out.append(value)
    return out


def edges_of_rounding(plan):
    """Remainders of v + r + rounding for which one less, or one more, shows."""
    return 0, (1 << (16 - plan.hdr_bit_depth)) - 1


# Residual edges -----------------------------------------------------------

def ruler_pieces(depth):
    """(first sample, sample after the last, K): there v = K + s exactly."""
    third = (1 << depth) // 3
    return ((0, third, 0), (third, 2 * third, 32768),
            (2 * third, 1 << depth, 65536 - (1 << depth)))


def ruler_section(depth, d, nlq):
    """Three pieces of slope one unit: low, middle and high mapped samples."""
    step = 1 << (d - 16 + depth)        # c1 * s * 2^(20-depth) >> (4+d) = s
    pieces = ruler_pieces(depth)
    pivots = [first for first, _, _ in pieces] + [(1 << depth) - 1]
    return Section(pivots, [[(K << d) >> 16, step] for _, _, K in pieces], nlq)


def ruler_sample(plan, r, want):
    """A sample whose v puts v + r on the wanted edge of the rounding."""
    drop = 16 - plan.hdr_bit_depth
    for first, after, K in ruler_pieces(plan.BL_bit_depth):
        s = first + (want - (1 << (drop - 1)) - r - K - first) % (1 << drop)
        if s < after and 0 <= K + s + r <= 65535:
            return s
    return 0 if r > 0 else (1 << plan.BL_bit_depth) - 1


def telling_samples(plan, cmp, generator):
    """Enhancement samples: round the offset, the ends, and where the limit bites."""
    top = (1 << plan.EL_bit_depth) - 1
    offset = plan.nlq_offset[cmp]
    r = [residual(plan, cmp, e) for e in range(top + 1)]
    upper = next(e for e in range(top + 1) if r[e] == r[top])
    lower = next(e for e in range(top, -1, -1) if r[e] == r[0])
    near = [offset, offset + 1, offset - 1]
    far = [upper, lower, top, 0, upper - 1, lower + 1]
    if cmp != 0:                # a chroma plane has few places: turn the list
        far = far[generator.below(6):] + far
    far += [offset + 2, offset - 2, offset + 3, offset - 3, top - 1, 1]
    return distinct(near + far, 0, top)


def ruler_picture(kind, plan, generator):
    """Each telling enhancement sample twice: at both edges of the rounding."""
    base, enhancement = [], []
    for cmp in range(3):
        size = plane_size(plan, cmp)
        e_list = fit(telling_samples(plan, cmp, generator), size // 2,
                     lambda: generator.below(1 << plan.EL_bit_depth))
        for e in e_list:
            for want in edges_of_rounding(plan):
                base.append(ruler_sample(plan, residual(plan, cmp, e), want))
                enhancement.append(e)
    return whole(kind, plan, base, enhancement)


def offsets(depth):
    top = (1 << depth) - 1
    return (1 << (depth - 1), 0, top, top // 3, 1, top - 1)


def residual_cases(generator):
    """Slope, threshold and maximum at 0, in the middle and at their ends.

    Where the maximum is 0 every residual is 0, so a few of those are enough.
    """
    cases = []
    for depth in DEPTHS:
        for at, d in enumerate((denominators(depth)[0], 22, denominators(depth)[-1])):
            end = nlq_numbers(d)[-1]
            slopes = (0, (1 << (d - 11)) + 3, end)
            thresholds = (0, (1 << (d - 10)) + 1, end)
            maxima = (0, (1 << (d - 2)) + 5, end)
            combos = [(slope, threshold, maximum) for slope, threshold, maximum
                      in product(slopes, thresholds, maxima)
                      if maximum != 0 or (slope == 0) == (threshold == 0)]
            for i in range(len(combos)):
                sections = []
                for cmp in range(3):
                    slope, threshold, maximum = combos[(i + 8 * cmp) % len(combos)]
                    offset = offsets(depth)[(i + cmp + at) % 6]
                    nlq = Nlq(offset, maximum, slope, threshold)
                    sections.append(ruler_section(depth, d, nlq))
                hdr_bit_depth = 12 if (i + at) % 2 == 0 else 10
                plan = make_plan(depth, d, hdr_bit_depth, 8, 4, sections)
                cases.append(ruler_picture("residual combination", plan, generator))
    return cases


def odd_shift_cases(generator):
    """Small parameters under shifts that round, and parts of exactly 1.0."""
    cases = []
    for depth in DEPTHS:
        for shift in (1, 3, 5):
            d = denominators(depth)[0] + shift
            one = 1 << d
            choices = ((one, 1, 0), (one, 13, 0), (one, 5, 1), (3, one, 0),
                       (5, 1, one), (one, one, one), (one + 1, 7, 3),
                       (one - 1, 255, one - 1), (7, 3, 0))
            for i in range(0, len(choices), 2):
                sections = []
                for cmp in range(3):
                    maximum, slope, threshold = choices[(i + cmp) % len(choices)]
                    offset = offsets(depth)[(i + cmp) % 6]
                    nlq = Nlq(offset, maximum, slope, threshold)
                    sections.append(ruler_section(depth, d, nlq))
                plan = make_plan(depth, d, 12, 8, 4, sections)
                cases.append(ruler_picture("residual rounding", plan, generator))
    return cases


# Mapping edges ------------------------------------------------------------

def vernier(depth, d):
    """A quantization whose residual goes in the finest steps that d allows."""
    shift = d - 5 - depth - 1 - (10 - depth)
    return Nlq(1 << (depth - 1), 1 << d, 1 << max(shift, 0), 0)


def pinning_enhancement(plan, cmp, v, want):
    """The sample nearest the offset that puts v + r on an edge of the rounding."""
    drop = 16 - plan.hdr_bit_depth
    top = (1 << plan.EL_bit_depth) - 1
    offset = plan.nlq_offset[cmp]
    for distance in range(2 << drop):
        for e in (offset + distance, offset - distance):
            if 0 <= e <= top:
                h = v + residual(plan, cmp, e)
                if 0 <= h <= 65535 and (h + (1 << (drop - 1))) % (1 << drop) == want:
                    return e
    return offset


def pinned_picture(kind, plan, planes):
    """A whole-picture case that shows each mapped sample as exactly as it can."""
    edges, base = edges_of_rounding(plan), picture(planes)
    enhancement = []
    for cmp in range(3):
        for at, v in enumerate(mapped_plane(plan, cmp, base)):
            enhancement.append(pinning_enhancement(plan, cmp, v, edges[at % 2]))
    return whole(kind, plan, base, enhancement)


def mapped_plane(plan, cmp, base):
    """The mapped samples of a component."""
    pivot_value = assign_pivot_values(plan.pred_pivot_value, plan.num_pivots_minus2)
    begin = sum(plane_size(plan, before) for before in range(cmp))
    return [map_place(plan, pivot_value, base, cmp, begin + at) for at in range(plane_size(plan, cmp))]


def pivot_sets(depth):
    """Equal pivots, pivots above the sample range, one piece to the most."""
    M = 1 << depth
    top = M - 1
    many = range(PIVOT_PLACES)
    return (
        [0, top],
        [0, M // 2, top],
        [M // 10, M // 5],
        [M // 2, M // 2],
        [0, 0],
        [M // 4, M // 4, M // 2, top],
        [0, M // 3, M // 3, M // 3, top],
        [0, M // 2, top, top],
        [top, 2 * top],
        [0, M // 2, M, M + top],
        [M // 2, M // 2 + top],
        [i * top // many[-1] for i in many],
        [(i + 1) * top for i in many],
        [0, 0, 1, 1, 2, 2, 5, 5, 9, 20, 20, 50, 50, M // 2, top, top, M],
        [10 + i for i in many],
        [0, 1],
        [1, 2, 2, 3],
    )


def visible_piece(d, order, generator):
    """Coefficients whose sum is mostly within 0 and 1.0."""
    quarter = 1 << (d - 2)
    coef = [generator.between(quarter, 3 * quarter)]
    for _ in range(order):
        coef.append(generator.between(-quarter // 2, quarter // 2))
    return coef


def telling_base_samples(pivots, depth):
    """0, 1, each pivot with its neighbours, the largest sample."""
    top = (1 << depth) - 1
    values = [0, 1, top, top - 1]
    for pivot in pivots:
        values += [pivot, pivot - 1, pivot + 1]
    return distinct(values, 0, top)


def pivot_cases(generator):
    cases = []
    for depth in DEPTHS:
        sets = pivot_sets(depth)
        for i in range(len(sets)):
            least, most = denominators(depth)[0], denominators(depth)[-1]
            d = (least, 18, 23, most)[(i + depth // 2) % 4]
            chosen = [sets[(i + 6 * cmp) % len(sets)] for cmp in range(3)]
            sections = []
            for pivots in chosen:
                pieces = [visible_piece(d, 1 + (piece + i) % 2, generator)
                          for piece in range(len(pivots) - 1)]
                sections.append(Section(pivots, pieces, vernier(depth, d)))
            plan = make_plan(depth, d, (12, 10)[i % 2], 8, 8, sections)
            wanted = [telling_base_samples(pivots, depth) for pivots in chosen]
            cases += pictures_of("mapping pivots", plan, wanted, generator)
    return cases


def pictures_of(kind, plan, wanted, generator):
    """One picture, or two where the wanted samples do not fit into one."""
    cases = []
    wanted = [list(values) for values in wanted]
    for _ in range(2):
        planes = []
        for cmp in range(3):
            size = plane_size(plan, cmp)
            planes.append(fit(wanted[cmp], size,
                              lambda: generator.below(1 << plan.BL_bit_depth)))
            wanted[cmp] = wanted[cmp][size:]
        cases.append(pinned_picture(kind, plan, planes))
        if not any(wanted):
            break
    return cases


# Piece n + 1 --------------------------------------------------------------

def last_pivot_sets(depth):
    """Last pivots within the sample range, alone and equal to others, at its end, and above it."""
    M = 1 << depth
    top = M - 1
    many = range(PIVOT_PLACES)
    return (
        [0, M // 2],
        [M // 4, M // 2, 3 * M // 4],
        [M // 3, M // 3],
        [0, 0],
        [0, M // 4, M // 2, M // 2],
        [5, M // 2, M // 2, M // 2, M // 2],
        [0, M // 2, top],
        [0, top - 1],
        [i * (M // 2) // many[-1] for i in many],
        [min(i, 12) * (M // 16) for i in many],
        [0, M // 2, M],
        [M // 2, M // 2 + top],
        [(i + 1) * (M // 8) for i in many],
    )


def last_pivot_samples(pivots, depth):
    """Just below the last pivot, at it and above it, then about the others."""
    top, last = (1 << depth) - 1, pivots[-1]
    return distinct([last - 1, last, last + 1, top] + telling_base_samples(pivots, depth), 0, top)


def meets_last_piece(plan, cmp, samples):
    """Those that no pivot exceeds."""
    pivot_value = assign_pivot_values(plan.pred_pivot_value, plan.num_pivots_minus2)
    n = plan.num_pivots_minus2[cmp]
    return [s for s in samples if derive_pivot_idx(s, cmp, plan.num_pivots_minus2, pivot_value) == n + 1]


def tells_last_piece(plan, cmp, samples):
    """Whether pieces n and n + 1 map one of these samples to other numbers; for MMR the others of its place are it."""
    pivot_value = assign_pivot_values(plan.pred_pivot_value, plan.num_pivots_minus2)
    n = plan.num_pivots_minus2[cmp]
    return any(map_by_piece(plan, pivot_value, cmp, [s] * 3, n)
               != map_by_piece(plan, pivot_value, cmp, [s] * 3, n + 1) for s in samples)


def last_pivot_case(kind, depth, i, generator, version):
    """Three sections of the sets in turn: where a sample meets piece n + 1, that of version 2 is told from piece n."""
    sets = last_pivot_sets(depth)
    d = (denominators(depth)[0], 19, 24, denominators(depth)[-1])[(i + depth // 2) % 4]
    sections, planes = [], []
    for cmp in range(3):
        pivots = sets[(i + 4 * cmp) % len(sets)]
        pieces = [visible_piece(d, 1 + (piece + i) % 2, generator)
                  for piece in range(limits.carried(len(pivots) - 2, version))]
        sections.append(Section(pivots, pieces, vernier(depth, d)))
        planes.append(fit(last_pivot_samples(pivots, depth), (16, 4, 4)[cmp], lambda: generator.below(1 << depth)))
    plan = make_plan(depth, d, HDR_DEPTHS[i % 2], 4, 4, sections)
    for cmp in range(3):
        met = meets_last_piece(plan, cmp, planes[cmp])
        assert (met != []) == (sections[cmp].pivots[-1] in limits.samples(depth))
        assert tells_last_piece(plan, cmp, met) == (version == 2 and met != [])
    return pinned_picture(kind, plan, planes)._replace(version=version)


def last_pivot_cases(generator):
    """Both versions; of version 2 each picture with an enhancement, and without one or with one that is ignored."""
    cases = []
    for depth in DEPTHS:
        for i in range(len(last_pivot_sets(depth))):
            first = last_pivot_case("last pivot", depth, i, generator, 1)
            second = last_pivot_case("last pivot, version 2", depth, i, generator, 2)
            flagged = changed(second.plan, [(("disable_residual_flag",), 1)])
            cases += [first, second, second._replace(enhancement=[]) if i % 2 else second._replace(plan=flagged)]
            if i % 4 == 0:              # version 2 with the last piece twice is what version 1 is
                cases.append(first._replace(kind="last pivot, pieces alike, version 2", version=2))
    return cases


def extreme_coefficients(d):
    """Both ends of the range and the numbers just inside, orders 1 and 2."""
    low, high = coefficients(d)[0], coefficients(d)[-1]
    pieces = [list(coef) for coef in product((low, low + 1, high - 1, high), repeat=2)]
    for signs in product((0, 1), repeat=3):
        pieces.append([high if sign else low for sign in signs])
        pieces.append([high - 1 if sign else low + 1 for sign in signs])
        pieces.append([(high if sign else low + 1) if i % 2 else
                       (high - 1 if sign else low) for i, sign in enumerate(signs)])
    return pieces


def samples_that_show(plan, cmp):
    """Samples mapped strictly within 0 and 65,535: the first and last first."""
    pivot_value = assign_pivot_values(plan.pred_pivot_value, plan.num_pivots_minus2)
    shown = [s for s in range(1 << plan.BL_bit_depth)
             if 0 < map_sample(plan, pivot_value, cmp, [s] * 3) < 65535]
    if not shown:
        return []
    middle = len(shown) // 2
    chosen = [shown[0], shown[-1], shown[0] - 1, shown[-1] + 1]
    chosen += [shown[0] + 1, shown[-1] - 1] + shown[middle:middle + 3]
    return distinct(chosen, 0, (1 << plan.BL_bit_depth) - 1)


def coefficient_cases(generator):
    cases = []
    for depth in DEPTHS:
        top = (1 << depth) - 1
        least, most = denominators(depth)[0], denominators(depth)[-1]
        for d in (least, most):
            pieces = extreme_coefficients(d)
            step = 1 if d == most else 2
            for i in range(0, len(pieces), step):
                sections = [Section([0, top], [pieces[(i + 13 * cmp) % len(pieces)]],
                                    vernier(depth, d)) for cmp in range(3)]
                plan = make_plan(depth, d, (12, 10)[i // step % 2], 4, 4, sections)
                planes = []
                for cmp in range(3):
                    shown = samples_that_show(plan, cmp)
                    plain = [top, 0, top - 1, 1, top // 2]
                    planes.append(fit(shown + plain, plane_size(plan, cmp),
                                      lambda: generator.below(top + 1)))
                cases.append(pinned_picture("mapping coefficients", plan, planes))
    return cases


def sum_cases(generator):
    """Sums just below, at and just above a multiple of 2^(4+d).

    The first coefficient makes the sum K * 2^(4+d); the smallest other
    coefficients then move it by the least that the depth allows.
    """
    least = ([0, -1], [1], [0, 1], [-1], [-1, 1], [0, 0])
    cases = []
    for depth in DEPTHS:
        for d in (16, 27):
            for i, K in enumerate((0, 1, 15, 32768, 65535, 65536)):
                sections = []
                for cmp in range(3):
                    coef = [K << (d - 16)] + least[(i // 2 + 2 * cmp) % len(least)]
                    sections.append(Section([0, (1 << depth) - 1], [coef],
                                            vernier(depth, d)))
                plan = make_plan(depth, d, 12, 4, 4, sections)
                planes = [[1, 1, 0, 0, 2, 2, 3, 3] + random_run(8, depth, generator),
                          [1, 1, 0, 2], [1, 1, 3, 0]]
                cases.append(pinned_picture("mapping sums", plan, planes))
    return cases


def example_cases():
    """The worked examples of the house rules, in 2 x 2 pictures without residual."""
    one = 1 << 15
    linear = [0, one]
    wide, narrow = [0, 1023], [100, 200]
    two = [[0, 0], [one // 2, 0]]
    luma = (
        (wide, [linear], [0, 1, 1023, 512]),
        (wide, [[63 * one, 0]], [0, 1, 512, 1023]),
        (wide, [[-64 * one, 0]], [0, 1, 512, 1023]),
        (wide, [[0, -one]], [0, 1, 512, 1023]),
        (wide, [[0, 0, one]], [512, 1, 1023, 0]),
        (wide, [[-one + 32767, one]], [0, 1, 2, 1023]),
        (narrow, [linear], [50, 900, 100, 200]),
        ([0, 512, 1023], two, [511, 512, 513, 0]),
    )
    cases = []
    still = Nlq(512, one, 0, 0)
    for i, (pivots, pieces, samples) in enumerate(luma):
        sections = [Section(pivots, pieces, still),
                    Section(luma[i - 1][0], luma[i - 1][1], still),
                    Section(luma[i - 2][0], luma[i - 2][1], still)]
        base = samples + [luma[i - 1][2][0], luma[i - 2][2][1]]
        for hdr_bit_depth in HDR_DEPTHS:
            for flag in (0, 1):
                plan = make_plan(10, 15, hdr_bit_depth, 2, 2, sections, flag)
                cases.append(whole("worked example", plan, base, []))
    section = Section([0, 255], [[0, 1 << 13]], Nlq(128, 1 << 13, 0, 0))
    plan = make_plan(8, 13, 12, 2, 2, [section] * 3, 1)
    cases.append(whole("worked example", plan, [255, 254, 1, 0, 128, 255], []))
    return cases


# Flags, parts of a picture, refusals --------------------------------------

def plain_sections(depth, d, generator):
    """Three different, well visible sections."""
    top = (1 << depth) - 1
    sections = []
    for cmp in range(3):
        nlq = Nlq(top // 2 - cmp, 1 << (d - 2 - cmp), (1 << (d - 10)) - cmp, 1 + cmp)
        pieces = [[(1 << (d - 3)) * (cmp + 1), 1 << (d - 2)],
                  visible_piece(d, 2, generator)]
        sections.append(Section([0, top // (2 + cmp), top], pieces, nlq))
    return sections


def random_run(size, depth, generator):
    return [generator.among(limits.samples(depth)) for _ in range(size)]


def flag_cases(generator):
    """Flag 0 and 1; enhancement absent, present, or wrong where it is ignored."""
    cases = []
    for depth, d in ((8, denominators(8)[0]), (10, 24)):
        sections = plain_sections(depth, d, generator)
        base = random_run(24, depth, generator)
        right = random_run(24, depth, generator)
        for hdr_bit_depth in HDR_DEPTHS:
            plan = make_plan(depth, d, hdr_bit_depth, 4, 4, sections, 0)
            cases.append(whole("flag 0, enhancement used", plan, base, right))
            cases.append(whole("flag 0, enhancement absent", plan, base, []))
            plan = make_plan(depth, d, hdr_bit_depth, 4, 4, sections, 1)
            for ignored in ([], right, [65535], [65535] * 24, [0] * 23,
                            [1 << depth] * 25):
                cases.append(whole("flag 1, enhancement ignored", plan, base, ignored))
    return cases


SHAPES = ((2, 2), (4, 2), (2, 4), (8, 4), (4, 8), (16, 4), (4, 16), (32, 2),
          (2, 32), (6, 10), (10, 6), (8, 8))


def part_cases(generator):
    """Every part of a picture of 4 row pairs, and some parts of other shapes."""
    cases = []
    sections = plain_sections(10, 19, generator)
    plan = make_plan(10, 19, 12, 2, 8, sections)
    base, enhancement = (random_run(24, 10, generator) for _ in range(2))
    for first in range(4):
        for count in range(1, 5 - first):
            cases.append(Case("part", plan, first, count, base, enhancement))
    sections = plain_sections(8, 17, generator)
    for width, height in SHAPES:
        plan = make_plan(8, 17, 10, width, height, sections)
        base, enhancement = (random_run(plan.picture_samples, 8, generator)
                             for _ in range(2))
        first = generator.below(plan.half_height)
        count = generator.between(1, plan.half_height - first)
        cases.append(Case("part", plan, first, count, base, enhancement))
    return cases


def refused(number, cases):
    """The cases, all of which this rule and no other is to refuse."""
    for case in cases:
        output = [0] * case.plan.picture_samples
        answer, _ = jobs.job(case.plan, case.first, case.count, case.base,
                             case.enhancement, output)
        assert answer == number, case.kind
    return cases


def refusal_9_cases(plan, base, enhancement, ignoring):
    """Wrong lengths, alone and with rules 10 and 11 broken as well."""
    wild = [65535] * len(base)
    lengths = [[], base[:1], base[:-1], base + [0], base + base]
    cases = [Case("refused 9", plan, 1, 2, run, enhancement) for run in lengths]
    cases += [Case("refused 9", plan, 1, 2, base, run)
              for run in ([0], enhancement[:-1], enhancement + [0])]
    cases += [Case("9 before 10", plan, first, count, base[:-1], enhancement)
              for first, count in ((0, 0), (4, 1), (65535, 1))]
    cases += [Case("9 before 10", plan, 0, 0, base, enhancement[:-1]),
              Case("9 before 11", plan, 1, 2, wild[:-1], enhancement),
              Case("9 before 11", plan, 1, 2, wild + [0], enhancement),
              Case("9 before 11", plan, 1, 2, wild, enhancement[:-1]),
              Case("9 before 11", plan, 1, 2, base, wild[:-1]),
              Case("9 before 10 and 11", plan, 3, 2, wild[:-1], wild),
              Case("9 before 10 and 11", plan, 0, 0, wild, wild + [0])]
    cases += [Case("9 with flag 1", ignoring, 1, 2, base[:-1], enhancement),
              Case("9 with flag 1", ignoring, 0, 0, base + [0], [65535])]
    return refused(9, cases)


def refusal_10_cases(plan, base, enhancement, ignoring):
    """Jobs beyond 4 row pairs, alone and with rule 11 broken as well."""
    wild = [65535] * len(base)
    beyond = [(0, 0), (4, 0), (0, 5), (1, 4), (3, 2), (4, 1), (5, 1), (65535, 1),
              (65535, 2), (65535, 5), (1, 65535), (2, 65535), (65535, 65535),
              (65532, 4), (65535, 0), (0, 65535), (32768, 32768)]
    cases = [Case("refused 10", plan, first, count, base, enhancement)
             for first, count in beyond]
    cases += [Case("10 before 11", plan, first, count, wild, wild)
              for first, count in beyond[:9]]
    cases += [Case("refused 10", ignoring, first, count, base, wild)
              for first, count in beyond[:4]]
    return refused(10, cases)


def refusal_11_cases(plan, base, enhancement, ignoring, generator):
    """One bad sample at each border of row pairs 1 and 2, inside and outside."""
    depth = plan.BL_bit_depth
    inside = [at for k in (1, 2) for _, at in row_pair_samples(plan, k)]
    luma, chroma = plane_size(plan, 0), plane_size(plan, 1)
    borders = []
    for start, size in ((0, luma), (luma, chroma), (luma + chroma, chroma)):
        quarter = size // 4
        borders += [start, start + quarter - 1, start + quarter,
                    start + 3 * quarter - 1, start + 3 * quarter, start + size - 1]
    cases = []
    for at in borders:
        bad_base = replaced(base, at, 1 << depth)
        bad_enhancement = replaced(enhancement, at, 1 << depth)
        if at in inside:
            cases.append(Case("refused 11", plan, 1, 2, bad_base, enhancement))
            cases.append(Case("refused 11", plan, 1, 2, base, bad_enhancement))
        else:
            cases.append(Case("bad sample outside", plan, 1, 2, bad_base,
                              bad_enhancement))
    largest = [(1 << depth) - 1] * len(base)
    cases.append(Case("largest sample", plan, 1, 2, largest, enhancement))
    cases.append(Case("largest sample", plan, 1, 2, base, largest))
    cases.append(Case("bad sample outside", plan, 1, 2,
                      outside_wild(base, inside), outside_wild(enhancement, inside)))
    at = generator.choice(inside)
    for value in (2 << depth, 32768, 65535):
        cases.append(Case("refused 11", plan, 1, 2, replaced(base, at, value), enhancement))
        cases.append(Case("refused 11", plan, 1, 2, base, replaced(enhancement, at, value)))
    bad = replaced(enhancement, at, 1 << depth)
    cases.append(Case("bad sample ignored", ignoring, 1, 2, base, bad))
    cases.append(Case("refused 11", ignoring, 1, 2, replaced(base, at, 1 << depth), bad))
    cases.append(Case("refused 11", plan, 1, 2, replaced(base, at, 1 << depth), []))
    refused(11, [case for case in cases if case.kind == "refused 11"])
    return cases


def replaced(run, at, value):
    return run[:at] + [value] + run[at + 1:]


def outside_wild(run, inside):
    return [value if at in inside else 65535 - at for at, value in enumerate(run)]


def refusal_cases(generator):
    """On pictures of 2 x 8 samples, so 4 row pairs."""
    cases = []
    for depth, d in ((8, 20), (10, 20)):
        sections = [Section([0, (1 << depth) - 1], [visible_piece(d, 1, generator)],
                            vernier(depth, d)) for _ in range(3)]
        plan = make_plan(depth, d, 12, 2, 8, sections, 0)
        ignoring = make_plan(depth, d, 12, 2, 8, sections, 1)
        base, enhancement = (random_run(24, depth, generator) for _ in range(2))
        cases += refusal_9_cases(plan, base, enhancement, ignoring)
        if depth == 10:         # rule 10 does not ask for the depth
            cases += refusal_10_cases(plan, base, enhancement, ignoring)
        cases += refusal_11_cases(plan, base, enhancement, ignoring, generator)
    return cases


# Random plans -------------------------------------------------------------

def random_coefficient(d, generator):
    """Mostly small numbers, so that sums are often neither cut nor negative."""
    kind = generator.below(8)
    if kind == 0:
        return generator.among(coefficients(d))
    if kind == 1:
        return generator.between(-2 << d, 2 << d)
    if kind == 2:
        return generator.choice((0, 1, -1, 1 << d, -1 << d, (1 << d) - 1))
    return generator.between(-1 << (d - 1), 1 << d)


def random_section(depth, d, generator, version=1):
    n = generator.choice((0, 0, 1, 1, 2, 3, 5, 7, limits.N[-1]))
    largest = generator.choice(((1 << depth) - 1, (1 << depth) // (n + 1), 12))
    pivots = [generator.below(generator.choice((1, 20, 1 << depth)))]
    for _ in range(n + 1):
        step = generator.choice((0, 1, 2, 2, 2, 2)) * generator.below(largest + 1) // 2
        pivots.append(pivots[-1] + min(step, limits.samples(depth)[-1]))
    pieces = []
    for _ in range(limits.carried(n, version)):
        order = generator.between(1, 2)
        if generator.one_in(3):
            pieces.append([random_coefficient(d, generator) for _ in range(order + 1)])
        else:
            pieces.append(visible_piece(d, order, generator))
    return Section(pivots, pieces, random_nlq(depth, d, generator))


def random_nlq(depth, d, generator):
    kind = generator.below(4)
    offset = generator.below(1 << depth)
    if kind == 0:
        return vernier(depth, d)._replace(offset=offset)
    if kind == 1:
        return Nlq(offset, *(generator.among(nlq_numbers(d)) for _ in range(3)))
    return Nlq(offset, generator.below(1 << generator.between(d - 4, d + 1)),
               generator.below(1 << generator.between(d - 13, d - 8)),
               generator.below(1 << generator.between(d - 12, d - 3)))


def random_base_sample(pivots, depth, generator):
    if generator.one_in(3):
        s = generator.choice(pivots) + generator.between(-2, 2)
        return min(max(s, 0), (1 << depth) - 1)
    return generator.below(1 << depth)


def random_enhancement_sample(plan, cmp, v, generator):
    kind = generator.below(4)
    top = (1 << plan.EL_bit_depth) - 1
    if kind == 0:
        return generator.below(top + 1)
    if kind == 1:
        e = plan.nlq_offset[cmp] + generator.between(-3, 3)
        return min(max(e, 0), top)
    return pinning_enhancement(plan, cmp, v, generator.choice(edges_of_rounding(plan)))


def random_plan(shapes, generator, version=1):
    depth = generator.choice(DEPTHS)
    allowed = denominators(depth)
    d = generator.choice((allowed[0], allowed[-1], allowed[-1], generator.among(allowed),
                          generator.among(allowed), 23))
    width, height = generator.choice(shapes)
    sections = [random_section(depth, d, generator, version) for _ in range(3)]
    flag = 1 if generator.one_in(8) else 0
    return make_plan(depth, d, generator.choice(HDR_DEPTHS), width, height, sections, flag)


def random_picture(plan, generator):
    """(base, enhancement) of good samples, many of them telling; of a plan of polynomials."""
    depth = plan.BL_bit_depth
    pivot_value = assign_pivot_values(plan.pred_pivot_value, plan.num_pivots_minus2)
    base, enhancement = [], []
    for cmp in range(3):
        for _ in range(plane_size(plan, cmp)):
            s = random_base_sample(pivot_value[cmp], depth, generator)
            v = map_sample(plan, pivot_value, cmp, [s] * 3)
            base.append(s)
            enhancement.append(random_enhancement_sample(plan, cmp, v, generator))
    return base, enhancement


def random_case(generator, version):
    plan = random_plan(SHAPES[5:], generator, version)
    base, enhancement = random_picture(plan, generator)
    if generator.one_in(12):
        enhancement = []
    first, count = 0, plan.half_height
    if generator.one_in(5):
        first = generator.below(plan.half_height)
        count = generator.between(1, plan.half_height - first)
    return Case("random plan" + ", version 2" * (version == 2), plan, first, count, base, enhancement, version)


def random_cases(generator, number, version=1):
    return [random_case(generator, version) for _ in range(number)]


def all_cases():
    return (example_cases()
            + residual_cases(Generator(101))
            + odd_shift_cases(Generator(102))
            + pivot_cases(Generator(103))
            + coefficient_cases(Generator(104))
            + sum_cases(Generator(109))
            + flag_cases(Generator(105))
            + part_cases(Generator(106))
            + refusal_cases(Generator(107))
            + random_cases(Generator(108), 64)
            + last_pivot_cases(Generator(110))
            + random_cases(Generator(111), 16, 2))
