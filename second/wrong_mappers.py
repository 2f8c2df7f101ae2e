"""Mappings with one mistake each, by name: what the cases of sample_vectors have to tell from the right one.

sample_cases.py, mmr_cases.py and search_cases.py say which kind of case shows which of them, and selftest.py holds them
to that. A mapping is what composer.map_place is.
"""

from fractions import Fraction
from math import floor

import limits
from composer import (assign_pivot_values, clamped, derive_pivot_idx, map_by_piece, map_place, map_sample, mmr_terms,
                      reconstruct, samples_of)


def of_samples(mapping):
    """What composer.map_sample is, for each place of a picture."""
    return lambda plan, pivot_value, base, cmp, at: mapping(plan, pivot_value, cmp, samples_of(plan, base, cmp, at))


def choosing(choose):
    """The piece is the one that `choose` gives of the right one, of n, of the sample and of the pivots."""
    def mapping(plan, pivot_value, cmp, sX):
        n, pivots = plan.num_pivots_minus2[cmp], pivot_value[cmp]
        piece = derive_pivot_idx(sX[cmp], cmp, plan.num_pivots_minus2, pivot_value)
        return map_by_piece(plan, pivot_value, cmp, sX, choose(piece, n, sX[cmp], pivots))
    return of_samples(mapping)


def at_or_above(piece, n, s, pivots):
    """The first pivot that is not below the sample ends its piece."""
    return next((i for i in range(n + 1) if s <= pivots[i + 1]), n + 1)


def of_the_clamped(piece, n, s, pivots):
    s = min(max(s, pivots[0]), pivots[-1])
    return next((i for i in range(n + 1) if s < pivots[i + 1]), n + 1)


def not_clamped(plan, pivot_value, cmp, sX):
    """Piece n + 1 at the sample itself: as if the last pivot were no less."""
    n, pivots = plan.num_pivots_minus2[cmp], pivot_value[cmp]
    if sX[cmp] <= pivots[-1]:
        return map_sample(plan, pivot_value, cmp, sX)
    further = list(pivot_value)
    further[cmp] = pivots[:-1] + [sX[cmp]]
    return map_by_piece(plan, further, cmp, sX, n + 1)


# The search for the piece ---------------------------------------------------

def last_of_equals(piece, n, s, pivots):
    """The last of the pieces whose next pivot is the right one's."""
    return piece if piece > n else max(i for i in range(n + 1) if pivots[i + 1] == pivots[piece + 1])


def halving(n, s, pivots, undecided=0):
    """The lowest and the highest piece that are left where halving has come down to so few more than one.

    At 0 both are the right piece: what is wrong is where it ends, or what it is given.
    """
    low, high = 0, n + 1
    while high - low > undecided:
        middle = (low + high) // 2
        if s < pivots[middle + 1]:
            high = middle
        else:
            low = middle + 1
    return low, high


def over_all_places(piece, n, s, pivots):
    """As if all pivots were in use; those beyond the last one are 0, which does not rise."""
    rest = [0] * (limits.PIVOT_PLACES - len(pivots))
    return halving(limits.N[-1], s, pivots + rest)[0]


def filled_in(piece, n, s, pivots):
    """Pieces are filled in one after the other, and each takes a code before it is asked for its end."""
    after = 0
    for i in range(n + 1):
        after = max(after + 1, pivots[i + 1])
        if s < after:
            return i
    return n + 1


# Polynomials that go on from code to code -------------------------------------

def poly_sum(coef, s, depth):
    return sum((z * s ** i) << (20 - i * depth) for i, z in enumerate(coef[:3]))


def differences(coef, first, depth):
    """The sum at a code, how much the next one's is more, and how much more that grows with each code."""
    begin = poly_sum(coef, first, depth)
    return begin, poly_sum(coef, first + 1, depth) - begin, coef[2] << (21 - 2 * depth)


def going_on(coef, first, steps, depth, d):
    """The sum so many codes after the first one, before it where they are negative: right, however many there are."""
    begin, slope, bend = differences(coef, first, depth)
    return begin + steps * slope + steps * (steps - 1) // 2 * bend


def half_as_bent(coef, first, steps, depth, d):
    begin, slope, bend = differences(coef, first, depth)
    return begin + steps * slope + steps * (steps - 1) // 2 * (bend // 2)


def cut_on_the_way(coef, first, steps, depth, d):
    """What is cut off a sum is missing in all that follow."""
    rr, slope, bend = differences(coef, first, depth)
    for _ in range(steps):
        rr = min(max(rr, 0), (1 << (20 + d)) - 1) + slope
        slope += bend
    return rr


def codes_after(piece, n, s, pivots):
    """How many codes after the piece's pivot the clamped sample is."""
    return 0 if piece > n else max(s - pivots[piece], 0)


def by_differences(steps=codes_after, total=going_on):
    """Polynomial pieces go on from their pivot; MMR pieces are right."""
    def mapping(plan, pivot_value, cmp, sX):
        n, pivots, d = plan.num_pivots_minus2[cmp], pivot_value[cmp], plan.coefficient_log2_denom
        piece = derive_pivot_idx(sX[cmp], cmp, plan.num_pivots_minus2, pivot_value)
        if plan.mapping_idc[cmp][piece] == limits.MMR:
            return map_by_piece(plan, pivot_value, cmp, sX, piece)
        after = steps(piece, n, sX[cmp], pivots)
        return right_cut(total(plan.fp_coef[cmp][piece], pivots[piece], after, plan.BL_bit_depth, d), d)
    return of_samples(mapping)


# MMR: the samples that it is given ------------------------------------------

def sampling(sampled):
    """The samples of a chroma place are those that `sampled` gives of the run, the place and the right ones."""
    def mapping(plan, pivot_value, base, cmp, at):
        sX = samples_of(plan, base, cmp, at)
        return map_sample(plan, pivot_value, cmp, sampled(plan, base, cmp, at, sX) if cmp else sX)
    return mapping


def luma_by(below):
    """The luma of a chroma place is what `below` gives of s(x, y) and of the place's column and row."""
    def sampled(plan, base, cmp, at, sX):
        W, H = plan.width, plan.height
        j, i = divmod((at - W * H) % (W * H // 4), W // 2)
        return below(lambda x, y: base[min(max(y, 0), H - 1) * W + min(max(x, 0), W - 1)], i, j), sX[1], sX[2]
    return sampling(sampled)


def luma_of(change):
    """The luma is down-sampled after `change`, which gives other luma samples of the plan and the run."""
    def sampled(plan, base, cmp, at, sX):
        size = plan.width * plan.height
        return samples_of(plan, change(plan, base) + base[size:], cmp, at)[0], sX[1], sX[2]
    return sampling(sampled)


def row_sum(s, i, y):
    return s(2 * i - 1, y) + 2 * s(2 * i, y) + s(2 * i + 1, y)


def two_rows(row):
    """Both rows by `row`, which gives the sum of one of them before it is shifted."""
    return luma_by(lambda s, i, j: (((row(s, i, 2 * j) + 2) >> 2) + ((row(s, i, 2 * j + 1) + 2) >> 2) + 1) >> 1)


def rows_first(s, i, j):
    a, b, c = ((s(x, 2 * j) + s(x, 2 * j + 1) + 1) >> 1 for x in (2 * i - 1, 2 * i, 2 * i + 1))
    return (a + 2 * b + c + 2) >> 2


def left_column(left):
    """Left of the picture stands what `left` gives of s(x, y) and of the row."""
    def row(s, i, y):
        return row_sum(s, i, y) if i > 0 else left(s, y) + 2 * s(0, y) + s(1, y)
    return two_rows(row)


def row_before(plan, base, cmp, at, sX):
    """Left of the picture stands the end of the row before; before the first one what is there is right."""
    W = plan.width
    j, i = divmod((at - W * plan.height) % (W * plan.height // 4), W // 2)
    if i > 0 or j == 0:
        return sX
    upper, lower = ((base[y * W - 1] + 2 * base[y * W] + base[y * W + 1] + 2) >> 2 for y in (2 * j, 2 * j + 1))
    return (upper + lower + 1) >> 1, sX[1], sX[2]


def last_column(plan, base, cmp, at, sX):
    """The column before stands in the last one's place."""
    W = plan.width
    j, i = divmod((at - W * plan.height) % (W * plan.height // 4), W // 2)
    if i < W // 2 - 1:
        return sX
    narrowed = list(base)
    for y in (2 * j, 2 * j + 1):
        narrowed[y * W + W - 1] = base[y * W + W - 2]
    return samples_of(plan, narrowed, cmp, at)[0], sX[1], sX[2]


def clamped_luma(plan, base):
    pivot_value = assign_pivot_values(plan.pred_pivot_value, plan.num_pivots_minus2)
    return [clamped(s, 0, plan.num_pivots_minus2, pivot_value) for s in base[:plan.width * plan.height]]


def composed(plan, base, cmp, at):
    """What a sample comes to without an enhancement: what stands there where the output is the base."""
    pivot_value = assign_pivot_values(plan.pred_pivot_value, plan.num_pivots_minus2)
    return reconstruct(map_place(plan, pivot_value, base, cmp, at), 0, 1, plan.hdr_bit_depth)


def composed_luma(plan, base):
    return [composed(plan, base, 0, at) for at in range(plan.width * plan.height)]


def composed_cb(plan, base, cmp, at, sX):
    size = plan.width * plan.height // 4
    return sX if cmp == 1 else (sX[0], composed(plan, base, 1, at - size), sX[2])


# MMR: what it makes of them -------------------------------------------------

def own_pivots(plan, pivot_value, cmp, sX):
    return [clamped(s, X, plan.num_pivots_minus2, pivot_value) for X, s in enumerate(sX)]


def own_numbers(plan, cmp, piece):
    return plan.fp_coef[cmp][piece]


def right_sum(coef, tt, d):
    return sum(z * t for z, t in zip(coef, tt))


def right_cut(rr, d):
    return min(floor(max(rr, 0)) >> (4 + d), 0xffff)


def mmr(clamp=own_pivots, own=own_numbers, terms=mmr_terms, total=right_sum, cut=right_cut, fewer=0):
    """A mapping whose MMR pieces have another part; its numbers are those of so many orders fewer."""
    def mapping(plan, pivot_value, cmp, sX):
        piece, d = derive_pivot_idx(sX[cmp], cmp, plan.num_pivots_minus2, pivot_value), plan.coefficient_log2_denom
        if plan.mapping_idc[cmp][piece] != limits.MMR:
            return map_by_piece(plan, pivot_value, cmp, sX, piece)
        order = plan.order_minus1[cmp][piece]
        tt = terms(*clamp(plan, pivot_value, cmp, sX), order + 1, plan.BL_bit_depth)
        count = limits.coefs(order, limits.MMR) - limits.MMR_TERMS * fewer
        return cut(total(own(plan, cmp, piece)[:count], tt[:count], d), d)
    return of_samples(mapping)


def clamping(components):
    """Each of s0, s1, s2 is clamped with the pivots of the component that `components` gives, where it gives one."""
    def clamp(plan, pivot_value, cmp, sX):
        return [s if X is None else clamped(s, X, plan.num_pivots_minus2, pivot_value)
                for s, X in zip(sX, components(cmp))]
    return mmr(clamp=clamp)


def terms_but(change):
    """The terms after `change`, which is given them, the samples and the depth."""
    def terms(s0, s1, s2, order, depth):
        tt = mmr_terms(s0, s1, s2, 3, depth)
        change(tt, (s0, s1, s2), depth)
        return tt
    return mmr(terms=terms)


def unshifted_7(tt, samples, depth):
    tt[7] = tt[4] * tt[3]
    tt[14], tt[21] = (tt[7] * tt[7]) >> 20, (tt[7] * tt[14]) >> 20


def product_14(tt, samples, depth):
    tt[14] = (tt[4] * tt[3]) ** 2 >> 60


def product_21(tt, samples, depth):
    tt[21] = (tt[4] * tt[3]) ** 3 >> 100


def nearest_7(tt, samples, depth):
    tt[7] = (tt[4] * tt[3] + (1 << 19)) >> 20


def cut_off_once(tt, samples, depth):
    for i in range(4, 8):
        tt[14 + i] = tt[i] ** 3 >> 40


def exact(tt, samples, depth):
    """Nothing is cut off a product: the terms are fractions."""
    a, b, c = (Fraction(s, 1 << depth) for s in samples)
    first = [a, b, c, a * b, a * c, b * c, a * b * c]
    tt[1:] = [(1 << 20) * t ** power for power in (1, 2, 3) for t in first]


def exchanged(pairs):
    def change(tt, samples, depth):
        for i, j in pairs:
            tt[i], tt[j] = tt[j], tt[i]
    return terms_but(change)


def depth_10(s0, s1, s2, order, depth):
    return mmr_terms(s0, s1, s2, order, 10)


def by_term(plan, cmp, piece):
    """The numbers as if all orders of a term stood together."""
    coef, orders = plan.fp_coef[cmp][piece], plan.order_minus1[cmp][piece] + 1
    return [coef[0]] + [coef[1 + j * orders + i] for i in range(orders) for j in range(limits.MMR_TERMS)]


def in_64_bits(coef, tt, d):
    return (right_sum(coef, tt, d) + (1 << 63)) % (1 << 64) - (1 << 63)


def held_within_64_bits(coef, tt, d):
    most = (1 << 63) - 1
    rr = 0
    for z, t in zip(coef, tt):
        rr = min(max(rr + min(max(z * t, -most - 1), most), -most - 1), most)
    return rr


def as_float(coef, tt, d):
    rr = 0.0
    for z, t in zip(coef, tt):
        rr += float(z) * float(t)
    return floor(rr)


def integers_toward_zero(coef, tt, d):
    """Each number as an integer part toward zero and the fraction of the right one."""
    return sum((int(Fraction(z, 1 << d)) * (1 << d) + z % (1 << d)) * t for z, t in zip(coef, tt))


WRONG = {
    "piece n where no pivot exceeds the sample": choosing(lambda piece, n, s, pivots: min(piece, n)),
    "piece n + 1 only above the last pivot": choosing(
        lambda piece, n, s, pivots: n if s == pivots[-1] else piece),
    "piece n + 1 only at the last pivot": choosing(
        lambda piece, n, s, pivots: n if s > pivots[-1] else piece),
    "piece n + 1 just below the last pivot too": choosing(
        lambda piece, n, s, pivots: n + 1 if s == pivots[-1] - 1 else piece),
    "the piece before a pivot at it": choosing(at_or_above),
    "the piece of the clamped sample": choosing(of_the_clamped),
    "piece n + 1 at the sample as it is": of_samples(not_clamped),
    "piece 0 where no pivot exceeds the sample": choosing(lambda piece, n, s, pivots: 0 if piece > n else piece),
    "the last of equal pivots": choosing(last_of_equals),
    "a halving that ends early, the lower piece": choosing(lambda piece, n, s, pivots: halving(n, s, pivots, 1)[0]),
    "a halving that ends early, the upper piece": choosing(lambda piece, n, s, pivots: halving(n, s, pivots, 1)[1]),
    "a halving over all places of pivots": choosing(over_all_places),
    "a halving over all places of pivots, piece n + 1 at most": choosing(
        lambda piece, n, s, pivots: min(over_all_places(piece, n, s, pivots), n + 1)),
    "the last place of pieces where no pivot exceeds the sample": choosing(
        lambda piece, n, s, pivots: limits.PIECE_PLACES - 1 if piece > n else piece),
    "piece n + 1 from the last pivot but one on": choosing(lambda piece, n, s, pivots: n + 1 if piece == n else piece),
    "piece 0 up to pivot 2": choosing(lambda piece, n, s, pivots: 0 if piece == 1 else piece),
    "piece 1 below pivot 1 too": choosing(lambda piece, n, s, pivots: max(piece, 1)),
    "a code for each empty piece": choosing(filled_in),
    "piece 0 going on from code 0": by_differences(
        steps=lambda piece, n, s, pivots: s if piece == 0 else codes_after(piece, n, s, pivots)),
    "piece 0 at the sample as it is": by_differences(
        steps=lambda piece, n, s, pivots: s - pivots[0] if piece == 0 else codes_after(piece, n, s, pivots)),
    "half the second difference": by_differences(total=half_as_bent),
    "sums that are cut before they go on": by_differences(total=cut_on_the_way),
    "one rounding in the down-sampling": luma_by(
        lambda s, i, j: (row_sum(s, i, 2 * j) + row_sum(s, i, 2 * j + 1) + 4) >> 3),
    "no rounding in the down-sampling": luma_by(
        lambda s, i, j: ((row_sum(s, i, 2 * j) >> 2) + (row_sum(s, i, 2 * j + 1) >> 2)) >> 1),
    "the two rows' mean rounded down": luma_by(
        lambda s, i, j: (((row_sum(s, i, 2 * j) + 2) >> 2) + ((row_sum(s, i, 2 * j + 1) + 2) >> 2)) >> 1),
    "rows before columns": luma_by(rows_first),
    "the luma above alone": luma_by(lambda s, i, j: s(2 * i, 2 * j)),
    "the upper row alone": luma_by(lambda s, i, j: (row_sum(s, i, 2 * j) + 2) >> 2),
    "the lower row alone": luma_by(lambda s, i, j: (row_sum(s, i, 2 * j + 1) + 2) >> 2),
    "the mean of four": luma_by(lambda s, i, j: (s(2 * i, 2 * j) + s(2 * i + 1, 2 * j) + s(2 * i, 2 * j + 1)
                                                + s(2 * i + 1, 2 * j + 1) + 2) >> 2),
    "column 1 left of the picture": left_column(lambda s, y: s(1, y)),
    "0 left of the picture": left_column(lambda s, y: 0),
    "the row before left of the picture": sampling(row_before),
    "a column to the right": two_rows(lambda s, i, y: s(2 * i, y) + 2 * s(2 * i + 1, y) + s(2 * i + 2, y)),
    "the last column left out": sampling(last_column),
    "luma rows k and k + 1": luma_by(
        lambda s, i, j: (((row_sum(s, i, j) + 2) >> 2) + ((row_sum(s, i, j + 1) + 2) >> 2) + 1) >> 1),
    "luma clamped before the down-sampling": luma_of(clamped_luma),
    "the composed luma": luma_of(composed_luma),
    "the composed Cb": sampling(composed_cb),
    "Cb and Cr exchanged": mmr(clamp=lambda plan, pivot_value, cmp, sX: [
        own_pivots(plan, pivot_value, cmp, sX)[X] for X in (0, 2, 1)]),
    "luma clamped with the component's pivots": clamping(lambda cmp: (cmp, 1, 2)),
    "all clamped with the component's pivots": clamping(lambda cmp: (cmp, cmp, cmp)),
    "all clamped with luma's pivots": clamping(lambda cmp: (0, 0, 0)),
    "luma not clamped": clamping(lambda cmp: (None, 1, 2)),
    "the other chroma not clamped": clamping(lambda cmp: (0, 1, None) if cmp == 1 else (0, None, 2)),
    "only the own sample clamped": clamping(lambda cmp: (None, 1, None) if cmp == 1 else (None, None, 2)),
    "the piece of the luma sample": of_samples(lambda plan, pivot_value, cmp, sX: map_by_piece(
        plan, pivot_value, cmp, sX, derive_pivot_idx(sX[0], cmp, plan.num_pivots_minus2, pivot_value))),
    "Cb's numbers for Cr": mmr(own=lambda plan, cmp, piece: plan.fp_coef[1][piece]),
    "piece 0's numbers always": mmr(own=lambda plan, cmp, piece: plan.fp_coef[cmp][0]),
    "MMR numbers by term": mmr(own=by_term),
    "one order less": mmr(fewer=1),
    "tt[7] not shifted": terms_but(unshifted_7),
    "tt[7] rounded to the nearest": terms_but(nearest_7),
    "tt[14] of the product before its shift": terms_but(product_14),
    "tt[21] of the product before its shift": terms_but(product_21),
    "third powers cut off once": terms_but(cut_off_once),
    "terms that are not cut off": terms_but(exact),
    "products exchanged": exchanged([(5, 6), (12, 13), (19, 20)]),
    "squares and squared products exchanged": exchanged([(8, 11), (9, 12), (10, 13)]),
    "depth 10 always": mmr(terms=depth_10),
    "the sum in 64 bits": mmr(total=in_64_bits),
    "the sum held within 64 bits": mmr(total=held_within_64_bits),
    "the sum as a float": mmr(total=as_float),
    "each term shifted before the sum": mmr(
        total=lambda coef, tt, d: sum((z * t) >> (4 + d) for z, t in zip(coef, tt)) << (4 + d)),
    "each term shifted by d before the sum": mmr(
        total=lambda coef, tt, d: sum((z * t) >> d for z, t in zip(coef, tt)) << d),
    "the fractions lost": mmr(total=lambda coef, tt, d: sum((z >> d) * t for z, t in zip(coef, tt)) << d),
    "integer parts toward zero": mmr(total=integers_toward_zero),
    "a negative sum's size": mmr(cut=lambda rr, d: min(abs(rr) >> (4 + d), 0xffff)),
    "65,535 by the low 16 bits": mmr(cut=lambda rr, d: max(rr, 0) >> (4 + d) & 0xffff),
}
