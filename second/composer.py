"""The composing process of GS CCM 001, clause 5.4, with polynomial and MMR mapping.

Each function carries its clause and follows the pseudo-code of that clause
line by line.  Python integers have no size, so no sum can overflow, and >>
rounds down, as clause 3.2.2 defines it.  Clause 3.2.6 ("from left to right")
is read as usual precedence: * before + and -, and these before shifts; in the
down-sampling of clause 5.4.2.3.3 the house rules say which shift comes first.
"""

from dataclasses import dataclass, field

from limits import COEF_PLACES, MMR, MMR_TERMS, PIECE_PLACES, PIVOT_PLACES


def _zeros(*sizes):
    """A default value: zeros in nested lists of these sizes."""
    def make(size, *inner):
        return [make(*inner) for _ in range(size)] if inner else [0] * size
    return field(default_factory=lambda: make(*sizes))


@dataclass
class Plan:
    """The parameters of clause 5.3; lists are indexed [cmp], [cmp][i], ...

    The fp_ numbers are whole: integer part * 2^coefficient_log2_denom plus
    the fraction (clauses 5.3.3.2 to 5.3.4).  Of the pieces, [cmp][n + 1] is
    that of samples which no pivot exceeds, whatever the block's version.

    By a piece's mapping_idc order_minus1 is poly_order_minus1 or
    mmr_order_minus1, and fp_coef has fp_poly_coef, or fp_mmr_constant and then
    fp_mmr_coef in the order of its two indices.
    """
    ccm_profile: int = 0
    ccm_level: int = 0
    coefficient_log2_denom: int = 0
    BL_bit_depth_minus8: int = 0
    EL_bit_depth_minus8: int = 0
    hdr_bit_depth_minus8: int = 0
    disable_residual_flag: int = 0
    half_width: int = 0
    half_height: int = 0
    max_display_mastering_luminance: int = 0
    min_display_mastering_luminance: int = 0
    num_pivots_minus2: list = _zeros(3)
    pred_pivot_value: list = _zeros(3, PIVOT_PLACES)
    mapping_idc: list = _zeros(3, PIECE_PLACES)
    order_minus1: list = _zeros(3, PIECE_PLACES)
    fp_coef: list = _zeros(3, PIECE_PLACES, COEF_PLACES)
    nlq_offset: list = _zeros(3)
    fp_hdr_in_max: list = _zeros(3)
    fp_linear_deadzone_slope: list = _zeros(3)
    fp_linear_deadzone_threshold: list = _zeros(3)

    @property
    def BL_bit_depth(self):
        return self.BL_bit_depth_minus8 + 8

    @property
    def EL_bit_depth(self):
        return self.EL_bit_depth_minus8 + 8

    @property
    def hdr_bit_depth(self):
        return self.hdr_bit_depth_minus8 + 8

    @property
    def width(self):
        return 2 * self.half_width

    @property
    def height(self):
        return 2 * self.half_height

    @property
    def picture_samples(self):
        return 3 * self.width * self.height // 2


def assign_pivot_values(pred_pivot_value, num_pivots_minus2):
    """Assign_pivot_values, clause 5.3.2."""
    pivot_value = [[0] * (num_pivots_minus2[cmp] + 2) for cmp in range(3)]
    for cmp in range(3):
        pivot_value[cmp][0] = pred_pivot_value[cmp][0]
        for i in range(1, num_pivots_minus2[cmp] + 2):
            pivot_value[cmp][i] = pivot_value[cmp][i - 1] + pred_pivot_value[cmp][i]
    return pivot_value


def derive_pivot_idx(s, cmp, num_pivots_minus2, pivot_value):
    """Clause 5.4.2.2; s is the sample before any clamping."""
    pivot_idx = num_pivots_minus2[cmp] + 1
    for idx in range(num_pivots_minus2[cmp] + 1):
        if s < pivot_value[cmp][idx + 1]:
            pivot_idx = idx
            break
    return pivot_idx


def clamped(s, cmp, num_pivots_minus2, pivot_value):
    """The first lines of clauses 5.4.2.3.2 and 5.4.2.3.3: a component's own first and last pivot."""
    if s < pivot_value[cmp][0]:
        s = pivot_value[cmp][0]
    if s > pivot_value[cmp][num_pivots_minus2[cmp] + 1]:
        s = pivot_value[cmp][num_pivots_minus2[cmp] + 1]
    return s


def polynomial_mapping(s, cmp, num_pivots_minus2, pivot_value, poly_order_minus1,
                       poly_coef, BL_bit_depth, coefficient_log2_denom):
    """Clause 5.4.2.3.2; order and coefficients are those of the chosen piece."""
    s = clamped(s, cmp, num_pivots_minus2, pivot_value)

    ss = 1
    shift = 20
    vv = 0
    for i in range(poly_order_minus1 + 2):
        vv += poly_coef[i] * (ss << shift)
        ss *= s
        shift -= BL_bit_depth
    vv = 0 if vv < 0 else vv
    v = vv >> (4 + coefficient_log2_denom)
    v = 0xffff if v > 0xffff else v
    return v


def down_sampled_luma(S0, width, height, i, j):
    """Clause 5.4.2.3.3, its first formula: column i and row j of the down-sampled luma.

    S0(x, y) is the luma sample of column x and row y, not clamped to any pivot.
    House rules: each row's sum with its 2 is shifted by 2 first; then the two
    results and 1 are added and shifted by 1.
    """
    def s(x, y):
        return S0(min(max(x, 0), width - 1), min(max(y, 0), height - 1))    # edges: pixel replication

    upper = (s(2 * i - 1, 2 * j) + 2 * s(2 * i, 2 * j) + s(2 * i + 1, 2 * j) + 2) >> 2
    lower = (s(2 * i - 1, 2 * j + 1) + 2 * s(2 * i, 2 * j + 1) + s(2 * i + 1, 2 * j + 1) + 2) >> 2
    return (upper + lower + 1) >> 1


def mmr_terms(s0, s1, s2, MMR_order, BL_bit_depth):
    """tt[] of clause 5.4.2.3.3, of samples that are clamped."""
    tt = [0] * COEF_PLACES
    tt[0] = 1 << 20
    if MMR_order >= 1:
        tt[1] = s0 << (20 - BL_bit_depth)
        tt[2] = s1 << (20 - BL_bit_depth)
        tt[3] = s2 << (20 - BL_bit_depth)
        tt[4] = (s0 * s1) << (20 - 2 * BL_bit_depth)
        tt[5] = (s0 * s2) << (20 - 2 * BL_bit_depth)
        tt[6] = (s1 * s2) << (20 - 2 * BL_bit_depth)
        tt[7] = (tt[4] * tt[3]) >> 20
    if MMR_order >= 2:
        tt[8] = (s0 * s0) << (20 - 2 * BL_bit_depth)
        tt[9] = (s1 * s1) << (20 - 2 * BL_bit_depth)
        tt[10] = (s2 * s2) << (20 - 2 * BL_bit_depth)
        tt[11] = (tt[4] * tt[4]) >> 20
        tt[12] = (tt[5] * tt[5]) >> 20
        tt[13] = (tt[6] * tt[6]) >> 20
        tt[14] = (tt[7] * tt[7]) >> 20
    if MMR_order >= 3:
        tt[15] = (tt[1] * tt[8]) >> 20
        tt[16] = (tt[2] * tt[9]) >> 20
        tt[17] = (tt[3] * tt[10]) >> 20
        tt[18] = (tt[4] * tt[11]) >> 20
        tt[19] = (tt[5] * tt[12]) >> 20
        tt[20] = (tt[6] * tt[13]) >> 20
        tt[21] = (tt[7] * tt[14]) >> 20
    return tt


def mmr_sum(tt, MMR_order, mmr_constant, mmr_coef):
    """rr of clause 5.4.2.3.3; mmr_coef[i][j] with i from 1."""
    rr = mmr_constant * tt[0]
    cnt = 1
    for i in range(1, MMR_order + 1):
        for j in range(MMR_TERMS):
            rr += mmr_coef[i][j] * tt[cnt]
            cnt += 1
    return rr


def mmr_mapping(s0, s1, s2, num_pivots_minus2, pivot_value, MMR_order, mmr_constant,
                mmr_coef, BL_bit_depth, coefficient_log2_denom):
    """Clause 5.4.2.3.3; s0 is of the down-sampled luma, order and coefficients are those of the chosen piece."""
    s0 = clamped(s0, 0, num_pivots_minus2, pivot_value)
    s1 = clamped(s1, 1, num_pivots_minus2, pivot_value)
    s2 = clamped(s2, 2, num_pivots_minus2, pivot_value)
    tt = mmr_terms(s0, s1, s2, MMR_order, BL_bit_depth)
    rr = mmr_sum(tt, MMR_order, mmr_constant, mmr_coef)
    rr = 0 if rr < 0 else rr
    v = rr >> (4 + coefficient_log2_denom)
    v = 0xffff if v > 0xffff else v
    return v


def inverse_quantization(e, nlq_offset, fp_hdr_in_max, fp_linear_deadzone_slope,
                         fp_linear_deadzone_threshold, EL_bit_depth,
                         coefficient_log2_denom):
    """NLQ_LINEAR_DZ, clause 5.4.3.2, for one component's parameters.

    The result is not cut to 17 bits: the pseudo-code decides over the prose.
    """
    T = fp_linear_deadzone_threshold
    S = fp_linear_deadzone_slope
    R = fp_hdr_in_max
    rr = e - nlq_offset
    if rr == 0:
        return 0
    sign = -1 if rr < 0 else 1
    rr <<= 1
    rr -= sign
    rr <<= 10 - EL_bit_depth
    dq = rr * S
    TT = (T << (10 - EL_bit_depth + 1)) * sign
    dq += TT
    RR = R << (10 - EL_bit_depth + 1)
    if dq > RR:
        dq = RR
    elif dq < -RR:
        dq = -RR
    return dq >> (coefficient_log2_denom - 5 - EL_bit_depth)


def reconstruct(v, r, disable_residual_flag, hdr_bit_depth):
    """Clause 5.4.3.3; out_bit_depth is hdr_bit_depth (no BT.1886 pictures)."""
    out_bit_depth = hdr_bit_depth
    MAXOUT = (1 << out_bit_depth) - 1
    h = v
    if not disable_residual_flag:
        h += r

    h += 1 << (15 - out_bit_depth)
    h >>= 16 - out_bit_depth

    h = 0 if h < 0 else h
    h = MAXOUT if h > MAXOUT else h
    return h


def map_sample(plan, pivot_value, cmp, sX):
    """Clause 5.4.2.1: the piece of the component's own sample, then its mapping.

    sX are the samples s0, s1, s2 of one place, s0 of the down-sampled luma; for
    a luma sample s0 is itself, and the others are not looked at.
    """
    piece = derive_pivot_idx(sX[cmp], cmp, plan.num_pivots_minus2, pivot_value)
    return map_by_piece(plan, pivot_value, cmp, sX, piece)


def map_by_piece(plan, pivot_value, cmp, sX, piece):
    """Clause 5.4.2.3.1 with the plan's parameters of component cmp and of this piece."""
    order_minus1, coef = plan.order_minus1[cmp][piece], plan.fp_coef[cmp][piece]
    if plan.mapping_idc[cmp][piece] == MMR:
        return mmr_mapping(
            *sX, plan.num_pivots_minus2, pivot_value, order_minus1 + 1, coef[0], mmr_rows(coef),
            plan.BL_bit_depth, plan.coefficient_log2_denom)
    return polynomial_mapping(
        sX[cmp], cmp, plan.num_pivots_minus2, pivot_value, order_minus1, coef,
        plan.BL_bit_depth, plan.coefficient_log2_denom)


def mmr_rows(coef):
    """mmr_coef[i][j] of a piece's numbers; there is no row 0, as the constant stands alone."""
    return [None] + [coef[at:at + MMR_TERMS] for at in range(1, COEF_PLACES, MMR_TERMS)]


def has_mmr(plan, cmp):
    """Whether the samples of a component can meet an MMR piece: places beyond the last piece are 0."""
    return MMR in plan.mapping_idc[cmp]


def samples_of(plan, base, cmp, at):
    """sX of the sample of component cmp that stands at this index of the base run (house rules, picture memory)."""
    if cmp == 0:
        return base[at], None, None
    W, H = plan.width, plan.height
    j, i = divmod((at - W * H) % (W * H // 4), W // 2)
    place = W * H + j * (W // 2) + i
    return (down_sampled_luma(lambda x, y: base[y * W + x], W, H, i, j),
            base[place], base[place + W * H // 4])


def map_place(plan, pivot_value, base, cmp, at):
    """Clause 5.4.2 for one sample of the base run."""
    return map_sample(plan, pivot_value, cmp, samples_of(plan, base, cmp, at))


def residual(plan, cmp, e):
    """Clause 5.4.3.2 with the plan's parameters of component cmp."""
    return inverse_quantization(
        e, plan.nlq_offset[cmp], plan.fp_hdr_in_max[cmp],
        plan.fp_linear_deadzone_slope[cmp],
        plan.fp_linear_deadzone_threshold[cmp],
        plan.EL_bit_depth, plan.coefficient_log2_denom)


def row_pair_samples(plan, k):
    """House rules, picture memory: (cmp, index) of every sample of row pair k."""
    W, H = plan.width, plan.height
    for y in (2 * k, 2 * k + 1):
        for x in range(W):
            yield 0, y * W + x
    for x in range(W // 2):
        yield 1, W * H + k * (W // 2) + x
    for x in range(W // 2):
        yield 2, W * H + (W // 2) * (H // 2) + k * (W // 2) + x


def enhancement_used(plan, enhancement):
    """Clause 5.3.2, disable_residual_flag; a run of length 0 is not present."""
    return plan.disable_residual_flag == 0 and len(enhancement) > 0


def compose_row_pairs(plan, first, count, base, enhancement, output, mapping=map_place):
    """Clause 5.4 for row pairs first .. first+count-1."""
    return compose_chosen(plan, range(first, first + count), base, enhancement, output, mapping)


def compose_chosen(plan, row_pairs, base, enhancement, output, mapping=map_place):
    """Clause 5.4 for these row pairs.

    Gives a new output run; all other samples are those of output.  `mapping` is
    clause 5.4.2, or a wrong one that the vectors have to tell from it.
    """
    pivot_value = assign_pivot_values(plan.pred_pivot_value, plan.num_pivots_minus2)
    disable_residual_flag = 0 if enhancement_used(plan, enhancement) else 1
    composed = list(output)
    for k in row_pairs:
        for cmp, at in row_pair_samples(plan, k):
            v = mapping(plan, pivot_value, base, cmp, at)
            r = 0
            if not disable_residual_flag:
                r = residual(plan, cmp, enhancement[at])
            composed[at] = reconstruct(v, r, disable_residual_flag, plan.hdr_bit_depth)
    return composed
