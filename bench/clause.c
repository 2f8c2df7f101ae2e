/* Clause-by-clause C of GS CCM 001, 5.4, as a player's engineer would write it: the first yardstick.
   It trusts the plan (rule 7 is not tested here) and tests lengths, row pairs and samples. */
#include "job.h"

#ifndef NAME
#error "compile with -DNAME=clause_gcc or -DNAME=clause_clang"
#endif

/* at the ends of its ranges the sum of 5.4.2.3.3 needs more than 64 bits */
__extension__ typedef __int128 Sum;

/* 5.3.2, Assign_pivot_values */
static void assign_pivot_values(const Component *c, int32_t pivot_value[PIVOTS])
{
    pivot_value[0] = c->preds[0];
    for (int i = 1; i < c->n + 2; i++)
        pivot_value[i] = pivot_value[i - 1] + c->preds[i];
}

/* 5.4.2.2 */
static int pivot_index(const int32_t pivot_value[PIVOTS], int n, int32_t s)
{
    for (int idx = 0; idx < n + 1; idx++)
        if (s < pivot_value[idx + 1])
            return idx;
    return n + 1;
}

/* how 5.4.2.3.2 and 5.4.2.3.3 begin */
static int32_t clamped(const int32_t pivot_value[PIVOTS], int n, int32_t s)
{
    if (s < pivot_value[0])
        s = pivot_value[0];
    if (s > pivot_value[n + 1])
        s = pivot_value[n + 1];
    return s;
}

/* 5.4.2.3.2, of a clamped sample */
static int64_t polynomial(const Piece *piece, int32_t s, int depth, int d)
{
    int64_t ss = 1, vv = 0;
    int shift = 20;
    for (int i = 0; i <= piece->order + 1; i++) {
        vv += piece->row[i] * (ss << shift);
        ss *= s;
        shift -= depth;
    }
    vv = vv < 0 ? 0 : vv;
    int64_t v = vv >> (4 + d);
    return v > 0xffff ? 0xffff : v;
}

/* 5.4.2.3.3, the luma sample of chroma column i; left of the picture stands column 0 again */
static int32_t down_sampled(const uint16_t *upper, const uint16_t *lower, size_t i)
{
    size_t left = i == 0 ? 0 : 2 * i - 1, middle = 2 * i, right = middle + 1;
    int32_t above = (upper[left] + 2 * upper[middle] + upper[right] + 2) >> 2;
    int32_t below = (lower[left] + 2 * lower[middle] + lower[right] + 2) >> 2;
    return (above + below + 1) >> 1;
}

/* 5.4.2.3.3, tt[] of clamped samples, up to an order */
static void mmr_terms(int order, int64_t s0, int64_t s1, int64_t s2, int depth, int64_t tt[ROW])
{
    tt[0] = 1 << 20;
    tt[1] = s0 << (20 - depth);
    tt[2] = s1 << (20 - depth);
    tt[3] = s2 << (20 - depth);
    tt[4] = (s0 * s1) << (20 - 2 * depth);
    tt[5] = (s0 * s2) << (20 - 2 * depth);
    tt[6] = (s1 * s2) << (20 - 2 * depth);
    tt[7] = (tt[4] * tt[3]) >> 20;
    if (order < 2)
        return;
    tt[8] = (s0 * s0) << (20 - 2 * depth);
    tt[9] = (s1 * s1) << (20 - 2 * depth);
    tt[10] = (s2 * s2) << (20 - 2 * depth);
    tt[11] = (tt[4] * tt[4]) >> 20;
    tt[12] = (tt[5] * tt[5]) >> 20;
    tt[13] = (tt[6] * tt[6]) >> 20;
    tt[14] = (tt[7] * tt[7]) >> 20;
    if (order < 3)
        return;
    tt[15] = (tt[1] * tt[8]) >> 20;
    tt[16] = (tt[2] * tt[9]) >> 20;
    tt[17] = (tt[3] * tt[10]) >> 20;
    tt[18] = (tt[4] * tt[11]) >> 20;
    tt[19] = (tt[5] * tt[12]) >> 20;
    tt[20] = (tt[6] * tt[13]) >> 20;
    tt[21] = (tt[7] * tt[14]) >> 20;
}

/* 5.4.2.3.3, the sum of the terms */
static int64_t mmr(const Piece *piece, const int64_t tt[ROW], int d)
{
    Sum rr = 0;
    for (int cnt = 0; cnt <= 7 * (piece->order + 1); cnt++)
        rr += (Sum)piece->row[cnt] * tt[cnt];
    rr = rr < 0 ? 0 : rr;
    Sum v = rr >> (4 + d);
    return v > 0xffff ? 0xffff : (int64_t)v;
}

/* 5.4.3.2 */
static int64_t residual(const Nlq *q, int32_t e, int el, int d)
{
    int64_t rr = (int64_t)e - q->offset;
    if (rr == 0)
        return 0;
    int64_t sign = rr < 0 ? -1 : 1;
    rr = (rr * 2 - sign) * ((int64_t)1 << (10 - el));
    int64_t dq = rr * (int64_t)q->slope;
    dq += (int64_t)(q->threshold << (10 - el + 1)) * sign;
    int64_t RR = (int64_t)(q->maximum << (10 - el + 1));
    if (dq > RR)
        dq = RR;
    else if (dq < -RR)
        dq = -RR;
    return dq >> (d - 5 - el);
}

/* 5.4.3.3 */
static uint16_t reconstruct(int64_t v, int64_t r, int out)
{
    int64_t most = ((int64_t)1 << out) - 1;
    int64_t h = v + r;
    h += (int64_t)1 << (15 - out);
    h >>= 16 - out;
    h = h < 0 ? 0 : h;
    return (uint16_t)(h > most ? most : h);
}

/* the samples of a component whose pieces are polynomials */
static void compose_span(const Header *h, const Component *c, int enhanced, size_t from, size_t to,
                         const uint16_t *restrict base, const uint16_t *restrict enhancement,
                         uint16_t *restrict output)
{
    int depth = h->bl + 8, d = h->d, out = h->hdr + 8, n = c->n;
    int32_t pivot_value[PIVOTS];
    assign_pivot_values(c, pivot_value);
    if (enhanced) {
        for (size_t i = from; i < to; i++) {
            const Piece *piece = &c->pieces[pivot_index(pivot_value, n, base[i])];
            int64_t v = polynomial(piece, clamped(pivot_value, n, base[i]), depth, d);
            output[i] = reconstruct(v, residual(&c->nlq, enhancement[i], depth, d), out);
        }
    } else {
        for (size_t i = from; i < to; i++) {
            const Piece *piece = &c->pieces[pivot_index(pivot_value, n, base[i])];
            int64_t v = polynomial(piece, clamped(pivot_value, n, base[i]), depth, d);
            output[i] = reconstruct(v, 0, out);
        }
    }
}

/* the order of a piece that is MMR, or 0 */
static int mmr_order(const Piece *piece)
{
    return piece->idc == MMR ? piece->order + 1 : 0;
}

static int has_mmr(const Component *c)
{
    for (int p = 0; p < c->n + 2; p++)
        if (mmr_order(&c->pieces[p]) != 0)
            return 1;
    return 0;
}

/* 5.4.2.3.1: Cb and Cr of one place, by the same terms, which go up to the higher order of their two pieces */
static void map_both(const Plan *plan, const int32_t pivot_value[3][PIVOTS], const int32_t s[3], int64_t v[3])
{
    const Component *component[3] = {&plan->y, &plan->cb, &plan->cr};
    int depth = plan->header.bl + 8, d = plan->header.d, order = 0;
    const Piece *piece[3];
    int32_t t[3];
    int64_t tt[ROW];
    for (int k = 0; k < 3; k++)
        t[k] = clamped(pivot_value[k], component[k]->n, s[k]);
    for (int k = 1; k < 3; k++) {
        piece[k] = &component[k]->pieces[pivot_index(pivot_value[k], component[k]->n, s[k])];
        order = mmr_order(piece[k]) > order ? mmr_order(piece[k]) : order;
    }
    if (order > 0)
        mmr_terms(order, t[0], t[1], t[2], depth, tt);
    for (int k = 1; k < 3; k++)
        v[k] = piece[k]->idc == MMR ? mmr(piece[k], tt, d) : polynomial(piece[k], t[k], depth, d);
}

/* the row pairs of Cb and Cr, where a component has MMR pieces */
static void compose_chroma(const Plan *plan, int enhanced, size_t first, size_t last, const uint16_t *restrict base,
                           const uint16_t *restrict enhancement, uint16_t *restrict output)
{
    const Header *h = &plan->header;
    int depth = h->bl + 8, d = h->d, out = h->hdr + 8;
    size_t columns = h->columns, n = columns * h->pairs;
    int32_t pivot_value[3][PIVOTS];
    assign_pivot_values(&plan->y, pivot_value[0]);
    assign_pivot_values(&plan->cb, pivot_value[1]);
    assign_pivot_values(&plan->cr, pivot_value[2]);
    for (size_t k = first; k < last; k++) {
        const uint16_t *upper = base + 4 * columns * k, *lower = upper + 2 * columns;
        for (size_t i = 0; i < columns; i++) {
            size_t cb = 4 * n + columns * k + i, cr = cb + n;
            const int32_t s[3] = {down_sampled(upper, lower, i), base[cb], base[cr]};
            int64_t v[3];
            map_both(plan, pivot_value, s, v);
            output[cb] = reconstruct(v[1], enhanced ? residual(&plan->cb.nlq, enhancement[cb], depth, d) : 0, out);
            output[cr] = reconstruct(v[2], enhanced ? residual(&plan->cr.nlq, enhancement[cr], depth, d) : 0, out);
        }
    }
}

/* rule 11; no early exit, so that it vectorizes */
static int some_large(const uint16_t *run, size_t from, size_t to, uint16_t limit)
{
    uint16_t most = 0;
    for (size_t i = from; i < to; i++)
        most = run[i] > most ? run[i] : most;
    return most >= limit;
}

JOB(NAME)
{
    const Header *h = &plan->header;
    size_t columns = h->columns, n = columns * h->pairs;
    int enhanced = h->disabled == 0 && enhancement_len > 0;
    if (base_len != 6 * n || output_len != 6 * n || (enhanced && enhancement_len != 6 * n))
        return 9;
    if (count == 0 || first > h->pairs || count > h->pairs - first)
        return 10;
    size_t a = columns * first, b = columns * (first + count);
    const size_t from[3] = {4 * a, 4 * n + a, 5 * n + a};
    const size_t to[3] = {4 * b, 4 * n + b, 5 * n + b};
    const Component *component[3] = {&plan->y, &plan->cb, &plan->cr};
    uint16_t limit = (uint16_t)(1u << (h->bl + 8));
    for (int k = 0; k < 3; k++)
        if (some_large(base, from[k], to[k], limit) || (enhanced && some_large(enhancement, from[k], to[k], limit)))
            return 11;
    int planes = 3;
    if (has_mmr(&plan->cb) || has_mmr(&plan->cr)) {
        compose_chroma(plan, enhanced, first, first + count, base, enhancement, output);
        planes = 1;
    }
    for (int k = 0; k < planes; k++)
        compose_span(h, component[k], enhanced, from[k], to[k], base, enhancement, output);
    return 0;
}
