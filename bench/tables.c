/* The fastest C that was found for the job of clause.c: the second yardstick. What each code of a component comes to is
   worked out once a job and then looked up, as the proved code does. It does no MMR. It trusts the plan (rule 7 is not
   tested here) and tests lengths, row pairs and samples. Tried and slower: clamps in place of the cuts (clang branches
   on them), sums shifted in one pass and clamped in another. */
#include "lookup.h"

#ifndef NAME
#error "compile with -DNAME=tables_gcc or -DNAME=tables_clang"
#endif

/* Into 0 .. most. A table's numbers go out of it and back in few places, so the branch is predicted well. */
static int64_t cut(int64_t v, int64_t most)
{
    if ((uint64_t)v > (uint64_t)most)
        return v < 0 ? 0 : most;
    return v;
}

/* 5.4.2: the mapped sample of each code, or by other numbers the finished one. Within a piece the polynomial goes on by
   its differences, without a product; before the first pivot and from the last one on it stands still. */
static void map_codes(const Component *c, int depth, int64_t round, int shift, int64_t most, uint16_t table[CODES])
{
    int first = c->preds[0], last = 0, pivot = first, codes = 1 << depth, s = 0;
    for (int i = 0; i < c->n + 2; i++)
        last += c->preds[i];
    for (int p = 0; p <= c->n + 1; p++) {
        if (p <= c->n)
            pivot += c->preds[p + 1];
        int end = p <= c->n && pivot < codes ? pivot : codes;
        int stop = end < last ? end : last, t = s < first ? first : s > last ? last : s;
        const int64_t *row = c->pieces[p].row;
        int64_t linear = row[1] * (1 << (20 - depth)), square = row[2] * (1 << (20 - 2 * depth));
        int64_t value = row[0] * (1 << 20) + t * (linear + t * square) + round, step = linear + (2 * t + 1) * square;
        for (; s < end && s < first; s++)
            table[s] = (uint16_t)cut(value >> shift, most);
        for (; s < stop; s++, value += step, step += 2 * square)
            table[s] = (uint16_t)cut(value >> shift, most);
        for (; s < end; s++)
            table[s] = (uint16_t)cut(value >> shift, most);
    }
}

JOB(NAME)
{
    const Header *h = &plan->header;
    int depth = h->bl + 8, out = h->hdr + 8;
    int enhanced = h->disabled == 0 && enhancement_len > 0;
    uint8_t number = refusal(h, first, count, base, base_len, enhancement, enhancement_len, output_len, enhanced);
    if (number != 0)
        return number;
    const Spans s = spans_of(h, first, count);
    const Component *component[3] = {&plan->y, &plan->cb, &plan->cr};
    uint16_t table[CODES], cuts[CUTS];
    uint32_t raised[CODES];
    int fine = 4 + h->d, coarse = 16 - out;
    if (enhanced)
        cut_sums(out, cuts);
    for (int k = 0; k < 3; k++)
        if (enhanced) {
            map_codes(component[k], depth, 0, fine, 0xffff, table);
            raise_codes(&component[k]->nlq, depth, h->d, out, raised);
            look_up_sums(table, raised, cuts, coarse, s.from[k], s.to[k], base, enhancement, output);
        } else {
            /* 5.4.3.3 without residual: both shifts at once, and half of the last place added before them */
            map_codes(component[k], depth, (int64_t)1 << (fine + coarse - 1), fine + coarse, (1 << out) - 1, table);
            look_up(table, s.from[k], s.to[k], base, output);
        }
    return 0;
}
