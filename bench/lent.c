/* The table job in C: the mapped samples are looked up in a table that is lent, 3 x 2^depth of them. It trusts the plan
   (neither rule 7 nor 13 is tested here) and tests lengths, the table's among them, row pairs and samples. */
#include "lookup.h"

#ifndef NAME
#error "compile with -DNAME=lent_gcc or -DNAME=lent_clang"
#endif

/* 5.4.3.3 without residual: the finished sample of each mapped one */
static void finish_codes(const uint16_t *restrict mapped, int codes, int out, uint16_t *restrict table)
{
    uint32_t half = 1u << (15 - out), most = (1u << out) - 1;
    for (int s = 0; s < codes; s++) {
        uint32_t v = (mapped[s] + half) >> (16 - out);
        table[s] = (uint16_t)(v > most ? most : v);
    }
}

TABLE_JOB(NAME)
{
    const Header *h = &plan->header;
    int depth = h->bl + 8, out = h->hdr + 8;
    int enhanced = h->disabled == 0 && enhancement_len > 0;
    if (lent_len != (size_t)3 << depth)
        return 9;
    uint8_t number = refusal(h, first, count, base, base_len, enhancement, enhancement_len, output_len, enhanced);
    if (number != 0)
        return number;
    const Spans s = spans_of(h, first, count);
    const Component *component[3] = {&plan->y, &plan->cb, &plan->cr};
    uint16_t table[CODES], cuts[CUTS];
    uint32_t raised[CODES];
    if (enhanced)
        cut_sums(out, cuts);
    for (int k = 0; k < 3; k++) {
        const uint16_t *mapped = lent + ((size_t)k << depth);
        if (enhanced) {
            raise_codes(&component[k]->nlq, depth, h->d, out, raised);
            look_up_sums(mapped, raised, cuts, 16 - out, s.from[k], s.to[k], base, enhancement, output);
        } else {
            finish_codes(mapped, 1 << depth, out, table);
            look_up(table, s.from[k], s.to[k], base, output);
        }
    }
    return 0;
}
