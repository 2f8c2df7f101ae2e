/* What both C jobs with tables have in common: the residuals of the codes, the cuts, and the loops over samples. */
#ifndef LOOKUP_H
#define LOOKUP_H
#include "job.h"
#include <string.h>

enum { CODES = 1 << 10, MOST_OUT = 12, CUTS = 3 << MOST_OUT };

/* 5.4.3.2: the residuals of the codes above the offset (side 1) or below it (side -1), which grow evenly up to a limit.
   Each is made ready to be added to a mapped sample: raised, and kept to 0 .. 2^17, which changes no result. */
static void raise_side(const Nlq *q, int el, int shift, int raise, int side, int codes, uint32_t *raised)
{
    int64_t even = (int64_t)(q->slope << (11 - el)), dq = even / 2 + (int64_t)(q->threshold << (11 - el));
    int64_t most = (int64_t)(q->maximum << (11 - el)), room = (int64_t)(side < 0 ? raise : (1 << 17) - raise) << shift;
    int far = 1;
    if (most > room)
        most = room;
    for (; far <= codes && dq < most; far++, dq += even)
        raised[side * far] = (uint32_t)((side * dq >> shift) + raise);
    for (; far <= codes; far++)
        raised[side * far] = (uint32_t)((side * most >> shift) + raise);
}

static void raise_codes(const Nlq *q, int el, int d, int out, uint32_t raised[CODES])
{
    int raise = (1 << 16) + (1 << (15 - out)), shift = d - 5 - el;
    raised[q->offset] = (uint32_t)raise;
    raise_side(q, el, shift, raise, 1, (1 << el) - 1 - q->offset, raised + q->offset);
    raise_side(q, el, shift, raise, -1, q->offset, raised + q->offset);
}

/* 5.4.3.3 with residual: the finished sample of each shifted sum. This is faster than two comparisons a sample. */
static void cut_sums(int out, uint16_t cuts[CUTS])
{
    int full = 1 << out;
    for (int i = 0; i < full; i++) {
        cuts[i] = 0;
        cuts[full + i] = (uint16_t)i;
        cuts[2 * full + i] = (uint16_t)(full - 1);
    }
}

/* One load takes four codes, whichever comes first in memory: each goes back to its own place. gcc makes one store of
   the four samples too. */
static void look_up(const uint16_t *restrict table, size_t from, size_t to, const uint16_t *restrict base,
                    uint16_t *restrict output)
{
    size_t i = from;
    for (; i + 4 <= to; i += 4) {
        uint64_t b;
        memcpy(&b, base + i, sizeof b);
        output[i] = table[b & 0xffff];
        output[i + 1] = table[b >> 16 & 0xffff];
        output[i + 2] = table[b >> 32 & 0xffff];
        output[i + 3] = table[b >> 48];
    }
    for (; i < to; i++)
        output[i] = table[base[i]];
}

/* Here two codes a load are as fast as four. */
static void look_up_sums(const uint16_t *restrict mapped, const uint32_t *restrict raised,
                         const uint16_t *restrict cuts, int shift, size_t from, size_t to,
                         const uint16_t *restrict base, const uint16_t *restrict enhancement, uint16_t *restrict output)
{
    size_t i = from;
    for (; i + 4 <= to; i += 4) {
        uint32_t b[2], e[2];
        memcpy(b, base + i, sizeof b);
        memcpy(e, enhancement + i, sizeof e);
        output[i] = cuts[(mapped[b[0] & 0xffff] + raised[e[0] & 0xffff]) >> shift];
        output[i + 1] = cuts[(mapped[b[0] >> 16] + raised[e[0] >> 16]) >> shift];
        output[i + 2] = cuts[(mapped[b[1] & 0xffff] + raised[e[1] & 0xffff]) >> shift];
        output[i + 3] = cuts[(mapped[b[1] >> 16] + raised[e[1] >> 16]) >> shift];
    }
    for (; i < to; i++)
        output[i] = cuts[(mapped[base[i]] + raised[enhancement[i]]) >> shift];
}

/* the samples of each plane that the row pairs have */
typedef struct {
    size_t from[3], to[3];
} Spans;

static Spans spans_of(const Header *h, size_t first, size_t count)
{
    size_t n = (size_t)h->columns * h->pairs, a = h->columns * first, b = h->columns * (first + count);
    return (Spans){{4 * a, 4 * n + a, 5 * n + a}, {4 * b, 4 * n + b, 5 * n + b}};
}

/* Rule 11. The limit is a power of two, so the samples may be joined instead of compared. Those of the row pairs are
   six runs of equal length, four of luma; gone over in step they come faster from memory than one after the other. */
static int some_large(const uint16_t *run, const Spans *s, uint16_t limit)
{
    size_t n = s->to[1] - s->from[1];
    const uint16_t *y = run + s->from[0], *cb = run + s->from[1], *cr = run + s->from[2];
    uint16_t all = 0;
    for (size_t i = 0; i < n; i++)
        all |= y[i] | y[n + i] | y[2 * n + i] | y[3 * n + i] | cb[i] | cr[i];
    return all >= limit;
}

/* rules 9 to 11; 0 where none is met */
static uint8_t refusal(const Header *h, size_t first, size_t count, const uint16_t *base, size_t base_len,
                       const uint16_t *enhancement, size_t enhancement_len, size_t output_len, int enhanced)
{
    size_t size = 6 * (size_t)h->columns * h->pairs;
    if (base_len != size || output_len != size || (enhanced && enhancement_len != size))
        return 9;
    if (count == 0 || first > h->pairs || count > h->pairs - first)
        return 10;
    Spans s = spans_of(h, first, count);
    uint16_t limit = (uint16_t)(1u << (h->bl + 8));
    if (some_large(base, &s, limit) || (enhanced && some_large(enhancement, &s, limit)))
        return 11;
    return 0;
}
#endif
