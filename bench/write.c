/* Writing a composing block in plain C, as a careful engineer would write it: the yardstick of the proved writer.
   It tests the plan (rule 7) and the room (rule 12) before it writes a byte. */
#include "block.h"
#include <string.h>

#ifndef NAME
#error "compile with -DNAME=write_gcc or -DNAME=write_clang"
#endif

enum { HEADER = 24, TRAILER = 12 };

static int header_fits(const Header *h)
{
    return (h->profile == 1 || h->profile == 3 || h->profile == 4) && h->level == 0 && (h->bl == 0 || h->bl == 2) &&
           h->bl == h->el && h->d >= h->el + 8 + 5 && h->d <= 32 && (h->hdr == 2 || h->hdr == 4) && h->disabled <= 1 &&
           h->columns >= 1 && h->columns <= 2048 && h->pairs >= 1 && h->pairs <= 1152 && h->brightest <= 10000 &&
           h->darkest < 10000u * h->brightest;
}

/* how many places of a row a piece uses */
static int used(const Piece *q)
{
    return q->idc == MMR ? 1 + 7 * (q->order + 1) : q->order + 2;
}

static int row_fits(const Piece *q, int d)
{
    const int64_t end = (int64_t)(q->idc == MMR ? 65536 : 64) << d;
    int64_t rest = 0;
    int i = 0, inside = 1;
    for (; i < used(q); i++)
        inside &= q->row[i] >= -end && q->row[i] < end;
    for (; i < ROW; i++)
        rest |= q->row[i];
    return inside && rest == 0;
}

static int piece_fits(const Piece *q, int most_idc, int d)
{
    return q->idc <= most_idc && q->order <= (q->idc == MMR ? 2 : 1) && row_fits(q, d);
}

static int piece_is_zero(const Piece *q)
{
    int64_t all = q->idc | q->order;
    for (int i = 0; i < ROW; i++)
        all |= q->row[i];
    return all == 0;
}

static int component_fits(const Component *c, int most_idc, const Header *h)
{
    const uint64_t end = (uint64_t)2 << h->d;
    const Nlq *q = &c->nlq;
    if (c->n > 15 || q->offset >> (h->el + 8) != 0 || q->maximum >= end || q->slope >= end || q->threshold >= end)
        return 0;
    for (int i = 0; i < PIVOTS; i++)
        if (i < c->n + 2 ? c->preds[i] >> (h->bl + 8) != 0 : c->preds[i] != 0)
            return 0;
    for (int p = 0; p < PIECES; p++)
        if (!(p < c->n + 2 ? piece_fits(&c->pieces[p], most_idc, h->d) : piece_is_zero(&c->pieces[p])))
            return 0;
    return 1;
}

/* version 1 has no piece above the last pivot: the one below it stands for both */
static int carries(uint16_t version, const Component *c)
{
    const Piece *q = &c->pieces[c->n], *r = q + 1;
    return version == 2 || (version == 1 && q->idc == r->idc && q->order == r->order &&
                            memcmp(q->row, r->row, sizeof q->row) == 0);
}

static int pieces_carried(uint16_t version, const Component *c)
{
    return c->n + version;
}

/* of a coefficient */
static size_t integer_bytes(const Piece *q)
{
    return q->idc == MMR ? 4 : 1;
}

static size_t section_length(uint16_t version, const Component *c)
{
    size_t bytes = 1 + 2 * (c->n + 2u) + 2 + 3 * 5;
    for (int p = 0; p < pieces_carried(version, c); p++)
        bytes += 2 + (size_t)used(&c->pieces[p]) * (integer_bytes(&c->pieces[p]) + 4);
    return bytes;
}

static uint8_t *put_16(uint8_t *at, size_t v)
{
    at[0] = (uint8_t)(v >> 8);
    at[1] = (uint8_t)v;
    return at + 2;
}

static uint8_t *put_32(uint8_t *at, uint32_t v)
{
    return put_16(put_16(at, v >> 16), v);
}

/* the integer part rounds down, and the fraction adds upward */
static uint8_t *put_fraction(uint8_t *at, int64_t z, int d)
{
    return put_32(at, (uint32_t)(z & (((int64_t)1 << d) - 1)));
}

static uint8_t *put_fixed(uint8_t *at, int64_t z, int d)
{
    *at = (uint8_t)(z >> d);
    return put_fraction(at + 1, z, d);
}

/* the same with an integer part of 4 bytes */
static uint8_t *put_long_fixed(uint8_t *at, int64_t z, int d)
{
    return put_fraction(put_32(at, (uint32_t)(z >> d)), z, d);
}

static uint8_t *put_piece(uint8_t *at, const Piece *q, int d)
{
    *at++ = q->idc;
    *at++ = q->order;
    for (int i = 0; i < used(q); i++)
        at = q->idc == MMR ? put_long_fixed(at, q->row[i], d) : put_fixed(at, q->row[i], d);
    return at;
}

static uint8_t *put_header(uint8_t *at, const Header *h)
{
    const uint8_t first[] = {h->profile, h->level, h->d, h->bl, h->el, h->hdr, h->disabled, 0};
    for (size_t i = 0; i < sizeof first; i++)
        *at++ = first[i];
    at = put_16(put_16(put_16(put_16(at, h->columns), h->pairs), h->brightest), 0);
    return put_32(put_32(at, h->darkest), 0);
}

static uint8_t *put_section(uint8_t *at, uint16_t version, const Component *c, int d)
{
    *at++ = c->n;
    for (int i = 0; i < c->n + 2; i++)
        at = put_16(at, c->preds[i]);
    for (int p = 0; p < pieces_carried(version, c); p++)
        at = put_piece(at, &c->pieces[p], d);
    at = put_16(at, c->nlq.offset);
    at = put_fixed(at, (int64_t)c->nlq.maximum, d);
    at = put_fixed(at, (int64_t)c->nlq.slope, d);
    return put_fixed(at, (int64_t)c->nlq.threshold, d);
}

WRITE(NAME)
{
    const Header *h = &plan->header;
    if (!header_fits(h) || !component_fits(&plan->y, POLYNOMIAL, h) || !component_fits(&plan->cb, MMR, h) ||
        !component_fits(&plan->cr, MMR, h))
        return 7;
    if (!carries(version, &plan->y) || !carries(version, &plan->cb) || !carries(version, &plan->cr))
        return 7;
    size_t d2 = section_length(version, &plan->cr), d1 = d2 + section_length(version, &plan->cb),
           d0 = d1 + section_length(version, &plan->y);
    if (out_len < HEADER + d0 + TRAILER)
        return 12;
    uint8_t *at = put_header(out, h);
    at = put_section(at, version, &plan->y, h->d);
    at = put_section(at, version, &plan->cb, h->d);
    at = put_section(at, version, &plan->cr, h->d);
    at = put_16(put_16(put_16(put_16(at, HEADER + d0), d0), d1), d2);
    put_16(put_16(at, version), 0);
    return 0;
}
