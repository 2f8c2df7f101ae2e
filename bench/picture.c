#include "picture.h"
#include <string.h>

/* Cr is so much above Cb at each place: then two wide coefficients and the constant come to nothing together, and no
   mapped sample is cut. */
enum { CODES = 1024, APART = 64 };

size_t columns, pairs, size;
uint16_t base[MOST], enhancement[MOST];

const Kind polynomials[POLYNOMIALS] = {{"1", 1, 1, 0, 0}, {"8", 8, 8, 0, 0}, {"16", 16, 16, 0, 0}};
const Kind mmrs[MMRS] = {{"order 1, narrow", 8, 1, 1, 0},
                         {"order 3, narrow", 8, 1, 3, 0},
                         {"order 1, wide", 8, 1, 1, 1},
                         {"order 3, wide", 8, 1, 3, 1},
                         {"8 pieces, mixed", 8, 8, MIXED, 0},
                         {"16 pieces, mixed", 8, 16, MIXED, 0}};

static uint32_t next_random(void)
{
    static uint64_t seed = 20261115;
    seed = seed * 6364136223846793005u + 1442695040888963407u;
    return (uint32_t)(seed >> 33);
}

/* below a limit */
static uint16_t sample(size_t i, int smooth, uint32_t limit)
{
    return (uint16_t)((smooth ? i / 4 + next_random() % 8 : next_random()) % limit);
}

void fill(size_t half_width, size_t half_height, int smooth)
{
    columns = half_width;
    pairs = half_height;
    size = 6 * columns * pairs;
    size_t plane = columns * pairs, cb = 4 * plane, cr = cb + plane;
    for (size_t i = 0; i < cr; i++)
        base[i] = sample(i, smooth, i < cb ? CODES : CODES - APART);
    for (size_t i = cr; i < size; i++)
        base[i] = base[i - plane] + APART;
    for (size_t i = 0; i < size; i++)
        enhancement[i] = (uint16_t)(smooth ? 508 + next_random() % 9 : next_random() % CODES);
}

static Component component_of(int pieces)
{
    Component c;
    memset(&c, 0, sizeof c);
    c.n = (uint8_t)(pieces - 1);
    for (int i = 1; i <= pieces; i++)
        c.preds[i] = (uint16_t)(1023 * i / pieces - 1023 * (i - 1) / pieces);
    for (int p = 0; p <= pieces; p++) { /* the last one above the last pivot */
        c.pieces[p].order = (uint8_t)(p % 2);
        c.pieces[p].row[0] = 100 * p;
        c.pieces[p].row[1] = (1 << 23) - 70000 * p;
        c.pieces[p].row[2] = p % 2 ? 50000 : 0;
    }
    c.nlq.offset = 512;
    c.nlq.maximum = 1 << 22;
    c.nlq.slope = 3 << 12;
    c.nlq.threshold = 1 << 11;
    return c;
}

/* The sum is within 0 and 1 whatever the samples are: those of the first order come to 0.9 at most, and the others,
   whose signs alternate, to little. */
static Piece mmr_piece(int order, int wide)
{
    static const int hundredths[] = {5, 25, 30, 20, 10, -10, 15, -5};
    const int64_t one = 1 << 23, large = (int64_t)3 << 37;
    Piece piece = {MMR, (uint8_t)(order - 1), {0}};
    for (int i = 0; i < 8; i++)
        piece.row[i] = hundredths[i] * one / 100;
    for (int i = 8; i <= 7 * order; i++)
        piece.row[i] = (i % 2 ? -1 : 1) * (one / 50 + 1000 * i);
    if (wide) {
        piece.row[2] += large;
        piece.row[3] -= large;
        piece.row[0] += large / CODES * APART;
    }
    return piece;
}

/* of a piece of Cb or Cr; 0 is a polynomial */
static int mmr_order(const Kind *kind, int piece)
{
    if (kind->order != MIXED)
        return kind->order;
    return piece % 2 ? 1 + piece / 2 % 3 : 0;
}

static Component chroma_of(const Kind *kind)
{
    Component c = component_of(kind->chroma);
    for (int p = 0; p <= kind->chroma; p++)
        if (mmr_order(kind, p) != 0)
            c.pieces[p] = mmr_piece(mmr_order(kind, p), kind->wide);
    return c;
}

Plan plan_of(const Kind *kind, int enhanced)
{
    Plan p;
    memset(&p, 0, sizeof p);
    p.header = (Header){1, 0, 23, 2, 2, 4, enhanced ? 0 : 1, (uint16_t)columns, (uint16_t)pairs, 1000, 50};
    p.y = component_of(kind->luma);
    p.cb = p.cr = chroma_of(kind);
    return p;
}
