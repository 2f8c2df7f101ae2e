/* The picture at hand: its size, its samples, and plans for it. */
#include "job.h"

/* the most that W/2 and H/2 may be, which `common.sh` reads from the code */
#if !defined MOST_COLUMNS || !defined MOST_PAIRS
#error "compile with -DMOST_COLUMNS=.. -DMOST_PAIRS=.."
#endif
enum { MOST = 6 * MOST_COLUMNS * MOST_PAIRS };

extern size_t columns, pairs, size;
extern uint16_t base[MOST], enhancement[MOST];

void fill(size_t half_width, size_t half_height, int smooth);

/* How a plan maps, and what a table calls it. Luma has polynomials; Cb and Cr have them too where `order` is 0, or MMR
   of that order, or, where it is MIXED, polynomials and MMR of each order in turn. */
typedef struct {
    const char *name;
    int luma, chroma; /* how many pieces, but for the one above the last pivot */
    int order;
    int wide; /* two MMR coefficients are beyond 2^38, up to which the proved code has one product for a term */
} Kind;
enum { MIXED = 4 };

enum { POLYNOMIALS = 3, MMRS = 6 };
extern const Kind polynomials[POLYNOMIALS], mmrs[MMRS];

Plan plan_of(const Kind *kind, int enhanced);
