/* A row job as C sees it: the plan's layout, the proved job, and the C jobs that it is timed against. */
#ifndef JOB_H
#define JOB_H
#include <stddef.h>
#include <stdint.h>

/* the places of a plan's arrays */
enum { PIVOTS = 17, PIECES = 17, ROW = 22 };

/* mapping_idc */
enum { POLYNOMIAL, MMR };

typedef struct {
    uint8_t profile, level, d, bl, el, hdr, disabled;
    uint16_t columns, pairs, brightest;
    uint32_t darkest;
} Header;

/* the order is less 1; a row has a polynomial's coefficients, or the MMR constant and then its coefficients */
typedef struct {
    uint8_t idc, order;
    int64_t row[ROW];
} Piece;

typedef struct {
    uint16_t offset;
    uint64_t maximum, slope, threshold;
} Nlq;

typedef struct {
    uint8_t n;
    uint16_t preds[PIVOTS];
    Piece pieces[PIECES];
    Nlq nlq;
} Component;

typedef struct {
    Header header;
    Component y, cb, cr;
} Plan;

/* The proved row job: 0, or the refusal's number. A slice is a pointer, then a length. `against` links it twice. */
#define PROVED_JOB(name)                                                                              \
    uint8_t name(Plan plan, uint32_t open_ticket, uint32_t ticket, size_t first, size_t count,        \
                 const uint16_t *base, size_t base_len, const uint16_t *enhancement, size_t enhancement_len, \
                 uint16_t *output, size_t output_len, uint8_t *marks, size_t marks_len)
PROVED_JOB(speed_job);

/* The proved filling of a table, and the proved row job that is lent one. */
uint8_t speed_fill(Plan plan, uint16_t *table, size_t table_len);
uint8_t speed_table_job(Plan plan, const uint16_t *table, size_t table_len, uint32_t open_ticket, uint32_t ticket,
                        size_t first, size_t count, const uint16_t *base, size_t base_len, const uint16_t *enhancement,
                        size_t enhancement_len, uint16_t *output, size_t output_len, uint8_t *marks, size_t marks_len);

/* The same job in C: clause.c and tables.c, once a compiler. They have no tickets and no marks, so the proved side does
   a little more. */
#define JOB(name)                                                                                     \
    uint8_t name(const Plan *plan, size_t first, size_t count, const uint16_t *base, size_t base_len, \
                 const uint16_t *enhancement, size_t enhancement_len, uint16_t *output, size_t output_len)
JOB(clause_gcc);
JOB(clause_clang);
JOB(tables_gcc);
JOB(tables_clang);

/* And the job that is lent a table: lent.c. */
#define TABLE_JOB(name)                                                                                    \
    uint8_t name(const Plan *plan, const uint16_t *lent, size_t lent_len, size_t first, size_t count,      \
                 const uint16_t *base, size_t base_len, const uint16_t *enhancement, size_t enhancement_len, \
                 uint16_t *output, size_t output_len)
TABLE_JOB(lent_gcc);
TABLE_JOB(lent_clang);
#endif
