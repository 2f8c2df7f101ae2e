#include "late.h"
#include "measure.h"
#include <stdio.h>
#include <stdlib.h>
#include <string.h>

enum { FULL = 1, BASE_ONLY = 2 };

/* The marks: no row pair is full, every second one, or those of the upper half. A job leaves them as it finds them, so
   that it can come again. */
static uint8_t none_kept[MOST_PAIRS], second_kept[MOST_PAIRS], upper_kept[MOST_PAIRS];
static uint16_t lent[3 << 10];
enum { LENT = sizeof lent / sizeof lent[0] };

#define PLAIN_WAY(name, at)                                                                               \
    static uint8_t name(const Plan *plan, size_t first, size_t count)                                     \
    {                                                                                                     \
        return speed_job(*plan, 1, 1, first, count, base, size, enhancement, 0, output, size, at, pairs); \
    }
PLAIN_WAY(plain_all, none_kept)
PLAIN_WAY(plain_second, second_kept)
PLAIN_WAY(plain_upper, upper_kept)

#define LENT_WAY(name, at)                                                                                 \
    static uint8_t name(const Plan *plan, size_t first, size_t count)                                      \
    {                                                                                                      \
        return speed_table_job(*plan, lent, LENT, 1, 1, first, count, base, size, enhancement, 0, output,  \
                               size, at, pairs);                                                           \
    }
LENT_WAY(lent_all, none_kept)
LENT_WAY(lent_second, second_kept)

enum { PLAIN, PLAIN_SECOND, PLAIN_UPPER, PLAIN_WAYS, LENT_ALL = PLAIN_WAYS, LENT_SECOND, WAYS };
static Way *const ways[WAYS] = {plain_all, plain_second, plain_upper, lent_all, lent_second};

static void fail(const char *why)
{
    fprintf(stderr, "bench: %s\n", why);
    exit(1);
}

static uint8_t second_mark(size_t k)
{
    return k % 2 ? FULL : BASE_ONLY;
}

static uint8_t upper_mark(size_t k)
{
    return k < pairs / 2 ? FULL : BASE_ONLY;
}

static void mark_all(void)
{
    for (size_t k = 0; k < pairs; k++) {
        none_kept[k] = BASE_ONLY;
        second_kept[k] = second_mark(k);
        upper_kept[k] = upper_mark(k);
    }
}

static void marks_stay(void)
{
    for (size_t k = 0; k < pairs; k++)
        if (none_kept[k] != BASE_ONLY || second_kept[k] != second_mark(k) || upper_kept[k] != upper_mark(k))
            fail("a mark is another one");
}

/* Rows of one plane, `row` samples a row pair: those of full row pairs are untouched, the others as expected. */
static void rows_stay(const uint8_t *kept, const uint16_t *expected, const uint16_t *untouched, size_t start,
                      size_t row)
{
    for (size_t k = 0; k < pairs; k++) {
        size_t at = start + row * k;
        if (memcmp(output + at, (kept[k] == FULL ? untouched : expected) + at, row * sizeof output[0]) != 0)
            fail("a row pair is another one");
    }
}

static void compare_kept(Way *all, Way *some, const uint8_t *kept, const Plan *plan)
{
    static uint16_t expected[MOST], untouched[MOST];
    size_t plane = columns * pairs;
    memset(output, 0xff, 2 * size);
    if (all(plan, 0, pairs) != 0)
        fail("a job was refused");
    memcpy(expected, output, 2 * size);
    memset(untouched, 0xaa, 2 * size);
    memcpy(output, untouched, 2 * size);
    if (some(plan, 0, pairs) != 0)
        fail("a job was refused");
    rows_stay(kept, expected, untouched, 0, 4 * columns);
    rows_stay(kept, expected, untouched, 4 * plane, columns);
    rows_stay(kept, expected, untouched, 5 * plane, columns);
    marks_stay();
}

/* The median of the runs' own ratios: what slows the machine for a while slows both sides of a run. */
static void cell(int runs, const double all[runs], const double some[runs])
{
    double ratio[runs];
    for (int r = 0; r < runs; r++)
        ratio[r] = some[r] / all[r];
    printf("| %.2f ", median(ratio, runs));
}

/* the time of a picture without full row pairs, and the others' against it */
static void row(int n, int runs, const Plan *plan, size_t step)
{
    double times[n][runs], all[runs];
    compare_kept(plain_all, plain_second, second_kept, plan);
    compare_kept(plain_all, plain_upper, upper_kept, plan);
    if (n == WAYS)
        compare_kept(lent_all, lent_second, second_kept, plan);
    measure(ways, n, runs, plan, step, times);
    memcpy(all, times[PLAIN], sizeof all);
    printf("| %.2f ", median(all, runs));
    cell(runs, times[PLAIN], times[PLAIN_SECOND]);
    cell(runs, times[PLAIN], times[PLAIN_UPPER]);
    if (n == WAYS)
        cell(runs, times[LENT_ALL], times[LENT_SECOND]);
    printf("|\n");
    fflush(stdout);
}

/* the flag is 0, and the enhancement has not come */
static void polynomial_rows(int runs, size_t half_width, size_t half_height)
{
    static const size_t steps[] = {MOST_PAIRS, 15};
    static const char *const jobs[] = {"whole picture", "15 row pairs"};
    for (int smooth = 1; smooth >= 0; smooth--) {
        fill(half_width, half_height, smooth);
        mark_all();
        for (int j = 0; j < 2; j++)
            for (int k = 0; k < POLYNOMIALS; k++) {
                Plan plan = plan_of(&polynomials[k], 1);
                if (speed_fill(plan, lent, LENT) != 0)
                    fail("a filling was refused");
                printf("| %zu x %zu | %s | %s | %s ", 2 * columns, 2 * pairs, smooth ? "smooth" : "random", jobs[j],
                       polynomials[k].name);
                row(WAYS, runs, &plan, steps[j]);
            }
    }
}

static void mmr_rows(int runs)
{
    fill(960, 540, 1);
    mark_all();
    for (int k = 0; k < MMRS; k++) {
        Plan plan = plan_of(&mmrs[k], 1);
        printf("| %s ", mmrs[k].name);
        row(PLAIN_WAYS, runs, &plan, MOST_PAIRS);
    }
}

void late_rows(int runs)
{
    printf("\nJobs without an enhancement that may still come, medians of %d interleaved runs: nanoseconds a sample "
           "where\nall row pairs are composed, and the part of it where every second one is full and kept, or the "
           "upper half:\n\n"
           "| picture | samples | jobs | pieces | all, ns | every second kept | upper half kept "
           "| lent, every second kept |\n"
           "|---|---|---|---|---|---|---|---|\n",
           runs);
    polynomial_rows(runs, 960, 540);
    polynomial_rows(runs, 1920, 1080);
    printf("\nThe same of whole pictures where Cb and Cr are mapped by MMR; smooth samples; 1920 x 1080:\n\n"
           "| Cb and Cr | all, ns | every second kept | upper half kept |\n|---|---|---|---|\n");
    mmr_rows(runs);
}
