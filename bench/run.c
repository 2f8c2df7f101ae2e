/* What `run` runs: the proved code against clause-by-clause C, C with tables, and memcpy, the proved table job against
   C that is lent the same table, and the proved writer against C. Prints tables in Markdown: nanoseconds a
   sample or a block, and ratios. Exits 1 where outputs differ. */
#include "blocks.h"
#include "late.h"
#include "rows.h"
#include <stdio.h>
#include <stdlib.h>
#include <string.h>

/* what is short, or is held against a limit, has more runs */
enum { RUNS = 9, MANY_RUNS = 61 };

static uint8_t copy(const Plan *plan, size_t first, size_t count)
{
    (void)plan;
    memcpy(output + 6 * columns * first, base + 6 * columns * first, 6 * columns * count * sizeof base[0]);
    return 0;
}

static uint8_t proved(const Plan *plan, size_t first, size_t count)
{
    return speed_job(*plan, 1, 1, first, count, base, size, enhancement, size, output, size, marks, pairs);
}

#define C_WAY(name)                                                                                \
    static uint8_t by_##name(const Plan *plan, size_t first, size_t count)                         \
    {                                                                                              \
        return name(plan, first, count, base, size, enhancement, size, output, size);              \
    }
C_WAY(tables_gcc)
C_WAY(tables_clang)
C_WAY(clause_gcc)
C_WAY(clause_clang)

enum { COPY, PROVED, TABLES, CLAUSE = TABLES + 2, WAYS = CLAUSE + 2 };
static Way *const ways[WAYS] = {copy, proved, by_tables_gcc, by_tables_clang, by_clause_gcc, by_clause_clang};

/* one table for all jobs that are lent one */
static uint16_t lent[3 << 10];
enum { LENT = sizeof lent / sizeof lent[0] };

static uint8_t proved_lent(const Plan *plan, size_t first, size_t count)
{
    return speed_table_job(*plan, lent, LENT, 1, 1, first, count, base, size, enhancement, size, output, size, marks,
                           pairs);
}

#define LENT_WAY(name)                                                                             \
    static uint8_t by_##name(const Plan *plan, size_t first, size_t count)                         \
    {                                                                                              \
        return name(plan, lent, LENT, first, count, base, size, enhancement, size, output, size);  \
    }
LENT_WAY(lent_gcc)
LENT_WAY(lent_clang)

/* the plain job is beside them so that its output is compared too */
enum { PLAIN = PROVED + 1, LENT_C, LENT_WAYS = LENT_C + 2 };
static Way *const lent_ways[LENT_WAYS] = {copy, proved_lent, proved, by_lent_gcc, by_lent_clang};

/* where chroma has MMR, which the tables do not do */
enum { MMR_CLAUSE = PROVED + 1, MMR_WAYS = MMR_CLAUSE + 2 };
static Way *const mmr_ways[MMR_WAYS] = {copy, proved, by_clause_gcc, by_clause_clang};

/* the medians of the first n of some ways, of which the copy is one, after the others' outputs were compared */
static void medians(Way *const some[], int n, int runs, const Plan *plan, size_t step, double t[n])
{
    double times[n][runs];
    compare(some + PROVED, n - PROVED, plan, step);
    measure(some, n, runs, plan, step, times);
    for (int w = 0; w < n; w++)
        t[w] = median(times[w], runs);
}

/* of the two compilers */
static double better(const double t[2])
{
    return t[0] < t[1] ? t[0] : t[1];
}

static void against_c(const Plan *plan, size_t step)
{
    double t[WAYS];
    medians(ways, WAYS, RUNS, plan, step, t);
    printf("| %.2f | %.2f | %.2f | %.2f | %.2f | %.2f |\n", t[PROVED], better(t + CLAUSE), better(t + TABLES), t[COPY],
           t[PROVED] / better(t + CLAUSE), t[PROVED] / better(t + TABLES));
}

static void against_clause(const Plan *plan, size_t step)
{
    double t[MMR_WAYS];
    medians(mmr_ways, MMR_WAYS, RUNS, plan, step, t);
    printf("| %.2f | %.2f | %.2f |\n", t[PROVED], better(t + MMR_CLAUSE), t[PROVED] / better(t + MMR_CLAUSE));
}

static void fill_lent(const Plan *plan)
{
    if (speed_fill(*plan, lent, LENT) != 0) {
        fprintf(stderr, "bench: a filling was refused\n");
        exit(1);
    }
}

/* Rows come job by job, whole pictures first (rows.c): the times of those are kept, and each row is shown against the
   one of the whole picture that has its samples, pieces and enhancement. */
static void against_lent_c(const Plan *plan, size_t step)
{
    enum { KINDS = 2 * POLYNOMIALS };
    static double whole[KINDS];
    static int row;
    double t[LENT_WAYS];
    fill_lent(plan);
    medians(lent_ways, LENT_WAYS, MANY_RUNS, plan, step, t);
    if (row / KINDS % 3 == 0)
        whole[row % KINDS] = t[PROVED];
    printf("| %.2f | %.2f | %.2f | %.2f | %.2f |\n", t[PROVED], better(t + LENT_C), t[PLAIN],
           t[PROVED] / better(t + LENT_C), t[PROVED] / whole[row % KINDS]);
    row++;
}

/* One row pair whose samples are in the caches, as they are for a player that has just decoded them: what a job costs
   beside its samples, against the whole picture of the job that is lent a table. */
static void near_rows(void)
{
    for (int smooth = 1; smooth >= 0; smooth--) {
        fill(1920, 1080, smooth);
        for (int enhanced = 0; enhanced < 2; enhanced++)
            for (int k = 0; k < POLYNOMIALS; k++) {
                Plan plan = plan_of(&polynomials[k], enhanced);
                double whole[LENT_WAYS], near[LENT_WAYS], times[LENT_WAYS][RUNS];
                fill_lent(&plan);
                medians(lent_ways, LENT_WAYS, RUNS, &plan, pairs, whole);
                measure(lent_ways, LENT_WAYS, RUNS, &plan, AGAIN, times);
                for (int w = 0; w < LENT_WAYS; w++)
                    near[w] = median(times[w], RUNS) / whole[PROVED];
                printf("| %s | %s | %s | %.2f | %.2f | %.2f | %.2f |\n", smooth ? "smooth" : "random",
                       polynomials[k].name, enhanced ? "yes" : "no", whole[PROVED], near[PROVED], better(near + LENT_C),
                       near[PLAIN]);
                fflush(stdout);
            }
    }
}

/* nanoseconds that a filling takes, which jobs of a night share */
static void filling(void)
{
    enum { TURNS = 2000 };
    printf("\nNanoseconds that filling a table takes, medians of %d runs:\n\n| pieces | proved |\n|---|---|\n", RUNS);
    for (int k = 0; k < POLYNOMIALS; k++) {
        Plan plan = plan_of(&polynomials[k], 0);
        double times[RUNS];
        for (int r = 0; r < RUNS; r++) {
            double began = now();
            for (int turn = 0; turn < TURNS; turn++)
                fill_lent(&plan);
            times[r] = (now() - began) / TURNS;
        }
        printf("| %s | %.0f |\n", polynomials[k].name, median(times, RUNS));
    }
}

/* whether the time a sample grows with the picture: whole pictures, smooth, 8 pieces */
static void by_picture(void)
{
    const Kind *kind = &polynomials[1];
    static const size_t half[][2] = {{240, 136}, {480, 270}, {960, 540}, {1920, 1080}, {MOST_COLUMNS, MOST_PAIRS}};
    printf("\nWhole pictures of several sizes, smooth samples, 8 pieces:\n\n"
           "| picture | proved | table C | proved, enhancement | table C, enhancement | memcpy |\n"
           "|---|---|---|---|---|---|\n");
    for (size_t k = 0; k < sizeof half / sizeof half[0]; k++) {
        double plain[CLAUSE], enhanced[CLAUSE];
        fill(half[k][0], half[k][1], 1);
        Plan plan = plan_of(kind, 0);
        medians(ways, CLAUSE, RUNS, &plan, pairs, plain);
        plan = plan_of(kind, 1);
        medians(ways, CLAUSE, RUNS, &plan, pairs, enhanced);
        printf("| %zu x %zu | %.2f | %.2f | %.2f | %.2f | %.2f |\n", 2 * columns, 2 * pairs, plain[PROVED],
               better(plain + TABLES), enhanced[PROVED], better(enhanced + TABLES), plain[COPY]);
        fflush(stdout);
    }
}

static WRITE(proved_write)
{
    return speed_write(*plan, version, out, out_len);
}

static void block_row(const char *name, const Plan *plan, uint16_t version, size_t length)
{
    static Writer *const writers[] = {proved_write, write_gcc, write_clang};
    double times[3][RUNS], t[3];
    compare_writers(writers, 3, plan, version, length);
    measure_writers(writers, 3, RUNS, plan, version, times);
    for (int w = 0; w < 3; w++)
        t[w] = median(times[w], RUNS);
    printf("| %s | %d | %zu | %.0f | %.0f | %.2f |\n", name, version, length, t[0], better(t + 1), t[0] / better(t + 1));
}

int main(void)
{
    printf("Nanoseconds a sample, medians of %d interleaved runs; 3840 x 2160:\n\n"
           "| samples | jobs | pieces | enhancement | proved | clause C | table C | memcpy | proved / clause C "
           "| proved / table C |\n|---|---|---|---|---|---|---|---|---|---|\n",
           RUNS);
    each_row(1920, 1080, polynomials, POLYNOMIALS, against_c);
    by_picture();
    printf("\nNanoseconds a sample of a job that is lent a table, medians of %d interleaved runs; 3840 x 2160:\n\n"
           "| samples | jobs | pieces | enhancement | proved, lent | C, lent | proved, plain | proved / C, both lent "
           "| lent / whole picture |\n|---|---|---|---|---|---|---|---|---|\n",
           MANY_RUNS);
    each_row(1920, 1080, polynomials, POLYNOMIALS, against_lent_c);
    printf("\nOne row pair that is sent again and again, so that its samples are in the caches, over the time a sample of "
           "the\nwhole picture, lent; 3840 x 2160:\n\n"
           "| samples | pieces | enhancement | whole picture, ns | proved, lent | C, lent | proved, plain |\n"
           "|---|---|---|---|---|---|---|\n");
    near_rows();
    filling();
    printf("\nNanoseconds a sample where Cb and Cr are mapped by MMR and luma by 8 polynomials; 1920 x 1080:\n\n"
           "| samples | jobs | Cb and Cr | enhancement | proved | clause C | proved / clause C |\n"
           "|---|---|---|---|---|---|---|\n");
    each_row(960, 540, mmrs, MMRS, against_clause);
    late_rows(2 * RUNS + 1);
    printf("\nNanoseconds a block that is written, medians of %d interleaved runs:\n\n"
           "| block | version | bytes | proved | C | proved / C |\n|---|---|---|---|---|---|\n",
           RUNS);
    each_block(block_row);
    return 0;
}
