/* What `against` runs: the proved code before a change and after it. Prints tables in Markdown: nanoseconds a sample
   and ratios, at the end the worst and the median ratio. Exits 1 where outputs differ. */
#include "blocks.h"
#include "rows.h"
#include <stdio.h>

/* MMR takes ten times as long a sample, so its rows have fewer runs */
enum { RUNS = 61, MMR_RUNS = 21, ROWS = ROWS_A_KIND * (2 * POLYNOMIALS + MMRS) + BLOCKS };

PROVED_JOB(speed_job_before);
PROVED_WRITE(speed_write_before);

#define WAY(name, job)                                                                                       \
    static uint8_t name(const Plan *plan, size_t first, size_t count)                                        \
    {                                                                                                        \
        return job(*plan, 1, 1, first, count, base, size, enhancement, size, output, size, marks, pairs);    \
    }
WAY(before, speed_job_before)
WAY(after, speed_job)
static Way *const ways[] = {before, after};

static double ratios[ROWS];
static int rows;

/* The ratio is the median of the runs' own ratios: what slows the machine for a while slows both sides of a run. */
static void end_row(int runs, double times[2][runs])
{
    double ratio[runs];
    for (int r = 0; r < runs; r++)
        ratio[r] = times[1][r] / times[0][r];
    ratios[rows] = median(ratio, runs);
    printf("| %.2f | %.2f | %.3f |\n", median(times[0], runs), median(times[1], runs), ratios[rows]);
    rows++;
}

static void in_runs(int runs, const Plan *plan, size_t step)
{
    double times[2][runs];
    compare(ways, 2, plan, step);
    measure(ways, 2, runs, plan, step, times);
    end_row(runs, times);
}

static void before_and_after(const Plan *plan, size_t step)
{
    in_runs(RUNS, plan, step);
}

static void mmr_before_and_after(const Plan *plan, size_t step)
{
    in_runs(MMR_RUNS, plan, step);
}

static WRITE(write_before)
{
    return speed_write_before(*plan, version, out, out_len);
}

static WRITE(write_after)
{
    return speed_write(*plan, version, out, out_len);
}

static void block_row(const char *name, const Plan *plan, uint16_t version, size_t length)
{
    static Writer *const writers[] = {write_before, write_after};
    double times[2][RUNS];
    compare_writers(writers, 2, plan, version, length);
    measure_writers(writers, 2, RUNS, plan, version, times);
    printf("| %s | %d | %zu ", name, version, length);
    end_row(RUNS, times);
}

static void head(size_t half_width, size_t half_height, int runs, const char *kinds)
{
    printf("%zu x %zu, nanoseconds a sample, medians of %d interleaved runs:\n\n"
           "| samples | jobs | %s | enhancement | before | after | after / before |\n"
           "|---|---|---|---|---|---|---|\n",
           2 * half_width, 2 * half_height, runs, kinds);
}

int main(void)
{
    static const size_t half[][2] = {{1920, 1080}, {960, 540}};
    for (int k = 0; k < 2; k++) {
        head(half[k][0], half[k][1], RUNS, "pieces");
        each_row(half[k][0], half[k][1], polynomials, POLYNOMIALS, before_and_after);
        printf("\n");
    }
    head(half[1][0], half[1][1], MMR_RUNS, "Cb and Cr");
    each_row(half[1][0], half[1][1], mmrs, MMRS, mmr_before_and_after);
    printf("\nNanoseconds a block that is written:\n\n"
           "| block | version | bytes | before | after | after / before |\n|---|---|---|---|---|---|\n");
    each_block(block_row);
    double middle = median(ratios, rows);
    printf("\nafter / before: the worst %.3f, the median %.3f\n", ratios[rows - 1], middle);
    return 0;
}
