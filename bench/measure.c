#define _POSIX_C_SOURCE 200809L
#include "measure.h"
#include <stdio.h>
#include <stdlib.h>
#include <string.h>
#include <time.h>

uint16_t output[MOST];
uint8_t marks[MOST_PAIRS];

static void job(Way *way, const Plan *plan, size_t first, size_t count)
{
    if (way(plan, first, count) != 0) {
        fprintf(stderr, "bench: a job was refused\n");
        exit(1);
    }
}

static void picture(Way *way, const Plan *plan, size_t step)
{
    if (step == AGAIN)
        for (size_t k = 0; k < pairs; k++)
            job(way, plan, 0, 1);
    else
        for (size_t k = 0; k < pairs; k += step)
            job(way, plan, k, pairs - k < step ? pairs - k : step);
}

/* Whether more than half of the chroma samples are within the ends of their range. Where most of them are cut a time
   says little. */
static int mostly_within(const Plan *plan)
{
    const uint16_t most = (uint16_t)((1u << (plan->header.hdr + 8)) - 1);
    size_t chroma = 4 * columns * pairs, within = 0;
    for (size_t i = chroma; i < size; i++)
        within += 0 < output[i] && output[i] < most;
    return 2 * within > size - chroma;
}

void compare(Way *const ways[], int n, const Plan *plan, size_t step)
{
    static uint16_t expected[MOST];
    for (int w = 0; w < n; w++) {
        memset(output, w % 2 ? 0xaa : 0xff, 2 * size);
        picture(ways[w], plan, step);
        if (w == 0)
            memcpy(expected, output, 2 * size);
        else if (memcmp(expected, output, 2 * size) != 0) {
            fprintf(stderr, "bench: the outputs differ\n");
            exit(1);
        }
    }
    if (!mostly_within(plan)) {
        fprintf(stderr, "bench: most samples are cut\n");
        exit(1);
    }
}

double now(void)
{
    struct timespec t;
    clock_gettime(CLOCK_MONOTONIC, &t);
    return (double)t.tv_sec * 1e9 + (double)t.tv_nsec;
}

/* a small picture is composed again and again, so that no clock is read for less than milliseconds of work */
static double timed(Way *way, const Plan *plan, size_t step)
{
    size_t rounds = 1 + 6000000 / size;
    double began = now();
    for (size_t r = 0; r < rounds; r++)
        picture(way, plan, step);
    return (now() - began) / (double)(rounds * size);
}

void measure(Way *const ways[], int n, int runs, const Plan *plan, size_t step, double times[n][runs])
{
    for (int r = 0; r < runs; r++)
        for (int k = 0; k < n; k++) {
            int w = r % 2 ? n - 1 - k : k; /* there and back, so that no way always follows the same one */
            times[w][r] = timed(ways[w], plan, step);
        }
}

static int by_size(const void *a, const void *b)
{
    double x = *(const double *)a, y = *(const double *)b;
    return x < y ? -1 : x > y;
}

double median(double numbers[], int n)
{
    qsort(numbers, (size_t)n, sizeof numbers[0], by_size);
    return numbers[n / 2];
}
