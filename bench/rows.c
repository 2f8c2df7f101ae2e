#include "rows.h"
#include <stdio.h>

void each_row(size_t half_width, size_t half_height, const Kind kinds[], int n,
              void (*show)(const Plan *plan, size_t step))
{
    static const size_t steps[] = {MOST_PAIRS, 15, 1};
    static const char *const jobs[] = {"whole picture", "15 row pairs", "one row pair"};
    for (int smooth = 1; smooth >= 0; smooth--) {
        fill(half_width, half_height, smooth);
        for (int j = 0; j < 3; j++)
            for (int enhanced = 0; enhanced < 2; enhanced++)
                for (int k = 0; k < n; k++) {
                    Plan plan = plan_of(&kinds[k], enhanced);
                    printf("| %s | %s | %s | %s ", smooth ? "smooth" : "random", jobs[j], kinds[k].name,
                           enhanced ? "yes" : "no");
                    show(&plan, steps[j]);
                    fflush(stdout);
                }
    }
}
