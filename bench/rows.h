/* The rows of a table: jobs of several sizes over smooth and random samples, with and without enhancement. */
#include "measure.h"

/* three sizes of jobs, two kinds of samples, two of plans */
enum { ROWS_A_KIND = 3 * 2 * 2 };

/* fills the picture and prints each row: its own cells, by these n kinds of plans, then those that `show` prints;
   `step` is as in `compare` */
void each_row(size_t half_width, size_t half_height, const Kind kinds[], int n,
              void (*show)(const Plan *plan, size_t step));
