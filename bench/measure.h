/* Comparing and timing: several ways to do the same jobs, in one process and one thread. */
#include "picture.h"

/* A job over the picture at hand. All ways write to one output, so that none has the better place in memory. */
typedef uint8_t Way(const Plan *plan, size_t first, size_t count);
extern uint16_t output[MOST];
extern uint8_t marks[MOST_PAIRS];

/* ends the process where two ways leave different outputs, or most samples are cut; `step` is the number of row pairs
   of a job */
void compare(Way *const ways[], int n, const Plan *plan, size_t step);

/* the nanoseconds a sample of each way in each of the interleaved runs; where `step` is AGAIN, of the job of the first
   row pair, sent as often as there are row pairs, so that its samples are in the caches */
enum { AGAIN = 0 };
void measure(Way *const ways[], int n, int runs, const Plan *plan, size_t step, double times[n][runs]);

/* nanoseconds of a clock that only goes forward */
double now(void);

/* sorts the numbers */
double median(double numbers[], int n);
