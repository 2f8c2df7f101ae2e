/* Blocks that are written: the shortest and the longest of each version, and writers compared and timed over them. */
enum { BLOCKS = 6 };

#include "block.h"

/* each of the blocks, by its name, plan, version and length */
void each_block(void (*show)(const char *name, const Plan *plan, uint16_t version, size_t length));

/* ends the process where two writers leave different bytes, write after the block, or do not refuse a slice that is
   too short */
void compare_writers(Writer *const writers[], int n, const Plan *plan, uint16_t version, size_t length);

/* the nanoseconds a block of each writer in each of the interleaved runs */
void measure_writers(Writer *const writers[], int n, int runs, const Plan *plan, uint16_t version,
                     double times[n][runs]);
