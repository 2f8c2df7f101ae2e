/* Writing a composing block as C sees it: the proved writer, and the C that it is timed against. */
#ifndef BLOCK_H
#define BLOCK_H
#include "job.h"

/* The proved writer: 0, or the refusal's number. `against` links it twice, as it does the job. */
#define PROVED_WRITE(name) uint8_t name(Plan plan, uint16_t version, uint8_t *out, size_t out_len)
PROVED_WRITE(speed_write);

/* The same in C: write.c, once a compiler. */
#define WRITE(name) uint8_t name(const Plan *plan, uint16_t version, uint8_t *out, size_t out_len)
typedef WRITE(Writer);
WRITE(write_gcc);
WRITE(write_clang);
#endif
