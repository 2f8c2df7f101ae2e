#include "blocks.h"
#include "measure.h"
#include <stdio.h>
#include <stdlib.h>
#include <string.h>

enum { ROUNDS = 20000, ROOM = 8192 };

static uint8_t room[ROOM];

/* a block, by its plan, and its lengths by version */
typedef struct {
    Kind kind;
    int order; /* of the polynomials */
    size_t lengths[2];
} Block;

static const Block blocks[] = {{{"shortest", 1, 1, 0, 0}, 1, {138, 174}},
                               {{"longest of polynomials", 16, 16, 0, 0}, 2, {1008, 1059}},
                               {{"longest", 16, 16, 3, 0}, 2, {6160, 6533}}};

static void with_order(Component *c, int order)
{
    for (int p = 0; p < c->n + 2; p++) {
        if (c->pieces[p].idc == MMR)
            continue;
        c->pieces[p].order = (uint8_t)(order - 1);
        c->pieces[p].row[2] = order == 2 ? 50000 : 0;
    }
}

/* the plan of a block of this version: version 1 has its last piece twice */
static Plan plan_for(const Block *block, uint16_t version)
{
    Plan plan = plan_of(&block->kind, 1);
    Component *components[] = {&plan.y, &plan.cb, &plan.cr};
    for (int k = 0; k < 3; k++) {
        Component *c = components[k];
        with_order(c, block->order);
        if (version == 1)
            c->pieces[c->n + 1] = c->pieces[c->n];
    }
    return plan;
}

void each_block(void (*show)(const char *name, const Plan *plan, uint16_t version, size_t length))
{
    for (uint16_t version = 1; version <= 2; version++)
        for (size_t k = 0; k < sizeof blocks / sizeof blocks[0]; k++) {
            Plan plan = plan_for(&blocks[k], version);
            show(blocks[k].kind.name, &plan, version, blocks[k].lengths[version - 1]);
        }
}

static void held(int good, const char *what)
{
    if (!good) {
        fprintf(stderr, "bench: %s\n", what);
        exit(1);
    }
}

static int all_are(const uint8_t *bytes, size_t n, uint8_t value)
{
    for (size_t i = 0; i < n; i++)
        if (bytes[i] != value)
            return 0;
    return 1;
}

void compare_writers(Writer *const writers[], int n, const Plan *plan, uint16_t version, size_t length)
{
    static uint8_t expected[ROOM];
    for (int w = 0; w < n; w++) {
        uint8_t before = w % 2 ? 0xaa : 0xff;
        memset(room, before, ROOM);
        held(writers[w](plan, version, room, length - 1) == 12 && all_are(room, ROOM, before),
             "a short slice was not refused");
        held(writers[w](plan, version, room, ROOM) == 0, "a block was refused");
        held(all_are(room + length, ROOM - length, before), "bytes after the block were written");
        if (w == 0)
            memcpy(expected, room, length);
        held(memcmp(expected, room, length) == 0, "the blocks differ");
    }
}

static double timed(Writer *writer, const Plan *plan, uint16_t version)
{
    double began = now();
    for (int r = 0; r < ROUNDS; r++)
        writer(plan, version, room, ROOM);
    return (now() - began) / ROUNDS;
}

void measure_writers(Writer *const writers[], int n, int runs, const Plan *plan, uint16_t version,
                     double times[n][runs])
{
    for (int r = 0; r < runs; r++)
        for (int k = 0; k < n; k++) {
            int w = r % 2 ? n - 1 - k : k;
            times[w][r] = timed(writers[w], plan, version);
        }
}
