/* What the tests of sweeps share: dimensions in short, and a call that is held against the second reading. */
#ifndef SWEEPS_H
#define SWEEPS_H

#include <emkhurtov.h>

#include <stdlib.h>
#include <string.h>

#include "expect.h"
#include "second_sweep.h"

enum { GUARD = 64, PLACES = SECOND_MOST * DE_MAX_DIMENSIONS, MOST = 40 };
#define COUNT(table) (sizeof table / sizeof *table)
#define CHOICE(choices)                                                                                                \
    { .kind = DE_CHOICE, .n_choices = choices }
#define INT(low, high)                                                                                                 \
    { .kind = DE_INT, .whole_low = low, .whole_high = high }
#define STEPPED(low, high, step)                                                                                       \
    { .kind = DE_INT, .whole_low = low, .whole_high = high, .stepped = DE_YES, .whole_step = step }
#define LADDER(low, high)                                                                                              \
    { .kind = DE_INT, .whole_low = low, .whole_high = high, .log_scale = DE_YES }
#define FLOAT(l, h)                                                                                                    \
    { .kind = DE_FLOAT, .low = l, .high = h }

/* The list that is lent, by the proved function and by the checked one, and the second reading's; places around it. */
static int64_t one[PLACES + 2 * GUARD], other[PLACES + 2 * GUARD], expected[PLACES + 2 * GUARD];

/* The answer, which is the second reading's, and so is the memory, that around it included. The dimensions are read
 * only. */
static inline DeCount taken(const DeDistribution *dims, size_t n, size_t room) {
    static DeDistribution before[MOST];
    memcpy(before, dims, n * sizeof *dims);
    for (size_t i = 0; i < room + 2 * GUARD; i++) {
        one[i] = other[i] = expected[i] = -0x5a5a5a5a5a5a5a5a - (int64_t)i;
    }
    DeCount a = de_sweep(dims, n, one + GUARD, room);
    DeCount b = de_checked_sweep(dims, n, other + GUARD, room);
    DeCount c = second_sweep(dims, n, expected + GUARD, room);
    size_t size = (room + 2 * GUARD) * sizeof *one;
    EXPECT(memcmp(&a, &c, sizeof a) == 0 && memcmp(one, expected, size) == 0);
    EXPECT(memcmp(&b, &c, sizeof b) == 0 && memcmp(other, expected, size) == 0);
    EXPECT(memcmp(before, dims, n * sizeof *dims) == 0);
    if (failures > 20) {
        exit(ended("C sweeps"));
    }
    return a;
}

static inline int is_listed(DeCount c, uint64_t count) {
    return c.kind == DE_LISTED && c.refusal == 0 && c.count == count;
}

static inline int is_refused(DeCount c, uint64_t refusal) {
    return c.kind == DE_REFUSED && c.refusal == refusal && c.count == 0;
}

static inline int is_unknown(DeCount c) {
    return c.kind == DE_UNKNOWN && c.refusal == 0 && c.count == 0;
}

#endif
