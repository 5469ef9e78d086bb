/* The states that the tests of saved files and of bounds rules start from: those of a campaign, call after call. */
#ifndef STATES_H
#define STATES_H

#include <emkhurtov.h>

#include <math.h>

#include "expect.h"

enum { WALK_TRIALS = 1000 };

/* A campaign that is under way. A trial's result is told `lag` trials later; where that is N or more there are extras.
 */
typedef struct {
    DeState state;
    uint64_t d, lag;
    uint64_t trial, asked; /* the trial that asks now, counted from 0, and for how much it has asked */
    DeCompletedTrial history[WALK_TRIALS];
    size_t told;
} Walk;

/* Every kind, with a step and without. */
static DeDistribution walk_dimension(uint64_t k) {
    static const DeDistribution kinds[5] = {
        {.kind = DE_FLOAT, .low = -8.0, .high = 256.0},
        {.kind = DE_INT, .whole_low = -5, .whole_high = 64, .stepped = DE_YES, .whole_step = 3},
        {.kind = DE_CHOICE, .n_choices = 4},
        {.kind = DE_FLOAT, .low = 0.0, .high = 1.0, .stepped = DE_YES, .step = 0.125},
        {.kind = DE_INT, .whole_low = -DE_MAX_WHOLE, .whole_high = DE_MAX_WHOLE},
    };
    return kinds[k % 5];
}

/* Small numbers and the largest ones. */
static uint64_t walk_number(uint64_t trial) {
    return trial % 3 == 1 ? UINT64_MAX - trial : trial;
}

/* Plus infinity and minus zero among the results. */
static double walk_value(uint64_t trial) {
    return trial % 11 == 4 ? (double)INFINITY : trial % 13 == 5 ? -0.0 : (double)(trial * 7919 % 1009);
}

/* `size` 0 is none. */
static void walk_begin_by(Walk *w, uint64_t rule, uint64_t strategy, uint64_t size, uint64_t d, uint64_t lag) {
    DeSetup setup = {0.8, 0.9, strategy, size != 0, size, 5 + 100 * d, rule};
    w->d = d;
    w->lag = lag;
    w->trial = w->asked = w->told = 0;
    EXPECT(de_checked_new(&w->state, sizeof w->state, &setup).kind == DE_MADE);
}

static inline void walk_begin(Walk *w, uint64_t strategy, uint64_t size, uint64_t d, uint64_t lag) {
    walk_begin_by(w, DE_CLAMP, strategy, size, d, lag);
}

static DeCall walk_call(const Walk *w) {
    return (DeCall){walk_number(w->trial), walk_dimension(w->asked)};
}

/* The next call. */
static void walk_on(Walk *w) {
    DeCall call = walk_call(w);
    DeAnswer a = de_checked_sample(&w->state, sizeof w->state, &call, w->history, w->told);
    EXPECT(a.kind == call.distribution.kind);
    if (++w->asked == w->d) {
        w->asked = 0;
        w->trial++;
        if (w->trial > w->lag && w->told < WALK_TRIALS) {
            uint64_t told = w->trial - 1 - w->lag;
            w->history[w->told++] = (DeCompletedTrial){walk_number(told), walk_value(told), DE_COMPLETE};
        }
    }
}

/* The largest state there is: 160 slots, 16 dimensions, a closed generation and 224 open trials. */
static inline void walk_to_largest(Walk *w) {
    walk_begin(w, DE_CURRENT_TO_BEST1, DE_MAX_POPULATION, DE_MAX_DIMENSIONS, 0);
    while (w->state.closed == 0) {
        walk_on(w);
    }
    w->lag = WALK_TRIALS;
    while (w->state.n_trials < DE_MAX_TRIALS) {
        walk_on(w);
    }
}

#endif
