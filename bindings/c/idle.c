/* Look's idle count, held against the count that the counted results alone give: how many generations closed after the
 * last that counted a result smaller than every result counted before it. Status 0 where all is as expected. */
#include <emkhurtov.h>

#include <math.h>

#include "expect.h"

enum { SLOTS = 4, GENERATIONS = 20 };

static DeState state;

/* What each closed generation counted. */
static double counted[GENERATIONS][SLOTS];
static uint64_t closed;

static int below_all_before(double result, uint64_t generation) {
    for (uint64_t g = 0; g < generation; g++) {
        for (int i = 0; i < SLOTS; i++) {
            if (!(result < counted[g][i])) {
                return 0;
            }
        }
    }
    return 1;
}

/* The count by these alone. */
static uint64_t idle_by_results(void) {
    uint64_t idle = 0;
    for (uint64_t g = 0; g < closed; g++) {
        idle++;
        for (int i = 0; i < SLOTS; i++) {
            if (below_all_before(counted[g][i], g)) {
                idle = 0;
            }
        }
    }
    return idle;
}

static void ask(uint64_t trial, const DeCompletedTrial *history, size_t n) {
    DeCall call = {.trial = trial, .distribution = {.kind = DE_INT, .whole_high = 9}};
    EXPECT(de_checked_sample(&state, sizeof state, &call, history, n).kind == DE_INT);
}

/* A sampler, and its discovery. */
static void begin(void) {
    DeSetup setup = DE_SETUP_DEFAULT;
    setup.sized = DE_YES;
    setup.population_size = SLOTS;
    EXPECT(de_checked_new(&state, sizeof state, &setup).kind == DE_MADE);
    ask(0, NULL, 0);
    closed = 0;
}

/* One generation with these results of trials 1 to 4, which a further call of trial 1 closes; then the count is `idle`.
 */
static void closes(const double results[SLOTS], uint64_t idle) {
    DeCompletedTrial history[SLOTS];
    for (int i = 0; i < SLOTS; i++) {
        ask((uint64_t)i + 1, NULL, 0);
        history[i] = (DeCompletedTrial){(uint64_t)i + 1, results[i], DE_COMPLETE};
        counted[closed][i] = results[i];
    }
    ask(1, history, SLOTS);
    closed++;
    DeLook look = de_checked_look(&state, sizeof state);
    EXPECT(look.kind == DE_LOOK_BEST && look.closed == closed);
    EXPECT(look.idle == idle && look.idle == idle_by_results());
}

static void flat(double value) {
    const double results[SLOTS] = {value, value, value, value};
    begin();
    for (uint64_t g = 0; g < GENERATIONS; g++) {
        closes(results, g);
    }
}

static void what_resets_it(void) {
    static const struct {
        double results[SLOTS];
        uint64_t idle;
    } rows[] = {
        {{5, 3, 4, 3}, 0},
        /* Larger ones, ties, a slot that becomes smaller and stays above the least, and one that comes to it. */
        {{6, 3.5, 4.5, 3.5}, 1},
        {{5, 3, 4, 3}, 2},
        {{4, 9, 9, 9}, 3},
        {{3, 9, 9, 9}, 4},
        /* A smaller least; a zero, and then the zero of the other sign; minus infinity. */
        {{2, 9, 9, 9}, 0},
        {{9, 0.0, 9, 9}, 0},
        {{9, -0.0, 9, -0.0}, 1},
        {{-INFINITY, 9, 9, 9}, 0},
        {{-INFINITY, 9, 9, INFINITY}, 1},
    };
    begin();
    for (size_t g = 0; g < sizeof rows / sizeof *rows; g++) {
        closes(rows[g].results, rows[g].idle);
    }
}

int main(void) {
    flat(3.0);
    flat(-0.0);
    flat(INFINITY);
    flat(-INFINITY);
    what_resets_it();
    return ended("C idle counts");
}
