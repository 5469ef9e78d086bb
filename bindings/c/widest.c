/* What sample calls make of the widest bounds and of the largest entries, F being 2: every generation is held against
 * the second reading, and no entry is over 4e300 in size. Status 0 where all is as expected. */
#include <emkhurtov.h>

#include <math.h>
#include <string.h>

#include "entries.h"
#include "expect.h"
#include "second_generation.h"
#include "states.h"

#define COUNT(table) (sizeof table / sizeof *table)
#define LIMIT 4e300

static Walk walk;
static DeState state;

static struct {
    size_t generations, entries, beyond; /* entries of random candidates, and those beyond a bound */
    double mutant;                       /* the size of the largest mutant's entry */
} met;

/* The call has closed a generation, and left these candidates. */
static void as_read(const DeState *s, uint64_t word, DeAnswer a) {
    static Generation g;
    second_generation(s, word, &g);
    EXPECT(memcmp(g.candidates, s->candidates, sizeof g.candidates) == 0 && g.word == s->word && g.draws == a.draws);
    EXPECT(g.nans == 0);
    met.generations++;
    met.mutant = g.largest > met.mutant ? g.largest : met.mutant;
}

/* The widest bounds, with a step and without, others that are nearly as wide, an Int and a choice. */
static DeDistribution wide(uint64_t k) {
    static const DeDistribution kinds[] = {
        {.kind = DE_FLOAT, .low = -1e300, .high = 1e300},
        {.kind = DE_FLOAT, .low = -1e300, .high = 9.9e299},
        {.kind = DE_CHOICE, .n_choices = 3},
        {.kind = DE_FLOAT, .low = -1e300, .high = 1e300, .stepped = DE_YES, .step = 1e291},
        {.kind = DE_INT, .whole_low = -DE_MAX_WHOLE, .whole_high = DE_MAX_WHOLE},
        {.kind = DE_FLOAT, .low = 1e-300, .high = 1e300},
    };
    return kinds[k % COUNT(kinds)];
}

/* The candidates from `first` on are random. */
static void count_random(uint64_t first) {
    for (uint64_t i = first; i < candidates_of(&state); i++) {
        for (uint64_t k = 0, j = 0; k < state.n_dims; k++) {
            const DeDistribution *d = &state.dims[k];
            if (d->kind == DE_FLOAT) {
                met.entries++;
                met.beyond += !(state.candidates[i].x[j] >= d->low && state.candidates[i].x[j] <= d->high);
            }
            j += d->kind != DE_CHOICE;
        }
    }
}

/* A trial's calls: each has a setting of its dimension, and no entry is over 1e300. */
static void ask(uint64_t trial, uint64_t d, const DeCompletedTrial *told, size_t count) {
    for (uint64_t k = 0; k < d; k++) {
        DeCall call = {trial, wide(k)};
        uint64_t n = candidates_of(&state), word = state.word, closed = state.closed;
        DeAnswer a = de_checked_sample(&state, sizeof state, &call, told, count);
        EXPECT(within(a, call.distribution));
        if (state.closed > closed) {
            as_read(&state, word, a);
        } else if (candidates_of(&state) > n) {
            count_random(n);
        }
    }
    EXPECT(state.discovered == DE_NO || at_most(&state, DE_MAX_REAL));
}

/* A campaign of F = 2 and CR = 1 with the widest bounds and two extras a generation. Results have many ties, so that
 * parents change often. */
static void campaign(uint64_t rule, uint64_t strategy, uint64_t n, uint64_t d, uint64_t generations) {
    static DeCompletedTrial told[DE_MAX_POPULATION];
    DeSetup setup = {2.0, 1.0, strategy, DE_YES, n, 7 * n + d, rule};
    EXPECT(de_checked_new(&state, sizeof state, &setup).kind == DE_MADE);
    ask(0, d, NULL, 0);
    for (uint64_t trial = 1; trial <= generations * (n + 2); trial += n + 2) {
        for (uint64_t i = 0; i < n + 2; i++) {
            ask(trial + i, d, told, trial > 1 && i == 0 ? (size_t)n : 0);
        }
        for (uint64_t i = 0; i < n; i++) {
            told[i] = (DeCompletedTrial){trial + i, (double)((trial + i) * 7919 % 1009 % 3), DE_COMPLETE};
        }
    }
    EXPECT(state.closed == generations - 1);
}

/* The largest mutants were about as large as entries of this size can make them: with F = 2 five times as large, under
 * current-to-best seven times. */
static void expect_mutants(uint64_t strategy, double size) {
    double most = (strategy == DE_CURRENT_TO_BEST1 ? 7.0 : 5.0) * size;
    EXPECT(met.mutant > 0.85 * most && met.mutant < 1.01 * most);
    met.mutant = 0.0;
}

static void widest(void) {
    for (uint64_t rule = DE_CLAMP; rule <= DE_MIDPOINT; rule++) {
        for (uint64_t strategy = DE_RAND1; strategy <= DE_CURRENT_TO_BEST1; strategy++) {
            campaign(rule, strategy, 4, 1, 400);
            campaign(rule, strategy, 5, 6, 200);
            campaign(rule, strategy, 12, 3, 100);
            campaign(rule, strategy, 40, 2, 50);
            expect_mutants(strategy, DE_MAX_REAL);
        }
    }
    printf("C widest bounds: %zu generations; of %zu entries of random candidates %zu beyond a bound\n",
           met.generations, met.entries, met.beyond);
    EXPECT(met.entries > 10000 && met.beyond == 0);
}

/* The walk's next calls: no entry is over 4e300. */
static void go_on(void) {
    for (int calls = 0; calls < 400; calls++) {
        uint64_t word = walk.state.word, closed = walk.state.closed;
        DeCall call = walk_call(&walk);
        state = walk.state;
        DeAnswer a = de_checked_sample(&state, sizeof state, &call, walk.history, walk.told);
        EXPECT(within(a, call.distribution));
        if (state.closed > closed) {
            as_read(&state, word, a);
        }
        EXPECT(at_most(&state, LIMIT));
        walk_on(&walk);
        EXPECT(memcmp(&walk.state, &state, sizeof state) == 0);
    }
}

/* Handed in with every entry of 4e300 in size, a campaign goes on. */
static void largest_entries(void) {
    for (uint64_t rule = DE_CLAMP; rule <= DE_MIDPOINT; rule++) {
        for (uint64_t strategy = DE_RAND1; strategy <= DE_CURRENT_TO_BEST1; strategy++) {
            for (uint64_t k = 0; k < 8; k++) {
                walk_begin_by(&walk, rule, strategy, 4 + 2 * k, 5, k);
                while (walk.state.closed < 1 + k % 2) {
                    walk_on(&walk);
                }
                walk.state.setup.mutation_factor = 2.0;
                for (uint64_t place = 0; entry_at(&walk.state, place) != NULL; place++) {
                    *entry_at(&walk.state, place) = place * 7919 % 1009 % 2 == 0 ? LIMIT : -LIMIT;
                }
                go_on();
            }
            expect_mutants(strategy, LIMIT);
        }
    }
}

int main(void) {
    widest();
    largest_entries();
    return ended("C widest bounds");
}
