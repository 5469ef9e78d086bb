/* Campaigns with ladders among their dimensions, under both bounds rules: every call is held against the second
 * reading, its setting, its draws, and the candidates that it made. Status 0 where all is as expected. */
#include <emkhurtov.h>

#include <string.h>

#include "entries.h"
#include "expect.h"
#include "second_generation.h"

#define COUNT(table) (sizeof table / sizeof *table)

static DeState state, before;

static struct { size_t settings, generations, below, above; /* mutants' entries beyond an inner bound */ } met;

static DeDistribution dimension(uint64_t k) {
    static const DeDistribution kinds[] = {
        {.kind = DE_INT, .whole_low = 1, .whole_high = 64, .log_scale = DE_YES},
        {.kind = DE_INT, .whole_low = 1000, .whole_high = 1000000, .log_scale = DE_YES},
        {.kind = DE_CHOICE, .n_choices = 4},
        {.kind = DE_INT, .whole_low = 1, .whole_high = DE_MAX_LADDER, .log_scale = DE_YES},
        {.kind = DE_FLOAT, .low = 8.0, .high = 256.0},
        {.kind = DE_INT, .whole_low = 5, .whole_high = 5, .log_scale = DE_YES},
        {.kind = DE_INT, .whole_low = 1, .whole_high = 64, .stepped = DE_YES, .whole_step = 3},
        {.kind = DE_INT, .whole_low = 373, .whole_high = 377, .log_scale = DE_YES},
    };
    return kinds[k % COUNT(kinds)];
}

/* ---- One call. */

/* Whether each entry lies between its bounds, a ladder's between the inner ones, in candidates and in parents. */
static int between_bounds(void) {
    double low[DE_MAX_DIMENSIONS], high[DE_MAX_DIMENSIONS];
    uint64_t entries = 0;
    for (uint64_t k = 0; k < state.n_dims; k++) {
        if (state.dims[k].kind != DE_CHOICE) {
            second_bounds(&state.dims[k], &low[entries], &high[entries]);
            entries++;
        }
    }
    for (uint64_t place = 0; entries > 0 && entry_at(&state, place) != NULL; place++) {
        double x = *entry_at(&state, place);
        if (!(x >= low[place % entries] && x <= high[place % entries])) {
            return 0;
        }
    }
    return 1;
}

/* The candidates that the call made, and its draws and word but for a setting's. */
static void candidates_as_read(Generation *g) {
    uint64_t first = 0, count = state.n;
    if (state.closed > before.closed) {
        second_generation(&state, before.word, g);
        met.generations++;
        met.below += g->below;
        met.above += g->above;
    } else if (state.discovered > before.discovered) {
        second_randoms(&state, count, before.word, g);
    } else if (state.n_trials > before.n_trials && state.n_trials > state.n) {
        first = state.n_trials - 1;
        count = 1;
        second_randoms(&state, count, before.word, g);
    } else {
        return;
    }
    EXPECT(memcmp(&state.candidates[first], g->candidates, count * sizeof *g->candidates) == 0);
    EXPECT(between_bounds());
}

/* The setting of dimension k for the trial with candidate i, or the one that is drawn with `output`. */
static int64_t setting_as_read(uint64_t i, uint64_t k, uint64_t output, const DeDistribution *lent) {
    if (state.discovered == DE_NO || k >= state.n_dims) {
        return second_drawn(output, lent);
    }
    uint64_t j = 0;
    for (uint64_t earlier = 0; earlier < k; earlier++) {
        j += state.dims[earlier].kind != DE_CHOICE;
    }
    return second_decoded(state.candidates[i].x[j], &state.dims[k]);
}

/* The trial, which has candidate i, asks for its dimension k, or for one past the last. */
static void ask(uint64_t trial, uint64_t i, uint64_t k, const DeCompletedTrial *told, size_t count) {
    static Generation g;
    DeCall call = {trial, dimension(k)};
    before = state;
    DeAnswer a = de_checked_sample(&state, sizeof state, &call, told, count);
    EXPECT(within(a, call.distribution));
    if (a.kind != call.distribution.kind) {
        return;
    }
    memset(&g, 0, sizeof g);
    g.word = before.word;
    if (state.discovered == DE_YES) {
        candidates_as_read(&g);
    }
    uint64_t output = state.discovered == DE_NO || k >= state.n_dims ? drawn_output(&g) : 0;
    EXPECT(a.draws == g.draws && state.word == g.word);
    if (is_ladder(&call.distribution)) {
        EXPECT(a.whole == setting_as_read(i, k, output, &call.distribution));
        met.settings++;
    }
}

/* ---- Campaigns. */

/* All calls of a trial, and one past the last dimension, with each kind in turn. */
static void ask_all(uint64_t trial, uint64_t i, uint64_t d, const DeCompletedTrial *told, size_t count) {
    for (uint64_t k = 0; k < d; k++) {
        ask(trial, i, k, told, count);
    }
    if (trial > 0) {
        ask(trial, i, d + trial % 8, told, count);
    }
}

/* Generations of N trials and `extras` more. Many results tie. */
static void campaign(uint64_t rule, uint64_t strategy, uint64_t size, uint64_t d, uint64_t extras,
                     uint64_t generations) {
    static DeCompletedTrial told[DE_MAX_POPULATION];
    DeSetup setup = {0.8, 0.9, strategy, size != 0, size, 7 * size + d, rule};
    EXPECT(de_checked_new(&state, sizeof state, &setup).kind == DE_MADE);
    ask_all(0, 0, d, NULL, 0);
    uint64_t trial = 1, n = 0;
    for (uint64_t g = 0; g < generations; g++) {
        ask_all(trial, 0, d, told, (size_t)n);
        n = state.n;
        for (uint64_t i = 1; i < n + extras; i++) {
            ask_all(trial + i, i, d, told, 0);
        }
        for (uint64_t i = 0; i < n; i++) {
            told[i] = (DeCompletedTrial){trial + i, (double)((trial + i) * 7919 % 1009 % 50), DE_COMPLETE};
        }
        trial += n + extras;
        DeLook look = de_checked_look(&state, sizeof state);
        EXPECT(look.kind == (g == 0 ? DE_LOOK_NOTHING : DE_LOOK_BEST) && look.closed == g);
    }
}

/* ---- Slots hold the settings that were tried with the least results. */

static void slots(uint64_t rule) {
    enum { N = 8, TRIALS = 1 + 40 * N };
    static DeCompletedTrial history[TRIALS];
    static int64_t asked[TRIALS];
    double least[N] = {0};
    int64_t setting[N] = {0};
    DeSetup setup = {0.8, 0.9, DE_BEST1, DE_YES, N, 3, rule};
    EXPECT(de_checked_new(&state, sizeof state, &setup).kind == DE_MADE);
    for (uint64_t trial = 0; trial < TRIALS; trial++) {
        DeCall call = {trial, dimension(0)};
        DeAnswer a = de_checked_sample(&state, sizeof state, &call, history, (size_t)trial);
        EXPECT(within(a, call.distribution));
        asked[trial] = a.whole;
        /* Many ties, and the best is near the high bound. */
        history[trial] = (DeCompletedTrial){trial, (double)((a.whole - 60) * (a.whole - 60) / 4), DE_COMPLETE};
        for (uint64_t slot = 0; trial > N && (trial - 1) % N == 0 && slot < N; slot++) {
            uint64_t counted = trial - N + slot;
            if (trial == 1 + N || history[counted].value <= least[slot]) {
                least[slot] = history[counted].value;
                setting[slot] = asked[counted];
            }
            DeAnswer held = de_checked_slot_setting(&state, sizeof state, slot, 0);
            EXPECT(held.kind == DE_INT && held.whole == setting[slot] && held.draws == 0);
        }
    }
}

int main(void) {
    EXPECT(second_rungs() == LAST_POSITION + 1);
    for (uint64_t rule = DE_CLAMP; rule <= DE_MIDPOINT; rule++) {
        for (uint64_t strategy = DE_RAND1; strategy <= DE_CURRENT_TO_BEST1; strategy++) {
            memset(&met, 0, sizeof met);
            campaign(rule, strategy, 4, 1, 2, 60);
            campaign(rule, strategy, 12, 8, 3, 30);
            campaign(rule, strategy, 0, 2, 0, 12);
            campaign(rule, strategy, 160, 16, 64, 3);
            EXPECT(met.settings > 10000 && met.generations == 59 + 29 + 11 + 2);
            EXPECT(met.below > 500 && met.above > 500);
        }
        slots(rule);
    }
    return ended("C ladder campaigns");
}
