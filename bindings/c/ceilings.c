/* How much a call draws, held against the ceilings of the header: those by the states before and after it, and
 * de_draw_ceiling. Status 0 where all is as expected. */
#include <emkhurtov.h>

#include <math.h>
#include <string.h>

#include "expect.h"

static const DeDistribution quota = {.kind = DE_FLOAT, .low = 8.0, .high = 256.0};
static const DeDistribution depth = {
    .kind = DE_INT, .whole_low = 1, .whole_high = 64, .stepped = DE_YES, .whole_step = 3};
static const DeDistribution scheduler = {.kind = DE_CHOICE, .n_choices = 4};

static DeState state, before;

/* The function's values, worked out by hand. */
static void values(void) {
    EXPECT(DE_MAX_DRAWS == 494080);
    EXPECT(de_draw_ceiling(160, 16, DE_RAND1) == 494080);
    EXPECT(de_draw_ceiling(160, 16, DE_BEST1) == 330240);
    EXPECT(de_draw_ceiling(160, 16, DE_CURRENT_TO_BEST1) == 330240);
    EXPECT(de_draw_ceiling(4, 1, DE_RAND1) == 12292);
    EXPECT(de_draw_ceiling(4, 1, DE_BEST1) == 8196);
    EXPECT(de_draw_ceiling(4, 1, DE_CURRENT_TO_BEST1) == 8196);
    EXPECT(de_draw_ceiling(20, 2, DE_RAND1) == 61480);
    EXPECT(de_draw_ceiling(50, 5, DE_BEST1) == 102650);
    EXPECT(de_draw_ceiling(1, 0, DE_CURRENT_TO_BEST1) == 2048);
    for (uint64_t strategy = DE_RAND1; strategy <= DE_CURRENT_TO_BEST1; strategy++) {
        /* Before discovery has ended. */
        EXPECT(de_draw_ceiling(0, 0, strategy) == 0);
        EXPECT(de_draw_ceiling(0, 1, strategy) == 1);
        EXPECT(de_draw_ceiling(0, 16, strategy) == 16);
        /* Past a limit. */
        EXPECT(de_draw_ceiling(161, 16, strategy) == 0);
        EXPECT(de_draw_ceiling(160, 17, strategy) == 0);
        EXPECT(de_draw_ceiling(0, 17, strategy) == 0);
        EXPECT(de_draw_ceiling(UINT64_MAX, 1, strategy) == 0);
        EXPECT(de_draw_ceiling(4, UINT64_MAX, strategy) == 0);
        EXPECT(de_draw_ceiling(0, UINT64_MAX, strategy) == 0);
        /* 4 and 1 in the lower half alone. */
        EXPECT(de_draw_ceiling((UINT64_C(1) << 32) + 4, 1, strategy) == 0);
        EXPECT(de_draw_ceiling(4, (UINT64_C(1) << 32) + 1, strategy) == 0);
    }
    /* A strategy that names no case. */
    EXPECT(de_draw_ceiling(4, 1, 3) == 0);
    EXPECT(de_draw_ceiling(0, 1, 3) == 0);
    EXPECT(de_draw_ceiling(160, 16, UINT64_MAX) == 0);
    EXPECT(de_draw_ceiling(4, 1, UINT64_C(1) << 32) == 0);
    EXPECT(de_draw_ceiling(UINT64_MAX, UINT64_MAX, UINT64_MAX) == 0);
}

/* Whether the trial has a candidate in this state. */
static int has_candidate(const DeState *s, uint64_t trial) {
    for (uint64_t i = 0; i < s->n_trials; i++) {
        if (s->trials[i].number == trial) {
            return 1;
        }
    }
    return 0;
}

/* The most that a call of the trial draws between these two states: the ceilings word for word, without the library. */
static uint64_t ceiling(const DeState *from, const DeState *to, uint64_t trial) {
    int closes = to->n_trials < from->n_trials;
    int ends_discovery = from->discovered == DE_NO && to->discovered == DE_YES;
    if (closes || ends_discovery) {
        return to->n * ((to->setup.strategy == DE_RAND1 ? 3072 : 2048) + to->n_dims);
    }
    return has_candidate(from, trial) ? 1 : to->n_dims;
}

/* A call, held against every ceiling. */
static DeAnswer ask(uint64_t trial, DeDistribution distribution, const DeCompletedTrial *history, size_t count) {
    DeCall call = {trial, distribution};
    before = state;
    DeAnswer a = de_checked_sample(&state, sizeof state, &call, history, count);
    EXPECT(a.draws <= ceiling(&before, &state, trial));
    EXPECT(a.draws <= de_draw_ceiling(state.n, state.n_dims, state.setup.strategy));
    EXPECT(a.draws <= DE_MAX_DRAWS);
    /* Once discovery has ended, by the state before the call too. */
    EXPECT(before.discovered == DE_NO || a.draws <= de_draw_ceiling(before.n, before.n_dims, before.setup.strategy));
    EXPECT(before.discovered == DE_NO || (state.n == before.n && state.n_dims == before.n_dims));
    return a;
}

/* A call that gets a setting: how much it draws. */
static uint64_t draws(uint64_t trial, DeDistribution distribution, const DeCompletedTrial *history, size_t count) {
    DeAnswer a = ask(trial, distribution, history, count);
    EXPECT(a.kind == DE_FLOAT || a.kind == DE_INT || a.kind == DE_CHOICE);
    return a.draws;
}

/* A call that is refused, or not understood, draws nothing. */
static void refused(uint64_t trial, DeDistribution distribution, const DeCompletedTrial *history, size_t count) {
    DeAnswer a = ask(trial, distribution, history, count);
    EXPECT((a.kind == DE_REFUSED || a.kind == DE_UNKNOWN) && a.draws == 0);
    EXPECT(memcmp(&state, &before, sizeof state) == 0);
}

/* Dimension i of a campaign: the three kinds in turn. */
static DeDistribution dimension(uint64_t i) {
    const DeDistribution kinds[3] = {quota, depth, scheduler};
    return kinds[i % 3];
}

static void begin(uint64_t strategy, uint64_t sized, uint64_t size) {
    DeSetup setup = DE_SETUP_DEFAULT;
    setup.strategy = strategy;
    setup.sized = sized;
    setup.population_size = size;
    setup.seed = 5;
    EXPECT(de_checked_new(&state, sizeof state, &setup).kind == DE_MADE);
}

/* The calls of a trial after its first: its other dimensions draw nothing, and each call past the last draws once. */
static void rest(uint64_t trial, uint64_t d, const DeCompletedTrial *history, size_t count) {
    for (uint64_t i = 1; i < d; i++) {
        EXPECT(draws(trial, dimension(i), history, count) == 0);
    }
    EXPECT(draws(trial, quota, history, count) == 1);
    EXPECT(draws(trial, scheduler, history, count) == 1);
}

/* A generation of trials from `trial` on, with the results of the one before; their own are left in `results`. */
static void generation(uint64_t trial, uint64_t n, uint64_t d, const DeCompletedTrial *told, size_t count,
                       DeCompletedTrial *results) {
    for (uint64_t slot = 0; slot < n; slot++) {
        /* The first trial's first call has closed the generation before, or has ended discovery. */
        EXPECT(slot == 0 || draws(trial + slot, dimension(0), told, count) == 0);
        rest(trial + slot, d, told, count);
        results[slot] = (DeCompletedTrial){trial + slot, (double)((trial + slot) * 7919 % 1009), DE_COMPLETE};
    }
    /* One more is an extra: a candidate of its own is drawn, an entry or a choice for each dimension. */
    EXPECT(draws(trial + n, dimension(0), told, count) == d);
    rest(trial + n, d, told, count);
}

/* Calls that are refused: a new trial's, one's that has a candidate, and one that would close the generation. */
static void refusals(uint64_t trial, uint64_t n, DeCompletedTrial *results) {
    DeDistribution bad = {.kind = DE_FLOAT, .low = 1.0, .high = 0.0};
    DeDistribution unknown = {.kind = 9};
    refused(trial + n + 1, bad, NULL, 0);
    refused(trial, bad, NULL, 0);
    refused(trial, unknown, NULL, 0);
    refused(trial + n + 1, bad, results, (size_t)n);
    double value = results[n - 1].value;
    results[n - 1].value = NAN;
    refused(trial + n + 1, quota, results, (size_t)n);
    results[n - 1].value = value;
}

/* A campaign of N slots and D dimensions, at least one of which is no choice. */
static void campaign(uint64_t strategy, uint64_t n, uint64_t d, uint64_t generations) {
    static DeCompletedTrial results[2][DE_MAX_POPULATION];
    uint64_t indices = strategy == DE_RAND1 ? 3 : 2;
    begin(strategy, DE_YES, n);
    refused(0, (DeDistribution){.kind = DE_CHOICE}, NULL, 0);
    for (uint64_t i = 0; i < d; i++) {
        EXPECT(draws(0, dimension(i), NULL, 0) == 1);
    }
    EXPECT(draws(1, dimension(0), NULL, 0) == n * d);
    EXPECT(before.discovered == DE_NO && state.discovered == DE_YES && state.n == n && state.n_dims == d);
    uint64_t trial = 1;
    for (uint64_t g = 0; g < generations; g++) {
        DeCompletedTrial *told = results[g % 2], *own = results[(g + 1) % 2];
        generation(trial, n, d, told, g == 0 ? 0 : (size_t)n, own);
        refusals(trial, n, own);
        trial += n + 2;
        /* Each slot takes one draw for each dimension and at least one for each index. */
        EXPECT(draws(trial, dimension(0), own, (size_t)n) >= n * (indices + d));
        EXPECT(state.closed == g + 1 && before.n_trials == n + 1 && state.n_trials == 1);
    }
}

static void campaigns(void) {
    for (uint64_t strategy = DE_RAND1; strategy <= DE_CURRENT_TO_BEST1; strategy++) {
        campaign(strategy, 4, 1, 300);
        campaign(strategy, 4, 3, 200);
        campaign(strategy, 25, 5, 20);
        campaign(strategy, DE_MAX_POPULATION, DE_MAX_DIMENSIONS, 3);
    }
}

/* Where every dimension is a choice, a closing draws N x D: it makes random candidates. */
static void choices_alone(void) {
    DeCompletedTrial results[4];
    begin(DE_BEST1, DE_YES, 4);
    EXPECT(draws(0, scheduler, NULL, 0) == 1 && draws(0, scheduler, NULL, 0) == 1);
    EXPECT(draws(1, scheduler, NULL, 0) == 8);
    for (uint64_t i = 0; i < 4; i++) {
        EXPECT(i == 0 || draws(1 + i, scheduler, NULL, 0) == 0);
        results[i] = (DeCompletedTrial){1 + i, (double)i, DE_COMPLETE};
    }
    EXPECT(draws(5, scheduler, results, 4) == 8 && state.closed == 1);
}

/* N as the header has it for those who ask ahead: from the set-up and the kinds of the dimensions. */
static void ahead(void) {
    static const struct {
        uint64_t sized, size, d, n;
    } cases[] = {{DE_NO, 0, 1, 15}, {DE_NO, 0, 2, 20},  {DE_NO, 0, 3, 20},    {DE_NO, 0, 16, 110},
                 {DE_YES, 0, 1, 4}, {DE_YES, 3, 16, 4}, {DE_YES, 160, 2, 160}};
    for (size_t i = 0; i < sizeof cases / sizeof *cases; i++) {
        begin(DE_RAND1, cases[i].sized, cases[i].size);
        for (uint64_t k = 0; k < cases[i].d; k++) {
            EXPECT(draws(0, dimension(k), NULL, 0) == 1);
            EXPECT(de_draw_ceiling(state.n, state.n_dims, DE_RAND1) == k + 1);
        }
        EXPECT(draws(1, quota, NULL, 0) == cases[i].n * cases[i].d && state.n == cases[i].n);
    }
}

/* A refused call gives its trial no candidate: the next one draws as a first call does. */
static void refused_first(void) {
    DeCompletedTrial nan = {0, NAN, DE_COMPLETE};
    begin(DE_RAND1, DE_YES, 4);
    EXPECT(draws(0, quota, NULL, 0) == 1 && draws(0, scheduler, NULL, 0) == 1);
    refused(1, quota, &nan, 1);
    EXPECT(draws(1, quota, NULL, 0) == 8);
    for (uint64_t trial = 2; trial <= 4; trial++) {
        EXPECT(draws(trial, quota, NULL, 0) == 0);
    }
    refused(5, quota, &nan, 1);
    EXPECT(draws(5, quota, NULL, 0) == 2);
}

/* The call that closes may be that of a trial that has a candidate; it draws for the new generation all the same. */
static void own_call_closes(void) {
    DeCompletedTrial results[4];
    begin(DE_RAND1, DE_YES, 4);
    EXPECT(draws(0, quota, NULL, 0) == 1);
    EXPECT(draws(1, quota, NULL, 0) == 4);
    for (uint64_t i = 0; i < 4; i++) {
        EXPECT(i == 0 || draws(1 + i, quota, NULL, 0) == 0);
        results[i] = (DeCompletedTrial){1 + i, (double)i, DE_COMPLETE};
    }
    EXPECT(draws(3, quota, results, 4) >= 4 * (3 + 1) && state.closed == 1);
    EXPECT(has_candidate(&before, 3) && before.n_trials == 4 && state.n_trials == 1);
}

/* Memory that no sampler made: refused, and what it says of N, D and the strategy bounds nothing more than 0 draws. */
static void no_states(void) {
    static const unsigned char fillings[3] = {0x00, 0xff, 0x5a};
    DeCall call = {.trial = 1, .distribution = quota};
    for (int i = 0; i < 3; i++) {
        memset(&state, fillings[i], sizeof state);
        DeAnswer a = de_checked_sample(&state, sizeof state, &call, NULL, 0);
        EXPECT(a.kind == DE_REFUSED && a.refusal == DE_STATE_NOT_SOUND && a.draws == 0);
    }
    begin(DE_RAND1, DE_YES, 4);
    EXPECT(draws(0, quota, NULL, 0) == 1 && draws(1, quota, NULL, 0) == 4);
    state.n = 5;
    refused(2, quota, NULL, 0);
    EXPECT(de_draw_ceiling(state.n, state.n_dims, state.setup.strategy) == 15365);
}

int main(void) {
    values();
    campaigns();
    choices_alone();
    ahead();
    refused_first();
    own_call_closes();
    no_states();
    return ended("C ceilings");
}
