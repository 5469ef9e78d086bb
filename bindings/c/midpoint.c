/* What becomes of a mutant's entry beyond a bound, under clamp and under midpoint: every generation of some campaigns
 * held against a second reading, closings that were worked out by hand, and slots that hold the least results. Status 0
 * where all is as expected. */
#include <emkhurtov.h>

#include <math.h>
#include <string.h>

#include "expect.h"
#include "second_generation.h"
#include "states.h"

enum { SLOTS = 4, WORDS = 50 };
#define COUNT(table) (sizeof table / sizeof *table)

static const DeDistribution quota = {.kind = DE_FLOAT, .low = 8.0, .high = 256.0};
static Walk walk;
static DeState state, before, again, twin;

/* Whether two states are one but for their rules. */
static int alike_but_for_the_rule(const DeState *a, const DeState *b) {
    static DeState same;
    same = *b;
    same.setup.bounds_rule = a->setup.bounds_rule;
    return memcmp(a, &same, sizeof same) == 0;
}

/* ---- Candidates. */

/* The candidates that the closing call left in `s`, and its draws, are those of the second reading. */
static void as_read(const DeState *s, uint64_t word, DeAnswer a, size_t met[2]) {
    static Generation g;
    second_generation(s, word, &g);
    EXPECT(memcmp(g.candidates, s->candidates, sizeof g.candidates) == 0 && g.word == s->word && g.draws == a.draws);
    EXPECT(a.kind == DE_FLOAT && a.real == s->candidates[0].x[0]);
    met[0] += g.below;
    met[1] += g.above;
}

/* Where midpoint's entry is another than clamp's, that one is on a bound, and this one halfway from it to the parent's.
 */
static void differ_on_bounds(const DeState *clamp, const DeState *midpoint, size_t differ[2]) {
    uint64_t entries = 0;
    for (uint64_t k = 0; k < clamp->n_dims; k++) {
        const DeDistribution *d = &clamp->dims[k];
        double bounds[2] = {d->kind == DE_FLOAT ? d->low : (double)d->whole_low,
                            d->kind == DE_FLOAT ? d->high : (double)d->whole_high};
        for (uint64_t slot = 0; slot < clamp->n && d->kind != DE_CHOICE; slot++) {
            double c = clamp->candidates[slot].x[entries], m = midpoint->candidates[slot].x[entries];
            if (memcmp(&c, &m, sizeof c) != 0) {
                int high = c == bounds[1];
                EXPECT(c == bounds[high] && m == (clamp->parents[slot].candidate.x[entries] + c) / 2.0);
                differ[high]++;
            }
        }
        entries += d->kind != DE_CHOICE;
    }
}

/* The walk's next call, on its state and on that state with the other rule. The rule matters in a call that closes a
 * generation alone, and there for entries alone. */
static void on_with_both(size_t met[2], size_t differ[2]) {
    uint64_t rule = walk.state.setup.bounds_rule;
    before = again = twin = walk.state;
    twin.setup.bounds_rule = rule == DE_CLAMP ? DE_MIDPOINT : DE_CLAMP;
    DeCall call = walk_call(&walk);
    DeAnswer a = de_checked_sample(&again, sizeof again, &call, walk.history, walk.told);
    DeAnswer b = de_checked_sample(&twin, sizeof twin, &call, walk.history, walk.told);
    walk_on(&walk);
    EXPECT(memcmp(&again, &walk.state, sizeof again) == 0 && again.setup.bounds_rule == rule);
    EXPECT(twin.setup.bounds_rule == (rule == DE_CLAMP ? DE_MIDPOINT : DE_CLAMP));
    if (again.closed == before.closed) {
        EXPECT(memcmp(&a, &b, sizeof a) == 0 && alike_but_for_the_rule(&again, &twin));
        return;
    }
    as_read(&again, before.word, a, met);
    as_read(&twin, before.word, b, met);
    differ_on_bounds(rule == DE_CLAMP ? &again : &twin, rule == DE_CLAMP ? &twin : &again, differ);
    for (size_t i = 0; i < DE_MAX_TRIALS; i++) {
        memcpy(twin.candidates[i].x, again.candidates[i].x, sizeof twin.candidates[i].x);
    }
    EXPECT(alike_but_for_the_rule(&again, &twin));
}

static void campaigns(void) {
    static const struct {
        uint64_t size, d, lag, calls;
    } plans[] = {{4, 1, 0, 120},  {5, 3, 2, 600},    {12, 5, 0, 1500},
                 {0, 2, 40, 400}, {30, 16, 0, 2000}, {160, 2, 0, 1000}};
    for (uint64_t rule = DE_CLAMP; rule <= DE_MIDPOINT; rule++) {
        for (uint64_t strategy = DE_RAND1; strategy <= DE_CURRENT_TO_BEST1; strategy++) {
            size_t met[2] = {0, 0}, differ[2] = {0, 0};
            for (size_t i = 0; i < COUNT(plans); i++) {
                walk_begin_by(&walk, rule, strategy, plans[i].size, plans[i].d, plans[i].lag);
                for (uint64_t k = 0; k < plans[i].calls; k++) {
                    on_with_both(met, differ);
                }
                EXPECT(walk.state.closed >= 3);
            }
            /* Both bounds, and often enough. */
            EXPECT(met[0] > 500 && met[1] > 500 && differ[0] > 200 && differ[1] > 200);
        }
    }
}

/* Parents beyond the bounds, as no call leaves them, in states that were changed: an entry that is the parent's own is
 * clamped. */
static void parents_beyond_bounds(void) {
    size_t met[2] = {0, 0};
    for (uint64_t k = 0; k < 6 * 600; k++, walk_on(&walk)) {
        if (k % 600 == 0) {
            walk_begin_by(&walk, k / 600 % 2, k / 1200, 12, 5, 0);
        }
        again = walk.state;
        for (size_t i = 0; i < DE_MAX_POPULATION * DE_MAX_DIMENSIONS; i++) {
            again.parents[i / DE_MAX_DIMENSIONS].candidate.x[i % DE_MAX_DIMENSIONS] *= 3.0;
            again.candidates[i / DE_MAX_DIMENSIONS].x[i % DE_MAX_DIMENSIONS] *= 3.0;
        }
        before = again;
        DeCall call = walk_call(&walk);
        DeAnswer a = de_checked_sample(&again, sizeof again, &call, walk.history, walk.told);
        EXPECT(a.kind == call.distribution.kind);
        if (again.closed > before.closed) {
            as_read(&again, before.word, a, met);
        }
    }
    EXPECT(met[0] > 500 && met[1] > 500);
}

/* ---- By hand: F = 2 and current-to-best of four slots in one dimension, where the best slot holds b and each other
 * one o. Their mutants are 2b - o, 4b - 3o and about o, as the indices fall. The results that close the generation
 * replace no parent. */

static void begin_by_hand(uint64_t rule, DeDistribution d) {
    DeSetup setup = {2.0, 0.5, DE_CURRENT_TO_BEST1, DE_YES, SLOTS, 3, rule};
    DeCompletedTrial history[SLOTS] = {{0, 0.0, DE_COMPLETE}};
    EXPECT(de_checked_new(&state, sizeof state, &setup).kind == DE_MADE);
    for (uint64_t trial = 0; trial <= 2 * SLOTS; trial++) {
        DeCall call = {trial, d};
        EXPECT(de_checked_sample(&state, sizeof state, &call, history, trial > SLOTS ? SLOTS : 0).kind == DE_FLOAT);
        history[(trial + SLOTS - 1) % SLOTS] = (DeCompletedTrial){trial, (double)trial, DE_COMPLETE};
    }
    EXPECT(state.closed == 1 && state.n_trials == SLOTS);
}

/* The closing of these parents, from a generator's word on. */
static DeAnswer close_by_hand(DeState *s, double b, double o, uint64_t word, DeDistribution d) {
    DeCompletedTrial history[SLOTS];
    for (uint64_t slot = 0; slot < SLOTS; slot++) {
        s->parents[slot].candidate.x[0] = slot == 0 ? b : o;
        s->parents[slot].value = slot == 0 ? 1.0 : 2.0;
        history[slot] = (DeCompletedTrial){SLOTS + 1 + slot, 3.0, DE_COMPLETE};
    }
    s->best = 0;
    s->word = word;
    before = *s;
    DeCall call = {100, d};
    return de_checked_sample(s, sizeof *s, &call, history, SLOTS);
}

static void by_hand(void) {
    static const double tiny = 5e-324, most = 1e300, limit = 4e300;
    const struct {
        double low, high, b, o;
        double entries[2][3]; /* under clamp and under midpoint, of the three mutants */
    } rows[] = {
        {0.0, 1.0, 0.25, 0.75, {{0.0, 0.0, 0.75}, {0.375, 0.375, 0.75}}},
        {0.0, 1.0, 0.75, 0.25, {{1.0, 1.0, 0.25}, {0.625, 0.625, 0.25}}},
        /* A mutant on the bound is not beyond it. */
        {0.0, 1.0, 0.5, 1.0, {{0.0, 0.0, 1.0}, {0.0, 0.5, 1.0}}},
        {0.0, 1.0, 0.5, 0.0, {{1.0, 1.0, 0.0}, {1.0, 0.5, 0.0}}},
        {-8.0, -2.0, -4.0, -7.0, {{-2.0, -2.0, -7.0}, {-4.5, -4.5, -7.0}}},
        /* Parents beyond the bounds, as no call leaves them: what is halfway is beyond them too, and is clamped. */
        {0.0, 1.0, 1.0, 5.0, {{0.0, 0.0, 1.0}, {1.0, 1.0, 1.0}}},
        {0.0, 1.0, 0.0, -4.0, {{1.0, 1.0, 0.0}, {0.0, 0.0, 0.0}}},
        /* The sum is rounded, then its half; the half of the difference, and the sum of halves, are others. */
        {0.0, 1.0, 0.75, 0x3p-54, {{1.0, 1.0, 0x1p-52}, {0.5 + 0x1p-53, 0.5 + 0x1p-53, 0x1p-52}}},
        {tiny, 1.0, 2 * tiny, 5 * tiny, {{tiny, tiny, 5 * tiny}, {3 * tiny, 3 * tiny, 5 * tiny}}},
        {-most, most, -most, most, {{-most, -most, most}, {0.0, 0.0, most}}},
        /* Parents at the largest size of an entry, and between it and the bounds. */
        {0.0, 1.0, 0.0, limit, {{0.0, 0.0, 1.0}, {1.0, 1.0, 1.0}}},
        {-most, most, 0.0, limit, {{-most, -most, most}, {most, most, most}}},
        {-most, most, 0.0, -limit, {{most, most, -most}, {-most, -most, -most}}},
        {-most, most, 0.0, 2.5 * most, {{-most, -most, most}, {1.5 * most / 2, 1.5 * most / 2, most}}},
        {-most, most, limit, -limit, {{most, most, -most}, {-most, -most, -most}}},
        {-most, most, -limit, limit, {{-most, -most, most}, {most, most, most}}},
    };
    for (size_t i = 0; i < COUNT(rows); i++) {
        DeDistribution d = {.kind = DE_FLOAT, .low = rows[i].low, .high = rows[i].high};
        for (uint64_t rule = DE_CLAMP; rule <= DE_MIDPOINT; rule++) {
            const double *expected = rows[i].entries[rule];
            size_t met[3] = {0, 0, 0};
            begin_by_hand(rule, d);
            for (uint64_t word = 0; word < WORDS; word++) {
                twin = state;
                EXPECT(close_by_hand(&twin, rows[i].b, rows[i].o, word, d).kind == DE_FLOAT && twin.closed == 2);
                EXPECT(memcmp(twin.parents, before.parents, sizeof twin.parents) == 0);
                EXPECT(twin.candidates[0].x[0] == clamped(rows[i].b, d.low, d.high));
                for (int slot = 1; slot < SLOTS; slot++) {
                    double x = twin.candidates[slot].x[0];
                    EXPECT(x == expected[0] || x == expected[1] || x == expected[2]);
                    for (int k = 0; k < 3; k++) {
                        met[k] += x == expected[k];
                    }
                }
            }
            EXPECT(met[0] > 0 && met[1] > 0 && met[2] > 0);
        }
    }
}

/* A parent's entry that is over 4e300 in size, by one double, is refused under both rules, and the state stays. */
static void beyond_all_entries(void) {
    static const DeDistribution d = {.kind = DE_FLOAT, .low = 0.0, .high = 1.0};
    static const double over = 4.000000000000001e300;
    const double pairs[][2] = {{0.0, over}, {0.0, -over}, {over, 0.0}, {-over, 0.0}};
    for (uint64_t rule = DE_CLAMP; rule <= DE_MIDPOINT; rule++) {
        begin_by_hand(rule, d);
        for (uint64_t word = 0; word < WORDS; word++) {
            twin = state;
            const double *pair = pairs[word % COUNT(pairs)];
            DeAnswer a = close_by_hand(&twin, pair[0], pair[1], word, d);
            EXPECT(a.kind == DE_REFUSED && a.refusal == DE_STATE_NOT_SOUND && a.draws == 0);
            DeLook look = de_checked_look(&twin, sizeof twin);
            EXPECT(look.kind == DE_LOOK_REFUSED && look.refusal == DE_STATE_NOT_SOUND);
            EXPECT(memcmp(&twin, &before, sizeof twin) == 0);
        }
    }
}

/* ---- No slot more, none less: each holds the least result that was counted for it, the latest of these. */

static void least_results(void) {
    enum { N = 8, GENERATIONS = 60 };
    static DeCompletedTrial history[1 + N * GENERATIONS];
    double least[N], setting[N], asked[1 + N * GENERATIONS];
    DeSetup setup = {0.8, 0.9, DE_BEST1, DE_YES, N, 11, DE_MIDPOINT};
    EXPECT(de_checked_new(&state, sizeof state, &setup).kind == DE_MADE);
    for (uint64_t trial = 0; trial < COUNT(history); trial++) {
        DeCall call = {trial, quota};
        DeAnswer a = de_checked_sample(&state, sizeof state, &call, history, (size_t)trial);
        EXPECT(a.kind == DE_FLOAT && a.real >= 8.0 && a.real <= 256.0);
        /* Near the high bound, and many ties. */
        asked[trial] = a.real;
        history[trial] = (DeCompletedTrial){trial, floor(fabs(a.real - 250.0)), DE_COMPLETE};
        DeLook look = de_checked_look(&state, sizeof state);
        EXPECT(trial < 1 + N ? look.kind == DE_LOOK_NOTHING : look.kind == DE_LOOK_BEST);
        for (uint64_t slot = 0; trial >= 1 + N && slot < N && (trial - 1) % N == 0; slot++) {
            uint64_t counted = trial - N + slot;
            if (trial == 1 + N || history[counted].value <= least[slot]) {
                least[slot] = history[counted].value;
                setting[slot] = asked[counted];
            }
            EXPECT(look.values[slot] == least[slot] && look.closed == (trial - 1) / N);
            EXPECT(de_checked_slot_setting(&state, sizeof state, slot, 0).real == setting[slot]);
        }
    }
}

int main(void) {
    campaigns();
    parents_beyond_bounds();
    by_hand();
    beyond_all_entries();
    least_results();
    return ended("C midpoint");
}
