/* Ladders, held against a second reading of document 02 (W9): which are refused, what is drawn, and how entries are
 * decoded. Status 0 where all is as expected. */
#include <emkhurtov.h>

#include <string.h>

#include "entries.h"
#include "expect.h"
#include "second_generation.h"

enum { SLOTS = 4 };
#define COUNT(table) (sizeof table / sizeof *table)
#define LADDER(low, high)                                                                                              \
    { .kind = DE_INT, .whole_low = low, .whole_high = high, .log_scale = DE_YES }

static DeState state, before;

/* Around one rung, around a number that is none, around the powers of two, and the widest. */
static const DeDistribution ladders[] = {
    LADDER(1, 64),
    LADDER(1, 1),
    LADDER(1, 2),
    LADDER(2, 2),
    LADDER(3, 5),
    LADDER(5, 6),
    LADDER(373, 374),
    LADDER(374, 374),
    LADDER(374, 375),
    LADDER(1000, 1000000),
    LADDER(65535, 65537),
    LADDER(DE_MAX_LADDER / 2, DE_MAX_LADDER - 1),
    LADDER(1, DE_MAX_LADDER - 1),
    LADDER(2, DE_MAX_LADDER),
    LADDER(DE_MAX_LADDER - 1, DE_MAX_LADDER),
    LADDER(DE_MAX_LADDER, DE_MAX_LADDER),
    LADDER(1, DE_MAX_LADDER),
};

static void begin(uint64_t rule, uint64_t strategy, uint64_t size, uint64_t seed) {
    DeSetup setup = {0.8, 0.9, strategy, size != 0, size, seed, rule};
    EXPECT(de_checked_new(&state, sizeof state, &setup).kind == DE_MADE);
}

/* ---- The second reading itself: the rule, and by hand the header's table. */

static void rungs_by_hand(void) {
    static const struct {
        int64_t setting;
        int first, positions;
    } rows[] = {{1, 0, 256},  {2, 256, 150},  {3, 406, 106},  {4, 512, 83},  {5, 595, 67},
                {8, 768, 44}, {16, 1024, 23}, {32, 1280, 12}, {63, 1531, 5}, {64, 1536, 1}};
    EXPECT(second_rungs() == LAST_POSITION + 1);
    EXPECT(rungs[0] == 1 && rungs[384] == 2 && rungs[7680] == DE_MAX_LADDER / 2 && rungs[7936] == DE_MAX_LADDER);
    EXPECT(second_inner_low(1) == 0 && second_inner_low(2) == 255 && second_inner_low(3) == 405);
    EXPECT(second_inner_high(1) == 0 && second_inner_high(2) == 256 && second_inner_high(64) == 1536);
    EXPECT(second_inner_low(DE_MAX_LADDER) == 7935 && second_inner_high(DE_MAX_LADDER) == 7936);
    for (size_t i = 0; i < COUNT(rows); i++) {
        int positions = 0;
        for (int p = 0; p <= 1536; p++) {
            positions += rungs[p] == rows[i].setting;
        }
        EXPECT(rungs[rows[i].first] == rows[i].setting && positions == rows[i].positions);
        EXPECT(rows[i].first == 0 || rungs[rows[i].first - 1] < rows[i].setting);
    }
    /* 374 is the first whole number that is no rung. */
    for (int64_t k = 1; k <= 374; k++) {
        EXPECT((rungs[second_inner_high(k)] == k) == (k < 374));
    }
}

/* ---- Refusals 4 and 5. */

#define STEPPED(low, high, step)                                                                                       \
    { .kind = DE_INT, .whole_low = low, .whole_high = high, .log_scale = DE_YES, .stepped = DE_YES, .whole_step = step }
#define FLOAT_LOG(l, h)                                                                                                \
    { .kind = DE_FLOAT, .low = l, .high = h, .log_scale = DE_YES }

static const struct {
    DeDistribution d;
    uint64_t refusal;
} refused[] = {
    {LADDER(0, 64), DE_LOG_SCALE},
    {LADDER(0, 0), DE_LOG_SCALE},
    {LADDER(-5, 64), DE_LOG_SCALE},
    {LADDER(-DE_MAX_WHOLE, DE_MAX_WHOLE), DE_LOG_SCALE},
    {LADDER(1, DE_MAX_LADDER + 1), DE_LOG_SCALE},
    {LADDER(DE_MAX_LADDER + 1, DE_MAX_LADDER + 1), DE_LOG_SCALE},
    {LADDER(1, DE_MAX_WHOLE), DE_LOG_SCALE},
    {LADDER(0, DE_MAX_LADDER + 1), DE_LOG_SCALE},
    /* A step, a bad one too: 5 comes before 6. */
    {STEPPED(1, 64, 1), DE_LOG_SCALE},
    {STEPPED(1, 64, 0), DE_LOG_SCALE},
    {STEPPED(1, 64, -1), DE_LOG_SCALE},
    {STEPPED(1, 64, DE_MAX_WHOLE + 1), DE_LOG_SCALE},
    {STEPPED(0, 64, 3), DE_LOG_SCALE},
    {FLOAT_LOG(1.0, 64.0), DE_LOG_SCALE},
    {FLOAT_LOG(0.0, 0.0), DE_LOG_SCALE},
    {{.kind = DE_FLOAT, .low = 1.0, .high = 64.0, .log_scale = DE_YES, .stepped = DE_YES}, DE_LOG_SCALE},
    /* 4 comes before 5. */
    {LADDER(3, 2), DE_BOUNDS},
    {LADDER(1, 0), DE_BOUNDS},
    {LADDER(0, -1), DE_BOUNDS},
    {LADDER(1, DE_MAX_WHOLE + 1), DE_BOUNDS},
    {LADDER(-DE_MAX_WHOLE - 1, 64), DE_BOUNDS},
    {LADDER(INT64_MIN, INT64_MAX), DE_BOUNDS},
    {STEPPED(3, 2, 0), DE_BOUNDS},
    {FLOAT_LOG(2.0, 1.0), DE_BOUNDS},
    {FLOAT_LOG(1.0, 2e300), DE_BOUNDS},
    /* Without the flag a bad step is 6 as before. */
    {{.kind = DE_INT, .whole_low = 1, .whole_high = 64, .stepped = DE_YES}, DE_STEP},
};

static void each_refused(uint64_t trial) {
    for (size_t i = 0; i < COUNT(refused); i++) {
        const DeAnswer expected = {.kind = DE_REFUSED, .refusal = refused[i].refusal};
        DeCall call = {trial, refused[i].d};
        before = state;
        DeAnswer a = de_checked_sample(&state, sizeof state, &call, NULL, 0), b = de_sample(&state, call, NULL, 0);
        EXPECT(memcmp(&a, &expected, sizeof a) == 0 && memcmp(&b, &expected, sizeof b) == 0);
        EXPECT(memcmp(&state, &before, sizeof state) == 0);
    }
}

/* In discovery, by the call that would end it, and after it. */
static void refusals(void) {
    begin(DE_MIDPOINT, DE_RAND1, SLOTS, 1);
    each_refused(0);
    DeCall call = {0, ladders[0]};
    EXPECT(de_checked_sample(&state, sizeof state, &call, NULL, 0).kind == DE_INT);
    each_refused(0);
    each_refused(1);
    call.trial = 1;
    EXPECT(de_checked_sample(&state, sizeof state, &call, NULL, 0).kind == DE_INT && state.discovered == DE_YES);
    each_refused(1);
    each_refused(2);
}

/* de_to_internal has the same refusals, and 5 for each ladder, whatever the setting; a setting that names no case is
 * answered before them. */
static void internals(void) {
    const DeSetting settings[] = {{.kind = DE_INT, .whole = 8},
                                  {.kind = DE_INT, .whole = DE_MAX_WHOLE + 1},
                                  {.kind = DE_FLOAT, .real = 8.0},
                                  {.kind = DE_CHOICE, .choice = 8}};
    const DeDistribution linear = {.kind = DE_INT, .whole_low = 1, .whole_high = 64};
    for (size_t k = 0; k < COUNT(settings); k++) {
        for (size_t i = 0; i < COUNT(refused) + COUNT(ladders); i++) {
            const DeInternal expected = {.kind = DE_REFUSED,
                                         .refusal = i < COUNT(refused) ? refused[i].refusal : DE_LOG_SCALE};
            DeDistribution d = i < COUNT(refused) ? refused[i].d : ladders[i - COUNT(refused)];
            DeInternal a = de_to_internal(d, settings[k]);
            EXPECT(memcmp(&a, &expected, sizeof a) == 0);
            EXPECT(de_to_internal(d, (DeSetting){.kind = 9}).kind == DE_UNKNOWN);
        }
    }
    EXPECT(de_to_internal(linear, settings[0]).value == 8.0);
    EXPECT(de_to_internal(linear, settings[1]).refusal == DE_BOUNDS);
}

/* ---- Draws: one each, in discovery and past the last dimension. */

/* A call that draws its setting from the ladder that it lends. */
static int64_t drawn(uint64_t trial, DeDistribution d) {
    Generation g = {.word = state.word};
    int64_t expected = second_drawn(drawn_output(&g), &d);
    DeCall call = {trial, d};
    DeAnswer a = de_checked_sample(&state, sizeof state, &call, NULL, 0);
    EXPECT(a.kind == DE_INT && a.whole == expected && within(a, d));
    EXPECT(a.draws == 1 && state.word == g.word && a.real == 0.0 && a.choice == 0 && a.refusal == 0);
    return a.whole;
}

static void draws(void) {
    for (size_t i = 0; i < COUNT(ladders); i++) {
        for (uint64_t seed = 0; seed < 100; seed++) {
            begin(DE_CLAMP, DE_RAND1, SLOTS, seed);
            drawn(0, ladders[i]);
            drawn(0, ladders[(i + 1) % COUNT(ladders)]);
        }
        /* Past the last dimension by the ladder that is lent, whatever the stored one is. */
        DeCall call = {1, ladders[i]};
        EXPECT(de_checked_sample(&state, sizeof state, &call, NULL, 0).draws == 2 * SLOTS);
        EXPECT(de_checked_sample(&state, sizeof state, &call, NULL, 0).draws == 0);
        for (size_t k = 0; k < 100; k++) {
            drawn(1, ladders[k % COUNT(ladders)]);
        }
    }
    /* Every setting of 1 to 64. */
    size_t met[65] = {0}, settings = 0;
    for (int k = 0; k < 40000; k++) {
        int64_t setting = drawn(1, ladders[0]);
        met[setting >= 1 && setting <= 64 ? setting : 0]++;
    }
    for (int64_t k = 1; k <= 64; k++) {
        settings += met[k] > 0;
    }
    EXPECT(settings == 64);
}

/* ---- Decoding: entries put into a candidate and into a parent, as no call leaves them too. */

static double just_below(double x) {
    uint64_t word;
    memcpy(&word, &x, sizeof word);
    word--;
    memcpy(&x, &word, sizeof x);
    return x;
}

/* Trial 10's candidate and slot 2 hold the entry. The lent distribution does not decide. */
static void decodes(double entry, DeDistribution stored, DeDistribution lent) {
    int64_t expected = second_decoded(entry, &stored);
    DeCall call = {10, lent};
    state.trials[0].next_dim = 0;
    state.candidates[0].x[0] = state.parents[2].candidate.x[0] = entry;
    uint64_t word = state.word;
    DeAnswer a = de_checked_sample(&state, sizeof state, &call, NULL, 0);
    EXPECT(a.kind == DE_INT && a.whole == expected && a.draws == 0 && state.word == word);
    a = de_checked_slot_setting(&state, sizeof state, 2, 0);
    EXPECT(a.kind == DE_INT && a.whole == expected && a.draws == 0);
}

static void decoding(void) {
    static const double others[] = {0.0,  -0.0,  5e-324, 0.49999999999999994, 0.5,     -0.5,   -0.4, -1.0,
                                    -1e9, 4e300, -4e300, 4503599627370497.5,  7935.75, 7936.5, 1e15, 0.25};
    static const DeDistribution linear = {.kind = DE_INT, .whole_low = 1, .whole_high = 64};
    for (size_t i = 0; i < COUNT(ladders); i++) {
        DeDistribution d = ladders[i];
        const DeCompletedTrial told[SLOTS] = {
            {1, 1.0, DE_COMPLETE}, {2, 1.0, DE_COMPLETE}, {3, 1.0, DE_COMPLETE}, {4, 1.0, DE_COMPLETE}};
        begin(i % 2, DE_BEST1, SLOTS, i);
        for (uint64_t trial = 0; trial <= SLOTS; trial++) {
            DeCall call = {trial, d};
            EXPECT(de_checked_sample(&state, sizeof state, &call, NULL, 0).kind == DE_INT);
        }
        DeCall call = {10, d};
        EXPECT(de_checked_sample(&state, sizeof state, &call, told, SLOTS).kind == DE_INT && state.closed == 1);
        int low = second_inner_low(d.whole_low), high = second_inner_high(d.whole_high);
        for (int p = low - 2; p <= high + 2; p++) {
            decodes(p, d, d);
            /* Between the positions, on the widest ladders at some of them. */
            if (p >= 0 && (high - low < 2000 || p % 5 == 0)) {
                decodes(p + 0.5, d, linear);
                decodes(just_below(p + 0.5), d, ladders[0]);
                decodes(p + 0.25, d, d);
            }
        }
        for (size_t k = 0; k < COUNT(others); k++) {
            decodes(others[k], d, d);
        }
    }
}

int main(void) {
    rungs_by_hand();
    refusals();
    internals();
    draws();
    decoding();
    return ended("C ladder");
}
