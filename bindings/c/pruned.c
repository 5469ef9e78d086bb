/* Trials that were pruned or that failed: what their entries count as, which entry of a number counts, states that name
 * no case, and the state of the entries that an export is read into. Status 0 where all is as expected. */
#include <emkhurtov.h>

#include <math.h>
#include <string.h>

#include "expect.h"

enum { SLOTS = 4, MANY = 1000 };
#define COUNT(table) (sizeof table / sizeof *table)

static const DeDistribution depth = {.kind = DE_INT, .whole_low = 1, .whole_high = 64};
static const DeDistribution bad_bounds = {.kind = DE_INT, .whole_low = 2, .whole_high = 1};
static const uint64_t unknown[] = {3, 255, UINT64_C(1) << 32, (UINT64_C(1) << 32) + 1, UINT64_C(1) << 63, UINT64_MAX};

static DeState state, before;

static DeAnswer ask(uint64_t trial, const DeCompletedTrial *history, size_t n) {
    DeCall call = {trial, depth};
    return de_checked_sample(&state, sizeof state, &call, history, n);
}

static void asked(uint64_t trial, const DeCompletedTrial *history, size_t n) {
    EXPECT(ask(trial, history, n).kind == DE_INT);
}

/* A call that must be answered by this kind and refusal, with 0 in every other field, and leave the memory: by the
 * checked function and by the proved one. */
static void answered(DeCall call, const DeCompletedTrial *history, size_t n, uint64_t kind, uint64_t refusal) {
    DeAnswer expected = {.kind = kind, .refusal = refusal};
    before = state;
    DeAnswer a = de_checked_sample(&state, sizeof state, &call, history, n);
    DeAnswer b = de_sample(&state, call, history, n);
    EXPECT(memcmp(&a, &expected, sizeof a) == 0 && memcmp(&b, &expected, sizeof b) == 0);
    EXPECT(memcmp(&state, &before, sizeof state) == 0);
}

/* The same of a call for the dimension that is asked for everywhere. */
static void refused(uint64_t trial, const DeCompletedTrial *history, size_t n, uint64_t kind, uint64_t refusal) {
    answered((DeCall){trial, depth}, history, n, kind, refusal);
}

static void made(void) {
    DeSetup setup = DE_SETUP_DEFAULT;
    setup.sized = DE_YES;
    setup.population_size = SLOTS;
    EXPECT(de_checked_new(&state, sizeof state, &setup).kind == DE_MADE);
}

/* A sampler whose discovery is over, and the first generation's trials 1 to 4 under way. */
static void begin(void) {
    made();
    for (uint64_t trial = 0; trial <= SLOTS; trial++) {
        asked(trial, NULL, 0);
    }
}

/* What a look shows now. */
static void looks(const double values[SLOTS], uint64_t best, uint64_t closed, uint64_t idle) {
    DeLook look = de_checked_look(&state, sizeof state);
    EXPECT(look.kind == DE_LOOK_BEST && look.n == SLOTS && look.best == best);
    EXPECT(look.closed == closed && look.idle == idle);
    EXPECT(memcmp(look.values, values, SLOTS * sizeof *values) == 0);
}

/* A generation closes by incomplete trials as by others, and no value of theirs is the least. */
static void they_count_as_infinity(void) {
    static const double first[SLOTS] = {INFINITY, INFINITY, 7.0, 5.0}, second[SLOTS] = {9.0, INFINITY, 7.0, 5.0};
    DeCompletedTrial history[] = {
        {1, 0.5, DE_PRUNED}, {2, NAN, DE_FAILED}, {3, 7.0, DE_COMPLETE}, {4, 5.0, DE_COMPLETE}};
    begin();
    asked(5, history, SLOTS);
    looks(first, 3, 1, 0);
    /* Trials 5 to 8 are the next generation's. */
    for (uint64_t trial = 6; trial <= 8; trial++) {
        asked(trial, history, SLOTS);
    }
    DeCompletedTrial next[] = {
        {5, 9.0, DE_COMPLETE}, {6, -INFINITY, DE_FAILED}, {7, -1.0, DE_PRUNED}, {8, NAN, DE_PRUNED}};
    asked(9, next, SLOTS);
    looks(second, 3, 2, 1);
}

/* One campaign is told incomplete trials, its twin complete ones of +infinity: they go on alike, to the last bit. */
static void as_if_told_infinity(void) {
    enum { TRIALS = 60 };
    static const uint64_t states[5] = {DE_COMPLETE, DE_PRUNED, DE_COMPLETE, DE_FAILED, DE_COMPLETE};
    static const double figures[5] = {0.0, -INFINITY, NAN, 1e300, -1e300};
    static DeCompletedTrial history[TRIALS], twins[TRIALS];
    made();
    DeState twin = state;
    for (uint64_t trial = 0; trial < TRIALS; trial++) {
        DeCall call = {trial, depth};
        DeAnswer a = ask(trial, history, (size_t)trial);
        DeAnswer b = de_checked_sample(&twin, sizeof twin, &call, twins, (size_t)trial);
        EXPECT(a.kind == DE_INT && memcmp(&a, &b, sizeof a) == 0 && memcmp(&state, &twin, sizeof state) == 0);
        uint64_t mixed = trial * 7919 % 1009, how = states[mixed % 5];
        double measured = (double)mixed;
        history[trial] = (DeCompletedTrial){trial, how == DE_COMPLETE ? measured : figures[trial % 5], how};
        twins[trial] = (DeCompletedTrial){trial, how == DE_COMPLETE ? measured : (double)INFINITY, DE_COMPLETE};
    }
    EXPECT(de_checked_look(&state, sizeof state).closed == (TRIALS - 2) / SLOTS);
}

/* The last entry of a number counts, whatever its state. */
static void the_last_entry_counts(void) {
    static const struct {
        DeCompletedTrial entries[2];
        double counted;
    } rows[] = {
        {{{2, 1.0, DE_COMPLETE}, {2, 1.0, DE_FAILED}}, INFINITY},
        {{{2, 1.0, DE_COMPLETE}, {2, NAN, DE_PRUNED}}, INFINITY},
        {{{2, NAN, DE_FAILED}, {2, 1.0, DE_COMPLETE}}, 1.0},
        {{{2, 1.0, DE_PRUNED}, {2, 9.0, DE_COMPLETE}}, 9.0},
        {{{2, 1.0, DE_PRUNED}, {2, 2.0, DE_FAILED}}, INFINITY},
        {{{2, 1.0, DE_COMPLETE}, {2, 3.0, DE_COMPLETE}}, 3.0},
    };
    for (size_t i = 0; i < COUNT(rows); i++) {
        DeCompletedTrial history[] = {{1, 4.0, 0},        rows[i].entries[0], {3, 6.0, 0},
                                      rows[i].entries[1], {4, 8.0, 0},        {77, 0.0, DE_FAILED}};
        double values[SLOTS] = {4.0, rows[i].counted, 6.0, 8.0};
        begin();
        asked(5, history, COUNT(history));
        looks(values, rows[i].counted < 4.0 ? 1 : 0, 1, 0);
    }
}

/* NaN in a complete entry is refusal 8, wherever it stands and whether or not the entry counts; in others it is not. */
static void nans(void) {
    static const uint64_t patterns[] = {UINT64_C(0x7ff8000000000000), UINT64_C(0xfff8000000000001),
                                        UINT64_C(0x7ff0000000000001), UINT64_MAX};
    for (size_t i = 0; i < COUNT(patterns); i++) {
        double nan;
        memcpy(&nan, patterns + i, sizeof nan);
        for (size_t at = 0; at < SLOTS + 1; at++) {
            for (uint64_t same = 0; same <= 1; same++) {
                DeCompletedTrial history[] = {{1, 1.0, 0}, {2, 2.0, 0}, {3, 3.0, 0}, {4, 4.0, 0}, {4, 5.0, DE_FAILED}};
                history[at].value = nan;
                /* The entry of a trial that is waited for, or one that nobody asks for. */
                history[at].number = same == 1 ? history[at].number : 77;
                begin();
                history[at].state = DE_COMPLETE;
                refused(5, history, COUNT(history), DE_REFUSED, DE_HISTORY_NAN);
                for (uint64_t how = DE_PRUNED; how <= DE_FAILED; how++) {
                    begin();
                    history[at].state = how;
                    asked(5, history, COUNT(history));
                }
            }
        }
    }
}

/* A state that names no case, in any entry. */
static void unknown_states(void) {
    static DeCompletedTrial history[MANY];
    for (uint64_t i = 0; i < MANY; i++) {
        history[i] = (DeCompletedTrial){i + 1, (double)i, i % 3};
    }
    static const size_t places[] = {0, 1, 3, MANY / 2, MANY - 1};
    for (size_t i = 0; i < COUNT(unknown); i++) {
        for (size_t k = 0; k < COUNT(places); k++) {
            uint64_t known = history[places[k]].state;
            history[places[k]].state = unknown[i];
            /* In discovery, in the call that would end it, and in calls that would close the generation of trials 1 to
             * 4: all entries but theirs are of trials that nobody asks for. */
            made();
            refused(0, history, MANY, DE_UNKNOWN, 0);
            asked(0, NULL, 0);
            refused(0, history, MANY, DE_UNKNOWN, 0);
            refused(1, history, MANY, DE_UNKNOWN, 0);
            begin();
            refused(4, history, MANY, DE_UNKNOWN, 0);
            refused(5, history, MANY, DE_UNKNOWN, 0);
            /* What stands before the entry, or behind it, is lent well. */
            asked(5, history, places[k]);
            asked(6, history + places[k] + 1, MANY - places[k] - 1);
            history[places[k]].state = known;
        }
        DeCompletedTrial only = {77, NAN, unknown[i]};
        begin();
        refused(5, &only, 1, DE_UNKNOWN, 0);
    }
    begin();
    asked(5, history, MANY);
    EXPECT(de_checked_look(&state, sizeof state).closed == 1);
}

/* Such a state is answered before every refusal of the call. */
static void unknown_states_first(void) {
    for (size_t i = 0; i < COUNT(unknown); i++) {
        DeCompletedTrial bad = {77, 1.0, unknown[i]};
        DeCompletedTrial nan_before[] = {{1, NAN, DE_COMPLETE}, bad}, nan_behind[] = {bad, {1, NAN, DE_COMPLETE}};
        DeCall call = {5, bad_bounds};
        /* 0, of memory whose own numbers name no case. */
        memset(&state, 0xff, sizeof state);
        refused(5, NULL, 0, DE_REFUSED, DE_STATE_NOT_SOUND);
        refused(5, &bad, 1, DE_UNKNOWN, 0);
        answered(call, nan_before, 2, DE_UNKNOWN, 0);
        /* 4 to 7 */
        begin();
        answered(call, NULL, 0, DE_REFUSED, DE_BOUNDS);
        answered(call, &bad, 1, DE_UNKNOWN, 0);
        call.distribution = (DeDistribution){.kind = DE_FLOAT, .high = 1.0, .log_scale = DE_YES};
        answered(call, NULL, 0, DE_REFUSED, DE_LOG_SCALE);
        answered(call, &bad, 1, DE_UNKNOWN, 0);
        call.distribution = (DeDistribution){.kind = DE_FLOAT, .high = 1.0, .stepped = DE_YES};
        answered(call, NULL, 0, DE_REFUSED, DE_STEP);
        answered(call, &bad, 1, DE_UNKNOWN, 0);
        call.distribution = (DeDistribution){.kind = DE_CHOICE};
        answered(call, NULL, 0, DE_REFUSED, DE_CHOICES);
        answered(call, &bad, 1, DE_UNKNOWN, 0);
        /* 8 */
        refused(5, nan_before, 1, DE_REFUSED, DE_HISTORY_NAN);
        refused(5, nan_before, 2, DE_UNKNOWN, 0);
        refused(5, nan_behind, 2, DE_UNKNOWN, 0);
        /* 10 */
        for (uint64_t trial = 5; trial < 5 + DE_MAX_EXTRA; trial++) {
            asked(trial, NULL, 0);
        }
        refused(100, NULL, 0, DE_REFUSED, DE_EXTRA_TRIALS);
        refused(100, &bad, 1, DE_UNKNOWN, 0);
        /* 9 */
        made();
        for (int k = 0; k < DE_MAX_DIMENSIONS; k++) {
            asked(0, NULL, 0);
        }
        refused(0, NULL, 0, DE_REFUSED, DE_DIMENSIONS);
        refused(0, &bad, 1, DE_UNKNOWN, 0);
    }
}

/* Who writes number and value alone into zeros has told a complete trial. */
static void zeros(void) {
    static const double values[SLOTS] = {3.0, 1.0, 2.0, 4.0};
    DeCompletedTrial history[SLOTS];
    memset(history, 0, sizeof history);
    history[0].number = 1;
    history[0].value = 3.0;
    history[1] = (DeCompletedTrial){.number = 2, .value = 1.0};
    history[2] = (DeCompletedTrial){.value = 2.0, .number = 3};
    history[3] = (DeCompletedTrial){.number = 4, .value = 4.0, .state = DE_COMPLETE};
    begin();
    asked(5, history, SLOTS);
    looks(values, 1, 1, 0);
}

/* What an export's lines are read as is complete, whatever stood in the lent memory; an entry past them is untouched,
 * and so is each on a refusal. A killed trial is told behind them. */
static void exports(void) {
    static const char text[] = "1,3\n2,0.5\n3,2\n4,4\n";
    static const uint64_t stood[] = {DE_COMPLETE, DE_PRUNED, DE_FAILED, 3, UINT64_MAX};
    static const double values[SLOTS] = {3.0, INFINITY, 2.0, 4.0}, read[SLOTS] = {3.0, 0.5, 2.0, 4.0};
    size_t length = sizeof text - 1;
    for (size_t i = 0; i < COUNT(stood); i++) {
        DeCompletedTrial history[SLOTS + 2], filled[SLOTS + 2];
        for (size_t k = 0; k < COUNT(history); k++) {
            history[k] = filled[k] = (DeCompletedTrial){70 + k, NAN, stood[i]};
        }
        EXPECT(de_checked_read_history(text, length, history, SLOTS - 1).refusal == DE_SHORT_HISTORY);
        EXPECT(de_checked_read_history(text, length - 1, history, COUNT(history)).refusal == DE_MALFORMED_LINE);
        EXPECT(memcmp(history, filled, sizeof history) == 0);
        DeRead r = de_checked_read_history(text, length, history, COUNT(history));
        EXPECT(r.kind == DE_READ && r.count == SLOTS);
        for (size_t k = 0; k < SLOTS; k++) {
            EXPECT(history[k].number == k + 1 && history[k].value == read[k] && history[k].state == DE_COMPLETE);
        }
        EXPECT(memcmp(history + SLOTS, filled + SLOTS, 2 * sizeof *history) == 0);
        history[SLOTS] = (DeCompletedTrial){2, NAN, DE_FAILED};
        begin();
        asked(5, history, SLOTS + 1);
        looks(values, 2, 1, 0);
    }
}

int main(void) {
    DeMarks m = de_marks();
    EXPECT(de_layout_agrees());
    /* an entry as this file was compiled to see it, against the library's own numbers */
    EXPECT(m.trial.number == 1 && m.trial.value == 2.0 && m.trial.state == 3 && m.after_trial == 8);
    they_count_as_infinity();
    as_if_told_infinity();
    the_last_entry_counts();
    nans();
    unknown_states();
    unknown_states_first();
    zeros();
    exports();
    return ended("C pruned and failed trials");
}
