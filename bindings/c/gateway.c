/* The gateway campaign of bindings/rust/examples/gateway.rs from C: the same calls, the same table. */
#include <emkhurtov.h>

#include <stdio.h>
#include <stdlib.h>

enum { SLOTS = 12, SEED = 2026, TRIALS = 2 + 12 * SLOTS, DIMENSIONS = 4 };

static const char *const schedulers[4] = {"none", "mq-deadline", "kyber", "bfq"};

typedef struct {
    double quota;  /* the noisy container's block quota, MB/s */
    int64_t flush; /* how often dirty pages are flushed, ms */
    int64_t depth; /* requests in flight */
    int64_t scheduler;
} Settings;

static const DeDistribution dimensions[DIMENSIONS] = {
    {.kind = DE_FLOAT, .low = 8.0, .high = 256.0, .stepped = 1, .step = 0.5},
    {.kind = DE_INT, .whole_low = 5, .whole_high = 500, .stepped = 1, .whole_step = 5},
    {.kind = DE_INT, .whole_low = 1, .whole_high = 64},
    {.kind = DE_INT, .whole_low = 0, .whole_high = 3}, /* the scheduler: inherited, as a choice is not */
};

/* The stand-in for the measurement: the line controller's wait for a write (99th percentile, ms). */
static double measure(Settings s) {
    static const double base[4] = {3.1, 1.4, 0.9, 1.1};
    static const double suits[4] = {6.0, 18.0, 12.0, 30.0};
    double quota = (s.quota - 92.0) / 48.0;
    double flush = ((double)s.flush - 120.0) / 90.0;
    double depth = ((double)s.depth - suits[s.scheduler]) / 10.0;
    return base[s.scheduler] + 4.0 * quota * quota + 1.5 * flush * flush + depth * depth + 0.8 * quota * depth;
}

static void stop(const char *what, DeAnswer answer) {
    if (answer.kind == DE_REFUSED) {
        fprintf(stderr, "gateway: %s: refusal %llu: %s\n", what, (unsigned long long)answer.refusal,
                de_refusal_text(answer.refusal));
    } else {
        fprintf(stderr, "gateway: %s: answer of kind %llu\n", what, (unsigned long long)answer.kind);
    }
    exit(1);
}

static void take(Settings *s, int dimension, DeAnswer answer) {
    switch (answer.kind) {
    case DE_FLOAT:
        s->quota = answer.real;
        break;
    case DE_INT:
        *(dimension == 1 ? &s->flush : dimension == 2 ? &s->depth : &s->scheduler) = answer.whole;
        break;
    default:
        stop("a setting", answer);
    }
}

/* One trial's settings: its dimensions in order. */
static Settings ask(DeState *state, uint64_t trial, const DeCompletedTrial *history) {
    Settings s = {0};
    for (int i = 0; i < DIMENSIONS; i++) {
        DeCall call = {.trial = trial, .distribution = dimensions[i]};
        take(&s, i, de_checked_sample(state, sizeof *state, &call, history, (size_t)trial));
    }
    return s;
}

/* What a slot holds. */
static Settings held(const DeState *state, uint64_t slot) {
    Settings s = {0};
    for (int i = 0; i < DIMENSIONS; i++) {
        take(&s, i, de_checked_slot_setting(state, sizeof *state, slot, (uint64_t)i));
    }
    return s;
}

static DeLook look_at(const DeState *state) {
    DeLook look = de_checked_look(state, sizeof *state);
    if (look.kind != DE_LOOK_BEST && look.kind != DE_LOOK_NOTHING) {
        stop("look", (DeAnswer){.kind = look.kind, .refusal = look.refusal});
    }
    return look;
}

int main(void) {
    static DeState state;
    static DeCompletedTrial history[TRIALS];
    DeSetup setup = {.mutation_factor = 0.7,
                     .crossover_rate = 0.9,
                     .strategy = DE_CURRENT_TO_BEST1,
                     .sized = 1,
                     .population_size = SLOTS,
                     .seed = SEED};
    DeAnswer made = de_checked_new(&state, sizeof state, &setup);
    if (made.kind != DE_MADE) {
        stop("set-up", made);
    }
    printf("trial   gen  idle    quota  flush  depth  scheduler      p99 ms\n");
    for (uint64_t trial = 0; trial < TRIALS; trial++) {
        Settings s = ask(&state, trial, history);
        DeLook look = look_at(&state);
        double value = measure(s);
        int least = 1;
        for (uint64_t i = 0; i < trial; i++) {
            least = least && value < history[i].value;
        }
        printf("%5llu %5llu %5llu %8.1f %6lld %6lld  %-11s %9.3f%s\n", (unsigned long long)trial,
               (unsigned long long)look.closed, (unsigned long long)look.idle, s.quota, (long long)s.flush,
               (long long)s.depth, schedulers[s.scheduler], value, least ? " *" : "");
        history[trial] = (DeCompletedTrial){trial, value, DE_COMPLETE};
    }
    DeLook look = look_at(&state);
    double best = look.values[look.best];
    Settings s = held(&state, look.best);
    printf("\nbest: %.3f ms with quota %.1f MB/s, flush every %lld ms, depth %lld, %s (slot %llu)\n", best, s.quota,
           (long long)s.flush, (long long)s.depth, schedulers[s.scheduler], (unsigned long long)look.best);
    printf("generations closed: %llu; since the least value last became smaller: %llu\n",
           (unsigned long long)look.closed, (unsigned long long)look.idle);
    if (fflush(stdout) != 0) {
        fprintf(stderr, "gateway: standard output is closed\n");
        return 1;
    }
    return 0;
}
