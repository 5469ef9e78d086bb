/* Bad input at the C edge: each is answered, and the memory is as it was. Status 0 where all is as expected. */
#include <emkhurtov.h>

#include <math.h>
#include <stdio.h>
#include <stdlib.h>
#include <string.h>

#include "expect.h"

static const DeSetup setup = {
    .mutation_factor = 0.8, .crossover_rate = 0.9, .strategy = DE_RAND1, .sized = 1, .population_size = 4, .seed = 1};
static const DeDistribution quota = {.kind = DE_FLOAT, .low = 8.0, .high = 256.0};

static DeState state, before;

/* A call that must be answered by this kind and refusal and leave the memory. */
static void refused(DeCall call, const DeCompletedTrial *history, size_t count, uint64_t kind, uint64_t refusal) {
    before = state;
    DeAnswer a = de_checked_sample(&state, sizeof state, &call, history, count);
    EXPECT(a.kind == kind && a.refusal == refusal && a.draws == 0);
    EXPECT(memcmp(&state, &before, sizeof state) == 0);
}

static void pointers(void) {
    DeCall call = {.trial = 1, .distribution = quota};
    EXPECT(de_checked_new(NULL, sizeof state, &setup).kind == DE_NULL_POINTER);
    EXPECT(de_checked_new(&state, sizeof state, NULL).kind == DE_NULL_POINTER);
    EXPECT(de_checked_new(&state, sizeof state - 1, &setup).kind == DE_SHORT_BUFFER);
    EXPECT(de_checked_new((char *)&state + 1, sizeof state, &setup).kind == DE_MISALIGNED);
    EXPECT(de_checked_new(&state, sizeof state, &setup).kind == DE_MADE);
    before = state;
    EXPECT(de_checked_sample(NULL, sizeof state, &call, NULL, 0).kind == DE_NULL_POINTER);
    EXPECT(de_checked_sample(&state, sizeof state, NULL, NULL, 0).kind == DE_NULL_POINTER);
    EXPECT(de_checked_sample(&state, sizeof state, &call, NULL, 3).kind == DE_NULL_POINTER);
    EXPECT(de_checked_sample(&state, 8, &call, NULL, 0).kind == DE_SHORT_BUFFER);
    EXPECT(de_checked_look(NULL, sizeof state).kind == DE_NULL_POINTER);
    EXPECT(de_checked_look(&state, 0).kind == DE_SHORT_BUFFER);
    EXPECT(de_checked_slot_setting(NULL, sizeof state, 0, 0).kind == DE_NULL_POINTER);
    EXPECT(de_checked_slot_setting(&state, sizeof state - 1, 0, 0).kind == DE_SHORT_BUFFER);
    EXPECT(de_checked_slot_setting((char *)&state + 4, sizeof state, 0, 0).kind == DE_MISALIGNED);
    EXPECT(memcmp(&state, &before, sizeof state) == 0);
    /* A history of length 0 may be a null pointer. */
    EXPECT(de_checked_sample(&state, sizeof state, &call, NULL, 0).kind == DE_FLOAT);
}

static void numbers(void) {
    DeSetup s = setup;
    s.strategy = 3;
    before = state;
    EXPECT(de_checked_new(&state, sizeof state, &s).kind == DE_UNKNOWN);
    s = setup;
    s.sized = 2;
    EXPECT(de_checked_new(&state, sizeof state, &s).kind == DE_UNKNOWN);
    s = setup;
    s.mutation_factor = NAN;
    DeAnswer a = de_checked_new(&state, sizeof state, &s);
    EXPECT(a.kind == DE_REFUSED && a.refusal == DE_MUTATION_FACTOR);
    EXPECT(memcmp(&state, &before, sizeof state) == 0);

    DeCall call = {.trial = 1, .distribution = quota};
    call.distribution.kind = 0;
    refused(call, NULL, 0, DE_UNKNOWN, 0);
    call.distribution.kind = 4;
    refused(call, NULL, 0, DE_UNKNOWN, 0);
    call.distribution = quota;
    call.distribution.log_scale = 7;
    refused(call, NULL, 0, DE_UNKNOWN, 0);
    call.distribution.log_scale = 1;
    refused(call, NULL, 0, DE_REFUSED, DE_LOG_SCALE);
    call.distribution = quota;
    call.distribution.stepped = 2;
    refused(call, NULL, 0, DE_UNKNOWN, 0);
    call.distribution = quota;
    call.distribution.high = INFINITY;
    refused(call, NULL, 0, DE_REFUSED, DE_BOUNDS);
    call.distribution = (DeDistribution){.kind = DE_CHOICE, .n_choices = DE_MAX_CHOICES + 1};
    refused(call, NULL, 0, DE_REFUSED, DE_CHOICES);
    call.distribution = (DeDistribution){.kind = DE_INT, .whole_high = DE_MAX_WHOLE + 1};
    refused(call, NULL, 0, DE_REFUSED, DE_BOUNDS);
    call.distribution = (DeDistribution){.kind = DE_FLOAT, .high = 1.000000000000001e300};
    refused(call, NULL, 0, DE_REFUSED, DE_BOUNDS);
    call.distribution = (DeDistribution){.kind = DE_FLOAT, .high = DE_MAX_STEPS + 1, .stepped = DE_YES, .step = 1.0};
    refused(call, NULL, 0, DE_REFUSED, DE_STEP);
    DeCompletedTrial nan = {1, NAN, DE_COMPLETE};
    call.distribution = quota;
    refused(call, &nan, 1, DE_REFUSED, DE_HISTORY_NAN);

    DeSetting setting = {.kind = 9, .real = 1.0};
    EXPECT(de_to_internal(quota, setting).kind == DE_UNKNOWN);
    setting.kind = DE_FLOAT;
    DeInternal internal = de_to_internal(quota, setting);
    EXPECT(internal.kind == DE_INTERNAL_VALUE && internal.value == 1.0);
}

/* Memory that no sampler made. */
static void states(void) {
    DeCall call = {.trial = 1, .distribution = quota};
    static const unsigned char fillings[3] = {0x00, 0xff, 0x5a};
    for (int i = 0; i < 3; i++) {
        memset(&state, fillings[i], sizeof state);
        /* Zeros are not what set-up leaves: their unused dimensions name no kind. */
        refused(call, NULL, 0, DE_REFUSED, DE_STATE_NOT_SOUND);
        EXPECT(de_checked_look(&state, sizeof state).refusal == DE_STATE_NOT_SOUND);
        EXPECT(de_checked_look(&state, sizeof state).kind == DE_LOOK_REFUSED);
        DeAnswer slot = de_checked_slot_setting(&state, sizeof state, 0, 0);
        EXPECT(slot.kind == DE_REFUSED && slot.refusal == DE_STATE_NOT_SOUND);
        /* A number of the call that names no case is answered first. */
        DeCall unknown = {.trial = 1};
        refused(unknown, NULL, 0, DE_UNKNOWN, 0);
    }
    EXPECT(de_checked_new(&state, sizeof state, &setup).kind == DE_MADE);
    /* Fields that no kind or flag has a use for: any number, and the next setting zeroes it. */
    state.first = 77;
    state.dims[15].low = 3.0;
    EXPECT(de_checked_sample(&state, sizeof state, &call, NULL, 0).kind == DE_FLOAT);
    EXPECT(state.named == DE_YES && state.first == 1 && state.dims[15].low == 0.0);
    state.idle = 1;
    refused(call, NULL, 0, DE_REFUSED, DE_STATE_NOT_SOUND);
    state.idle = 0;
    state.dims[0].kind = 17;
    refused(call, NULL, 0, DE_REFUSED, DE_STATE_NOT_SOUND);
    state.dims[0].kind = DE_FLOAT;
    state.candidates[DE_MAX_TRIALS - 1].choices[DE_MAX_DIMENSIONS - 1] = 1;
    refused(call, NULL, 0, DE_REFUSED, DE_STATE_NOT_SOUND);
    state.candidates[DE_MAX_TRIALS - 1].choices[DE_MAX_DIMENSIONS - 1] = 0;
    EXPECT(de_checked_sample(&state, sizeof state, &call, NULL, 0).kind == DE_FLOAT);
}

/* The one number of 0 to 17 that no refusal has. */
enum { UNUSED = 11 };

static void words(void) {
    char numbers[40];
    snprintf(numbers, sizeof numbers, "%d.%d.%d", DE_VERSION_MAJOR, DE_VERSION_MINOR, DE_VERSION_PATCH);
    EXPECT(strcmp(de_version(), DE_VERSION) == 0 && strcmp(numbers, DE_VERSION) == 0);
    for (uint64_t i = 0; i <= DE_TOO_MANY; i++) {
        for (uint64_t j = i + 1; j <= DE_TOO_MANY + 1; j++) {
            int neither_is = i == UNUSED && j == DE_TOO_MANY + 1;
            EXPECT((strcmp(de_refusal_text(i), de_refusal_text(j)) == 0) == neither_is);
        }
    }
    EXPECT(strcmp(de_refusal_text(UNUSED), "no refusal has this number") == 0);
    EXPECT(strcmp(de_refusal_text(DE_TOO_MANY + 1), de_refusal_text(UINT64_MAX)) == 0);
}

static void defaults(void) {
    DeSetup s = DE_SETUP_DEFAULT;
    EXPECT(de_checked_new(&state, sizeof state, &s).kind == DE_MADE);
    EXPECT(s.mutation_factor == 0.8 && s.crossover_rate == 0.9 && s.strategy == DE_RAND1 && s.sized == DE_NO &&
           s.seed == 0);
}

/* A campaign in three dimensions, one of each kind, one trial at a time, of which trial `killed` is told as failed. It
 * lends the whole history or the last N results alone, and keeps what each trial ran with. */
enum { TRIALS = 4 * 9 + 2 };
typedef struct {
    DeAnswer settings[TRIALS][3];
    DeCompletedTrial history[TRIALS];
} Campaign;

static void campaign(Campaign *c, int whole, uint64_t killed) {
    static const DeDistribution depth = {
        .kind = DE_INT, .whole_low = 1, .whole_high = 64, .stepped = DE_YES, .whole_step = 3};
    static const DeDistribution scheduler = {.kind = DE_CHOICE, .n_choices = 4};
    const DeDistribution asked[3] = {quota, depth, scheduler};
    EXPECT(de_checked_new(&state, sizeof state, &setup).kind == DE_MADE);
    for (uint64_t trial = 0; trial < TRIALS; trial++) {
        uint64_t from = whole || trial < setup.population_size ? 0 : trial - setup.population_size;
        for (int i = 0; i < 3; i++) {
            DeCall call = {.trial = trial, .distribution = asked[i]};
            c->settings[trial][i] =
                de_checked_sample(&state, sizeof state, &call, c->history + from, (size_t)(trial - from));
            EXPECT(c->settings[trial][i].kind == asked[i].kind);
        }
        double away = c->settings[trial][0].real - 92.0;
        EXPECT(c->settings[trial][2].choice < scheduler.n_choices);
        double measured =
            away * away + (double)c->settings[trial][1].whole + 5.0 * (double)c->settings[trial][2].choice;
        c->history[trial] = (DeCompletedTrial){trial, measured, trial == killed ? DE_FAILED : DE_COMPLETE};
    }
}

static void lent_histories(void) {
    static Campaign whole, last;
    campaign(&whole, 1, 6);
    campaign(&last, 0, 6);
    EXPECT(memcmp(&whole, &last, sizeof whole) == 0);
}

/* A slot's settings are those of the trial whose value it holds. */
static void slots(void) {
    static Campaign c;
    EXPECT(de_checked_new(&state, sizeof state, &setup).kind == DE_MADE);
    EXPECT(de_checked_slot_setting(&state, sizeof state, 0, 0).kind == DE_NOTHING);
    campaign(&c, 1, UINT64_MAX);
    before = state;
    DeLook look = de_checked_look(&state, sizeof state);
    EXPECT(look.kind == DE_LOOK_BEST && look.n == 4 && look.closed == 9);
    for (uint64_t slot = 0; slot < look.n; slot++) {
        /* A tie keeps the later trial; the last one's generation is open. */
        uint64_t trial = TRIALS - 2;
        while (trial > 0 && c.history[trial].value != look.values[slot]) {
            trial--;
        }
        DeAnswer first = de_checked_slot_setting(&state, sizeof state, slot, 0);
        DeAnswer second = de_checked_slot_setting(&state, sizeof state, slot, 1);
        DeAnswer third = de_checked_slot_setting(&state, sizeof state, slot, 2);
        EXPECT(trial > 0 && first.draws == 0 && second.draws == 0 && third.draws == 0);
        EXPECT(first.kind == DE_FLOAT && first.real == c.settings[trial][0].real);
        EXPECT(second.kind == DE_INT && second.whole == c.settings[trial][1].whole);
        EXPECT(third.kind == DE_CHOICE && third.choice == c.settings[trial][2].choice);
    }
    EXPECT(de_checked_slot_setting(&state, sizeof state, 0, 3).kind == DE_NOTHING);
    EXPECT(de_checked_slot_setting(&state, sizeof state, 4, 0).kind == DE_NOTHING);
    EXPECT(de_checked_slot_setting(&state, sizeof state, UINT64_MAX, UINT64_MAX).kind == DE_NOTHING);
    EXPECT(memcmp(&state, &before, sizeof state) == 0);
}

/* A trial that is not told holds its generation up, and telling it frees the generation. */
static void a_waiting_generation(void) {
    DeCompletedTrial history[DE_MAX_EXTRA + 5];
    EXPECT(de_checked_new(&state, sizeof state, &setup).kind == DE_MADE);
    size_t count = 0;
    for (uint64_t trial = 0; trial <= 4 + DE_MAX_EXTRA; trial++) {
        DeCall call = {.trial = trial, .distribution = quota};
        EXPECT(de_checked_sample(&state, sizeof state, &call, history, count).kind == DE_FLOAT);
        if (trial != 2) {
            history[count++] = (DeCompletedTrial){trial, (double)trial, DE_COMPLETE};
        }
    }
    DeCall call = {.trial = 100, .distribution = quota};
    refused(call, history, count, DE_REFUSED, DE_EXTRA_TRIALS);
    history[count++] = (DeCompletedTrial){2, NAN, DE_FAILED};
    EXPECT(de_checked_sample(&state, sizeof state, &call, history, count).kind == DE_FLOAT);
    EXPECT(de_checked_look(&state, sizeof state).closed == 1);
}

int main(void) {
    EXPECT(de_layout_agrees());
    words();
    pointers();
    numbers();
    states();
    defaults();
    lent_histories();
    slots();
    a_waiting_generation();
    return ended("C edges");
}
