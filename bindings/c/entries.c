/* Entries up to 4e300 in size, and beyond, in states that are handed in and in saved files. Status 0 where all is as
 * expected. */
#include <emkhurtov.h>

#include <float.h>
#include <math.h>
#include <string.h>

#include "entries.h"
#include "expect.h"
#include "states.h"

#define COUNT(table) (sizeof table / sizeof *table)
#define LIMIT 4e300
#define OVER 4.000000000000001e300 /* the next double */

static const double fit[] = {LIMIT, -LIMIT, 3.9999999999999996e300, -3e300, 1.1e300, -0.0, DBL_TRUE_MIN};
static const double unfit[] = {OVER,    -OVER,    5e300,    -5e300,    1e301, 1e308,       -1e308,
                               DBL_MAX, -DBL_MAX, INFINITY, -INFINITY, NAN,   -(double)NAN};

static Walk walk;
static DeState state, before;
static uint8_t file[DE_MAX_FILE], marked_file[DE_MAX_FILE], saved[DE_MAX_FILE];

static int filled(const void *memory, size_t size, int byte) {
    const unsigned char *bytes = memory;
    size_t i = 0;
    while (i < size && bytes[i] == byte) {
        i++;
    }
    return i == size;
}

/* ---- States that are handed in. */

static void refuses(const DeCall *call, const DeCompletedTrial *history, size_t count) {
    const DeAnswer expected = {.kind = DE_REFUSED, .refusal = DE_STATE_NOT_SOUND};
    DeAnswer a = de_checked_sample(&state, sizeof state, call, history, count);
    DeAnswer b = de_sample(&state, *call, history, count);
    EXPECT(memcmp(&a, &expected, sizeof a) == 0 && memcmp(&b, &expected, sizeof b) == 0);
}

/* The state is refused by every call, before all that is wrong with the call but a number that names no case, and
 * nothing is touched. */
static void is_unsound(void) {
    static DeCompletedTrial history[WALK_TRIALS + 1], lent[WALK_TRIALS + 1];
    const DeCall call = walk_call(&walk), backwards = {call.trial, {.kind = DE_FLOAT, .low = 1.0}},
                 unknown = {.trial = 9};
    before = state;
    memcpy(history, walk.history, walk.told * sizeof *history);
    history[walk.told] = (DeCompletedTrial){UINT64_MAX / 2, NAN, DE_COMPLETE};
    memcpy(lent, history, sizeof lent);
    refuses(&call, lent, walk.told);
    refuses(&call, lent, walk.told + 1);
    refuses(&backwards, lent, walk.told);
    EXPECT(de_sample(&state, unknown, lent, walk.told).kind == DE_UNKNOWN);
    EXPECT(memcmp(lent, history, sizeof lent) == 0);
    DeLook look = de_checked_look(&state, sizeof state), no_look = {.kind = DE_LOOK_REFUSED};
    EXPECT(memcmp(&look, &no_look, sizeof look) == 0 && no_look.refusal == DE_STATE_NOT_SOUND);
    DeAnswer slot = de_checked_slot_setting(&state, sizeof state, 0, 0);
    EXPECT(slot.kind == DE_REFUSED && slot.refusal == DE_STATE_NOT_SOUND);
    memset(file, 0xa5, sizeof file);
    DeFile f = de_checked_save(&state, sizeof state, file, sizeof file), g = de_save(&state, file, 0);
    EXPECT(f.kind == DE_REFUSED && f.refusal == DE_BAD_CONTENT && f.length == 0 && memcmp(&f, &g, sizeof f) == 0);
    EXPECT(filled(file, sizeof file, 0xa5) && memcmp(&state, &before, sizeof state) == 0);
}

/* The state is used: its slots and the call's answer are settings of their dimensions. */
static void is_sound(void) {
    const DeCall call = walk_call(&walk);
    DeLook look = de_checked_look(&state, sizeof state);
    EXPECT(look.kind == (state.closed >= 1 ? DE_LOOK_BEST : DE_LOOK_NOTHING));
    for (uint64_t i = 0; i < look.n * state.n_dims; i++) {
        DeAnswer slot = de_checked_slot_setting(&state, sizeof state, i / state.n_dims, i % state.n_dims);
        EXPECT(within(slot, state.dims[i % state.n_dims]));
    }
    EXPECT(within(de_checked_sample(&state, sizeof state, &call, walk.history, walk.told), call.distribution));
    EXPECT(at_most(&state, LIMIT));
}

/* Every value in every place of the walk's state, one at a time. */
static void each_entry(void) {
    uint64_t place = 0;
    for (; entry_at(&walk.state, place) != NULL; place++) {
        for (size_t i = 0; i < COUNT(fit) + COUNT(unfit); i++) {
            state = walk.state;
            *entry_at(&state, place) = i < COUNT(fit) ? fit[i] : unfit[i - COUNT(fit)];
            if (i < COUNT(fit)) {
                is_sound();
            } else {
                is_unsound();
            }
        }
    }
    /* A place that is not in use is zero. */
    state = walk.state;
    state.candidates[0].x[entries_of(&state)] = LIMIT;
    is_unsound();
    EXPECT(place >= entries_of(&state) * state.n);
}

/* ---- Files. */

/* The marked file, with `value` for the word that is `marked`, which no other is. */
static void put_for(double marked, double value, size_t length) {
    size_t places = 0;
    memcpy(file, marked_file, length);
    for (size_t at = 8; at < length; at += at % 32 == 24 ? 16 : 8) {
        if (memcmp(file + at, &marked, sizeof marked) == 0) {
            memcpy(file + at, &value, sizeof value);
            places++;
        }
    }
    EXPECT(places == 1);
}

/* Files of the walk's state with every value in a place: those that fit are restored and saved again as they were, the
 * others refused. */
static void read_at(uint64_t place) {
    const double marked = 1.2345678e299;
    state = walk.state;
    *entry_at(&state, place) = marked;
    size_t length = (size_t)de_save(&state, marked_file, sizeof marked_file).length;
    EXPECT(length > 0);
    for (size_t i = 0; i < COUNT(fit); i++) {
        put_for(marked, fit[i], length);
        *entry_at(&state, place) = fit[i];
        EXPECT(de_checked_restore(&before, sizeof before, file, length).kind == DE_RESTORED);
        EXPECT(memcmp(&before, &state, sizeof state) == 0);
        EXPECT(de_checked_save(&state, sizeof state, saved, length).kind == DE_SAVED);
        EXPECT(memcmp(file, saved, length) == 0);
    }
    for (size_t i = 0; i < COUNT(unfit); i++) {
        put_for(marked, unfit[i], length);
        memset(&before, 0x5a, sizeof before);
        DeFile f = de_checked_restore(&before, sizeof before, file, length);
        EXPECT(f.kind == DE_REFUSED && f.refusal == DE_BAD_CONTENT && f.length == 0);
        EXPECT(filled(&before, sizeof before, 0x5a));
    }
}

/* Before a closing and after it, with fewer open trials than slots and with extras. */
static void handed_in(void) {
    static const struct {
        uint64_t size, d, lag, closed, trials;
    } states[] = {{4, 1, 0, 0, 1}, {4, 5, 0, 2, 2}, {5, 3, 8, 1, 7}};
    for (uint64_t rule = DE_CLAMP; rule <= DE_MIDPOINT; rule++) {
        for (size_t i = 0; i < COUNT(states); i++) {
            walk_begin_by(&walk, rule, DE_CURRENT_TO_BEST1, states[i].size, states[i].d, states[i].lag);
            while (walk.state.closed < states[i].closed || walk.state.n_trials < states[i].trials) {
                walk_on(&walk);
            }
            each_entry();
            for (uint64_t place = 0; rule == DE_CLAMP && entry_at(&walk.state, place) != NULL; place++) {
                read_at(place);
            }
        }
    }
}

int main(void) {
    handed_in();
    return ended("C entries");
}
