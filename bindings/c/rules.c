/* The bounds rule in set-ups, states and files: set-ups that name none, rules that name no case, and midpoint, for
 * which a file has no place. Status 0 where all is as expected. */
#include <emkhurtov.h>

#include <math.h>
#include <string.h>

#include "expect.h"
#include "states.h"

enum { SLOTS = 4, MORE = 64, OLD_SIZE = 67704 /* of a state before there were rules */ };
#define COUNT(table) (sizeof table / sizeof *table)

static Walk walk;
static DeState state, before, again, twin;
static uint8_t file[DE_MAX_FILE + MORE];

/* ---- Set-ups. */

/* Set-ups that do not name a rule are clamp, to the last bit. */
static void old_set_ups(void) {
#pragma GCC diagnostic push
#pragma GCC diagnostic ignored "-Wmissing-field-initializers"
    const DeSetup by_place = {0.8, 0.9, DE_RAND1, DE_NO, 0, 0};
#pragma GCC diagnostic pop
    const DeSetup by_name = {.mutation_factor = 0.8, .crossover_rate = 0.9}, by_default = DE_SETUP_DEFAULT;
    const DeSetup named = {0.8, 0.9, DE_RAND1, DE_NO, 0, 0, DE_CLAMP}, nothing = {0.0, 0.0, 0, 0, 0, 0, DE_CLAMP};
    DeSetup zeros;
    memset(&zeros, 0, sizeof zeros);
    const DeSetup *pairs[][2] = {{&by_place, &named}, {&by_name, &named}, {&by_default, &named}, {&zeros, &nothing}};
    for (size_t i = 0; i < COUNT(pairs); i++) {
        memset(&state, 0x5a, sizeof state);
        memset(&again, 0xa5, sizeof again);
        EXPECT(de_checked_new(&state, sizeof state, pairs[i][0]).kind == DE_MADE);
        EXPECT(de_new(&again, *pairs[i][1]).kind == DE_MADE);
        EXPECT(memcmp(&state, &again, sizeof state) == 0 && state.setup.bounds_rule == DE_CLAMP);
    }
    EXPECT(de_checked_new(&state, OLD_SIZE, &named).kind == DE_SHORT_BUFFER);
}

/* A rule that names no case: in a set-up it is answered before F, CR and size are judged, and no state that has one is
 * sound. */
static void unknown_rules(void) {
    static const uint64_t unknown[] = {2, 3, 255, UINT64_C(1) << 32, (UINT64_C(1) << 32) + 1, UINT64_MAX};
    const DeAnswer expected = {.kind = DE_UNKNOWN}, not_sound = {.kind = DE_REFUSED, .refusal = DE_STATE_NOT_SOUND};
    const DeSetup bad[] = {{0.8, 0.9, DE_RAND1, DE_YES, 4, 7, 0},
                           {NAN, 0.9, DE_BEST1, DE_NO, 0, 7, 0},
                           {0.8, -1.0, DE_RAND1, DE_NO, 0, 7, 0},
                           {0.8, 0.9, DE_CURRENT_TO_BEST1, DE_YES, 161, 7, 0}};
    for (size_t i = 0; i < COUNT(unknown); i++) {
        walk_begin_by(&walk, DE_MIDPOINT, DE_RAND1, SLOTS, 1, 0);
        for (size_t calls = 0; calls < 3 * i; calls++) {
            walk_on(&walk);
        }
        before = walk.state;
        for (size_t k = 0; k < COUNT(bad); k++) {
            DeSetup setup = bad[k];
            setup.bounds_rule = unknown[i];
            DeAnswer a = de_checked_new(&walk.state, sizeof walk.state, &setup), b = de_new(&walk.state, setup);
            EXPECT(memcmp(&a, &expected, sizeof a) == 0 && memcmp(&b, &expected, sizeof b) == 0);
            EXPECT(memcmp(&walk.state, &before, sizeof before) == 0);
        }
        walk.state.setup.bounds_rule = unknown[i];
        before = walk.state;
        DeCall call = walk_call(&walk);
        DeAnswer a = de_checked_sample(&walk.state, sizeof walk.state, &call, NULL, 0);
        EXPECT(memcmp(&a, &not_sound, sizeof a) == 0);
        a = de_checked_slot_setting(&walk.state, sizeof walk.state, 0, 0);
        EXPECT(memcmp(&a, &not_sound, sizeof a) == 0);
        DeLook look = de_checked_look(&walk.state, sizeof walk.state);
        EXPECT(look.kind == DE_LOOK_REFUSED && look.refusal == DE_STATE_NOT_SOUND);
        EXPECT(de_checked_save(&walk.state, sizeof walk.state, file, sizeof file).refusal == DE_BAD_CONTENT);
        EXPECT(memcmp(&walk.state, &before, sizeof before) == 0);
    }
}

/* ---- Files. */

/* 13, before 12, for a state of midpoint in any room, and nothing is written. */
static void save_refused(const DeState *s, size_t room) {
    const DeFile expected = {.kind = DE_REFUSED, .refusal = DE_BAD_CONTENT};
    memset(file, 0xa5, sizeof file);
    DeFile f = de_checked_save(s, sizeof *s, file, room), g = de_save(s, file, room);
    EXPECT(memcmp(&f, &expected, sizeof f) == 0 && memcmp(&g, &expected, sizeof g) == 0);
    int untouched = 1;
    for (size_t i = 0; i < sizeof file; i++) {
        untouched = untouched && file[i] == 0xa5;
    }
    EXPECT(untouched);
}

/* Every state of a campaign of midpoint is sound and is not saved; with clamp in its place it is, and that file
 * restores to clamp over a state of midpoint too. */
static void files(void) {
    walk_begin_by(&walk, DE_MIDPOINT, DE_CURRENT_TO_BEST1, SLOTS, 3, 2);
    for (int k = 0; k < 60; k++, walk_on(&walk)) {
        before = again = twin = walk.state;
        twin.setup.bounds_rule = DE_CLAMP;
        size_t length = (size_t)de_checked_save(&twin, sizeof twin, file, sizeof file).length;
        EXPECT(length > 0);
        save_refused(&walk.state, sizeof file);
        save_refused(&walk.state, length);
        save_refused(&walk.state, length - 1);
        save_refused(&walk.state, 0);
        EXPECT(memcmp(&walk.state, &before, sizeof before) == 0);
        EXPECT(de_checked_save(&twin, sizeof twin, file, length).kind == DE_SAVED);
        EXPECT(de_checked_restore(&again, sizeof again, file, length - 1).refusal == DE_BAD_FILE);
        EXPECT(memcmp(&again, &before, sizeof before) == 0);
        EXPECT(de_checked_restore(&again, sizeof again, file, length).kind == DE_RESTORED);
        EXPECT(memcmp(&again, &twin, sizeof twin) == 0);
        /* What is looked at is the same under both rules. */
        DeLook a = de_checked_look(&walk.state, sizeof walk.state), b = de_checked_look(&twin, sizeof twin);
        EXPECT(a.kind != DE_LOOK_REFUSED && memcmp(&a, &b, sizeof a) == 0);
    }
    EXPECT(walk.state.closed >= 2);
}

int main(void) {
    DeMarks m = de_marks();
    EXPECT(de_layout_agrees());
    /* a set-up as this file was compiled to see it, against the library's own numbers */
    EXPECT(m.setup.seed == 6 && m.setup.bounds_rule == 7 && m.after_setup == 1);
    EXPECT(m.state.setup.bounds_rule == 7 && m.state.named == 1);
    old_set_ups();
    unknown_rules();
    files();
    return ended("C bounds rules");
}
