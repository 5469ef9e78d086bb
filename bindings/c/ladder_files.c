/* States with ladders: which are sound, that a file has no place for one, and that no file gives one. Status 0 where
 * all is as expected. */
#include <emkhurtov.h>

#include <string.h>

#include "expect.h"
#include "second.h"

enum { SLOTS = 4, DIMENSIONS = 3, RECORD = 32, MORE = 64 };
#define COUNT(table) (sizeof table / sizeof *table)

static DeState state, before, twin, again;
static uint8_t file[DE_MAX_FILE + MORE], other[DE_MAX_FILE + MORE];

static const DeDistribution depth = {.kind = DE_INT, .whole_low = 1, .whole_high = 64, .log_scale = DE_YES};
static const DeDistribution quota = {.kind = DE_FLOAT, .low = 8.0, .high = 256.0};

/* ---- The writer. */

/* 13, before 12, in any room, by both writers; nothing is written, and the state stays. */
static void save_refused(const DeState *s, size_t room) {
    const DeFile expected = {.kind = DE_REFUSED, .refusal = DE_BAD_CONTENT};
    before = *s;
    memset(file, 0xa5, sizeof file);
    memset(other, 0xa5, sizeof other);
    DeFile f = de_checked_save(s, sizeof *s, file, room), g = de_save(s, file, room), h = second_save(s, other, room);
    EXPECT(memcmp(&f, &expected, sizeof f) == 0 && memcmp(&g, &expected, sizeof g) == 0);
    EXPECT(memcmp(&h, &expected, sizeof h) == 0);
    EXPECT(file[0] == 0xa5 && memcmp(file, file + 1, sizeof file - 1) == 0);
    EXPECT(memcmp(s, &before, sizeof before) == 0);
}

/* Saved alike by both writers, and restored as it was: the file's length. */
static size_t saved(const DeState *s) {
    DeFile f = de_checked_save(s, sizeof *s, file, sizeof file), g = second_save(s, other, sizeof other);
    EXPECT(f.kind == DE_SAVED && memcmp(&f, &g, sizeof f) == 0 && memcmp(file, other, (size_t)f.length) == 0);
    EXPECT(de_checked_restore(&again, sizeof again, file, (size_t)f.length).kind == DE_RESTORED);
    EXPECT(memcmp(&again, s, sizeof again) == 0);
    return (size_t)f.length;
}

/* A state with a ladder as its dimension k, where it has one: refused; the same without the log flag is saved, and that
 * file restores over the ladder's state too. */
static void has_no_file(uint64_t k) {
    if (state.n_dims <= k) {
        saved(&state);
        return;
    }
    EXPECT(state.dims[k].log_scale == DE_YES);
    twin = state;
    twin.dims[k].log_scale = DE_NO;
    size_t length = saved(&twin);
    save_refused(&state, sizeof file);
    save_refused(&state, length);
    save_refused(&state, length - 1);
    save_refused(&state, 0);
    EXPECT(de_checked_save(&twin, sizeof twin, file, length).kind == DE_SAVED);
    again = state;
    EXPECT(de_checked_restore(&again, sizeof again, file, length - 1).refusal == DE_BAD_FILE);
    EXPECT(memcmp(&again, &state, sizeof state) == 0);
    EXPECT(de_checked_restore(&again, sizeof again, file, length).kind == DE_RESTORED);
    EXPECT(memcmp(&again, &twin, sizeof twin) == 0);
}

/* Every state of a campaign with one ladder, as its dimension k. */
static void campaign(uint64_t seed, uint64_t k, DeDistribution ladder) {
    static DeCompletedTrial history[40];
    DeSetup setup = {0.8, 0.9, seed % 3, DE_YES, SLOTS, seed, DE_CLAMP};
    EXPECT(de_checked_new(&state, sizeof state, &setup).kind == DE_MADE);
    for (uint64_t trial = 0; trial < COUNT(history); trial++) {
        for (uint64_t asked = 0; asked < DIMENSIONS; asked++) {
            DeCall call = {trial, asked == k ? ladder : quota};
            has_no_file(k);
            DeAnswer a = de_checked_sample(&state, sizeof state, &call, history, (size_t)trial);
            EXPECT(a.kind == call.distribution.kind);
        }
        history[trial] = (DeCompletedTrial){trial, (double)(trial * 7919 % 1009), DE_COMPLETE};
    }
    EXPECT(state.closed >= 8);
}

/* A ladder that is lent and not kept: refused, or drawn from past the last dimension. The file has nothing of it. */
static void lent_ladders(void) {
    DeSetup setup = DE_SETUP_DEFAULT;
    DeDistribution stepped = depth;
    stepped.stepped = DE_YES;
    stepped.whole_step = 1;
    EXPECT(de_checked_new(&state, sizeof state, &setup).kind == DE_MADE);
    for (uint64_t trial = 0; trial < 20; trial++) {
        DeCall call = {trial, stepped};
        EXPECT(de_checked_sample(&state, sizeof state, &call, NULL, 0).refusal == DE_LOG_SCALE);
        saved(&state);
        call.distribution = quota;
        EXPECT(de_checked_sample(&state, sizeof state, &call, NULL, 0).kind == DE_FLOAT);
        saved(&state);
        call.distribution = depth;
        if (trial > 0) {
            EXPECT(de_checked_sample(&state, sizeof state, &call, NULL, 0).kind == DE_INT);
            saved(&state);
        }
    }
}

/* ---- States that are handed in. */

/* A state of three dimensions that begins its second generation. */
static void hand_in(DeDistribution first) {
    DeCompletedTrial history[SLOTS];
    DeSetup setup = {0.8, 0.9, DE_BEST1, DE_YES, SLOTS, 5, DE_CLAMP};
    EXPECT(de_checked_new(&state, sizeof state, &setup).kind == DE_MADE);
    for (uint64_t trial = 0; trial <= SLOTS + 1; trial++) {
        for (uint64_t k = 0; k < DIMENSIONS; k++) {
            DeDistribution choice = {.kind = DE_CHOICE, .n_choices = 4};
            DeCall call = {trial, k == 0 ? first : k == 1 ? choice : quota};
            EXPECT(de_checked_sample(&state, sizeof state, &call, history, trial > SLOTS ? SLOTS : 0).kind ==
                   call.distribution.kind);
        }
        if (trial > 0 && trial <= SLOTS) {
            history[trial - 1] = (DeCompletedTrial){trial, 1.0, DE_COMPLETE};
        }
    }
    EXPECT(state.closed == 1);
}

static int is_sound(void) {
    DeCall call = {100, quota};
    again = state;
    DeAnswer a = de_checked_sample(&again, sizeof again, &call, NULL, 0);
    DeLook look = de_checked_look(&state, sizeof state);
    DeAnswer slot = de_checked_slot_setting(&state, sizeof state, 0, 0);
    int refused = a.kind == DE_REFUSED && a.refusal == DE_STATE_NOT_SOUND;
    EXPECT(!refused || memcmp(&again, &state, sizeof state) == 0);
    EXPECT(refused == (look.kind == DE_LOOK_REFUSED) && refused == (slot.kind == DE_REFUSED));
    return !refused;
}

/* The log flag belongs to an Int that can be a ladder; a choice's is not read. */
static void flags(void) {
    static const struct {
        DeDistribution d;
        int sound;
    } rows[] = {
        {{.kind = DE_INT, .whole_low = 1, .whole_high = 64, .log_scale = DE_YES}, 1},
        {{.kind = DE_INT, .whole_low = 64, .whole_high = 64, .log_scale = DE_YES}, 1},
        {{.kind = DE_INT, .whole_low = 1, .whole_high = DE_MAX_LADDER, .log_scale = DE_YES}, 1},
        {{.kind = DE_INT, .whole_low = 1, .whole_high = 64, .log_scale = DE_YES, .whole_step = 7}, 1},
        {{.kind = DE_INT, .whole_low = 0, .whole_high = 64, .log_scale = DE_YES}, 0},
        {{.kind = DE_INT, .whole_low = -1, .whole_high = 64, .log_scale = DE_YES}, 0},
        {{.kind = DE_INT, .whole_low = 1, .whole_high = DE_MAX_LADDER + 1, .log_scale = DE_YES}, 0},
        {{.kind = DE_INT, .whole_low = 3, .whole_high = 2, .log_scale = DE_YES}, 0},
        {{.kind = DE_INT, .whole_low = 1, .whole_high = 64, .log_scale = DE_YES, .stepped = DE_YES, .whole_step = 1},
         0},
        {{.kind = DE_INT, .whole_low = 1, .whole_high = 64, .log_scale = 2}, 0},
        {{.kind = DE_INT, .whole_low = 1, .whole_high = 64, .log_scale = (UINT64_C(1) << 32) + 1}, 0},
        {{.kind = DE_FLOAT, .low = 1.0, .high = 64.0, .log_scale = DE_YES}, 0},
        {{.kind = DE_INT, .whole_low = -5, .whole_high = 64}, 1},
    };
    for (size_t i = 0; i < COUNT(rows); i++) {
        hand_in(depth);
        state.dims[0] = rows[i].d;
        EXPECT(is_sound() == rows[i].sound);
        if (rows[i].d.log_scale != DE_NO) {
            save_refused(&state, sizeof file);
            save_refused(&state, 0);
        } else {
            saved(&state);
        }
    }
    hand_in(quota);
    state.dims[1].log_scale = DE_YES;
    EXPECT(is_sound() && de_checked_save(&state, sizeof state, file, sizeof file).kind == DE_SAVED);
}

/* ---- The reader: no bit of a ladder's words makes a file for it. */

static void files_give_none(void) {
    hand_in(depth);
    state.dims[0].log_scale = DE_NO;
    size_t length = saved(&state), restored = 0, refused = 0;
    /* The words of dimension 0 are in the first two records of kind 3, behind those of kinds 1 and 2. */
    for (size_t word = 0; word < 5; word++) {
        for (size_t bit = 0; bit < 64; bit++) {
            uint8_t *byte = file + RECORD * (6 + word / 3) + 8 + 8 * (word % 3) + bit / 8;
            *byte ^= (uint8_t)(1u << bit % 8);
            memset(&again, 0x5a, sizeof again);
            memset(&twin, 0x5a, sizeof twin);
            DeFile f = de_checked_restore(&again, sizeof again, file, length), g = second_restore(&twin, file, length);
            EXPECT(memcmp(&f, &g, sizeof f) == 0 && memcmp(&again, &twin, sizeof again) == 0);
            EXPECT(f.kind == DE_RESTORED ? again.dims[0].log_scale == DE_NO : f.refusal == DE_BAD_CONTENT);
            restored += f.kind == DE_RESTORED;
            refused += f.kind == DE_REFUSED;
            *byte ^= (uint8_t)(1u << bit % 8);
        }
    }
    /* Other bounds within 2^53 are a state's too, and no other kind, flag or step is. */
    EXPECT(restored + refused == 5 * 64 && restored > 50 && refused > 3 * 64);
}

int main(void) {
    for (uint64_t k = 0; k < DIMENSIONS; k++) {
        campaign(3 * k, k, depth);
        campaign(3 * k + 1, k, (DeDistribution){.kind = DE_INT, .whole_low = 9, .whole_high = 9, .log_scale = DE_YES});
        campaign(3 * k + 2, k,
                 (DeDistribution){.kind = DE_INT, .whole_low = 1, .whole_high = DE_MAX_LADDER, .log_scale = DE_YES});
    }
    lent_ladders();
    flags();
    files_give_none();
    return ended("C ladder files");
}
