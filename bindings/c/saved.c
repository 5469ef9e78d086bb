/* Saving and restoring, held against the second writer and reader (second.c): round trips, refusals in their order, and
 * memory that must stay as it is. Status 0 where all is as expected. */
#include <emkhurtov.h>

#include <stdlib.h>
#include <string.h>

#include "expect.h"
#include "second.h"
#include "states.h"

enum { RECORD = 32, MORE = 64 };

static Walk walk;
static DeState state, before, again;
static uint8_t file[DE_MAX_FILE + MORE], other[DE_MAX_FILE + MORE];

/* Saves by both writers into memory that was filled before: the same answer, and the same bytes in all of it. */
static DeFile save(const DeState *s, size_t room) {
    memset(file, 0xa5, sizeof file);
    memset(other, 0xa5, sizeof other);
    DeFile f = de_checked_save(s, sizeof *s, file, room);
    DeFile g = second_save(s, other, room);
    EXPECT(memcmp(&f, &g, sizeof f) == 0);
    EXPECT(memcmp(file, other, sizeof file) == 0);
    return f;
}

static int untouched(const uint8_t *bytes, size_t length) {
    for (size_t i = 0; i < length; i++) {
        if (bytes[i] != 0xa5) {
            return 0;
        }
    }
    return 1;
}

static void save_refused(const DeState *s, size_t room, uint64_t refusal) {
    DeFile f = save(s, room);
    EXPECT(f.kind == DE_REFUSED && f.refusal == refusal && f.length == 0);
    EXPECT(untouched(file, sizeof file));
}

/* Restores by both readers over the same memory: the same answer, and the same state, which is the old one on a
 * refusal. */
static DeFile restore(DeState *s, const uint8_t *bytes, size_t length) {
    again = *s;
    DeFile f = de_checked_restore(s, sizeof *s, bytes, length);
    DeFile g = second_restore(&again, bytes, length);
    EXPECT(memcmp(&f, &g, sizeof f) == 0);
    EXPECT(memcmp(s, &again, sizeof again) == 0);
    return f;
}

static void restore_refused(const uint8_t *bytes, size_t length, uint64_t refusal) {
    memset(&state, 0x5a, sizeof state);
    before = state;
    DeFile f = restore(&state, bytes, length);
    EXPECT(f.kind == DE_REFUSED && f.refusal == refusal && f.length == 0);
    EXPECT(memcmp(&state, &before, sizeof state) == 0);
}

/* What is saved is restored, whatever the memory held; in a room of just that length too, and in none that is shorter.
 */
static size_t round_trip(const DeState *s) {
    DeFile f = save(s, sizeof file);
    size_t length = (size_t)f.length;
    EXPECT(f.kind == DE_SAVED && f.refusal == 0 && length % RECORD == 0 && length <= DE_MAX_FILE);
    EXPECT(untouched(file + length, sizeof file - length));
    memset(&state, 0xc3, sizeof state);
    f = restore(&state, file, length);
    EXPECT(f.kind == DE_RESTORED && f.refusal == 0 && f.length == 0);
    EXPECT(memcmp(&state, s, sizeof state) == 0);
    EXPECT(save(s, length).kind == DE_SAVED);
    save_refused(s, length - 1, DE_BAD_FILE);
    save_refused(s, length - RECORD, DE_BAD_FILE);
    save_refused(s, 0, DE_BAD_FILE);
    EXPECT(save(s, sizeof file).length == length);
    return length;
}

/* Every state of some campaigns, and the next call from the restored state as from the one that was saved. */
static void campaigns(void) {
    static DeState rebooted;
    static const struct {
        uint64_t strategy, size, d, lag, calls;
    } plans[] = {{DE_RAND1, 4, 1, 0, 40},  {DE_BEST1, 5, 3, 2, 120},   {DE_CURRENT_TO_BEST1, 4, 5, 7, 120},
                 {DE_RAND1, 0, 2, 0, 100}, {DE_BEST1, 160, 16, 0, 40}, {DE_RAND1, 0, 16, 0, 40}};
    for (size_t i = 0; i < sizeof plans / sizeof *plans; i++) {
        walk_begin(&walk, plans[i].strategy, plans[i].size, plans[i].d, plans[i].lag);
        for (uint64_t k = 0; k < plans[i].calls; k++) {
            round_trip(&walk.state);
            rebooted = state;
            DeCall call = walk_call(&walk);
            DeAnswer a = de_checked_sample(&rebooted, sizeof rebooted, &call, walk.history, walk.told);
            EXPECT(a.kind == call.distribution.kind);
            walk_on(&walk);
            EXPECT(memcmp(&rebooted, &walk.state, sizeof rebooted) == 0);
        }
    }
    EXPECT(walk.state.n == 130 && walk.state.closed == 0);
}

/* Lengths by hand: 2 + 4 records, then 5 words for each dimension, 2 for each open trial, and the rows. */
static void lengths(void) {
    walk_begin(&walk, DE_RAND1, 4, 3, 0);
    EXPECT(round_trip(&walk.state) == RECORD * 6);
    walk_on(&walk);
    EXPECT(round_trip(&walk.state) == RECORD * (6 + 2));
    walk_on(&walk);
    walk_on(&walk);
    EXPECT(round_trip(&walk.state) == RECORD * (6 + 5));
    walk_on(&walk);
    EXPECT(walk.state.discovered == DE_YES && walk.state.n_trials == 1);
    EXPECT(round_trip(&walk.state) == RECORD * (6 + 5 + 1 + 4));
    while (walk.state.closed == 0) {
        walk_on(&walk);
    }
    EXPECT(round_trip(&walk.state) == RECORD * (6 + 5 + 1 + 6 + 4));
    walk_to_largest(&walk);
    EXPECT(walk.state.n == 160 && walk.state.n_dims == 16 && walk.state.n_trials == 224 && walk.state.closed == 1);
    EXPECT(round_trip(&walk.state) == 73120 && DE_MAX_FILE == 73120);
}

/* A field that a kind or flag has no use for may hold any number: it is not saved, and restored as 0. */
static void unused_fields(void) {
    walk_begin(&walk, DE_RAND1, 0, 3, 0);
    before = walk.state;
    walk.state.first = 77;
    walk.state.setup.population_size = 9;
    walk.state.dims[15].low = 3.0;
    DeFile f = save(&walk.state, sizeof file);
    EXPECT(f.kind == DE_SAVED);
    EXPECT(restore(&state, file, (size_t)f.length).kind == DE_RESTORED);
    EXPECT(memcmp(&state, &before, sizeof state) == 0);
}

/* 13 before 12 in the writer. */
static void no_states(void) {
    static const unsigned char fillings[3] = {0x00, 0xff, 0x5a};
    for (int i = 0; i < 3; i++) {
        memset(&walk.state, fillings[i], sizeof walk.state);
        save_refused(&walk.state, sizeof file, DE_BAD_CONTENT);
        save_refused(&walk.state, 0, DE_BAD_CONTENT);
    }
    walk_begin(&walk, DE_RAND1, 4, 1, 0);
    walk.state.idle = 1;
    save_refused(&walk.state, 0, DE_BAD_CONTENT);
    walk.state.idle = 0;
    save_refused(&walk.state, 0, DE_BAD_FILE);
    walk.state.dims[3].kind = 17;
    save_refused(&walk.state, sizeof file, DE_BAD_CONTENT);
}

/* Every word of a state's memory changed in turn: both writers say the same. */
static void changed_states(void) {
    /* Counts and cases; minus zero; 4e300, which an entry may be, and the double above it, with both signs; NaN. */
    const uint64_t minus = UINT64_C(1) << 63, most = UINT64_C(0x7e57e43c8800759c), nan = UINT64_C(0x7ff8000000000000);
    const uint64_t words[] = {0, 1, 2, 3, 4, minus, most, most + 1, minus | most, minus | (most + 1), nan, UINT64_MAX};
    size_t saved = 0, refused = 0;
    walk_begin(&walk, DE_BEST1, 5, 5, 2);
    for (int k = 0; k < 60; k++) {
        walk_on(&walk);
    }
    for (size_t at = 0; at < sizeof walk.state / 8; at++) {
        for (size_t i = 0; i < sizeof words / sizeof *words; i++) {
            memcpy(&before, &walk.state, sizeof before);
            memcpy((char *)&before + 8 * at, &words[i], 8);
            DeFile f = de_checked_save(&before, sizeof before, file, sizeof file);
            DeFile g = second_save(&before, other, sizeof other);
            EXPECT(memcmp(&f, &g, sizeof f) == 0 && memcmp(file, other, (size_t)g.length) == 0);
            saved += f.kind == DE_SAVED;
            refused += f.refusal == DE_BAD_CONTENT;
        }
    }
    EXPECT(saved + refused == sizeof walk.state / 8 * (sizeof words / sizeof *words));
    printf("C saved files: of %zu changed states %zu were saved and %zu refused, as by the second writer\n",
           saved + refused, saved, refused);
}

static void put(uint8_t *bytes, size_t record, size_t at, uint8_t low, uint8_t high) {
    bytes[RECORD * record + at] = low;
    bytes[RECORD * record + at + 1] = high;
}

/* 12 before 13 in the reader. */
static void no_files(void) {
    walk_begin(&walk, DE_RAND1, 4, 3, 0);
    size_t length = round_trip(&walk.state);
    restore_refused(file, 0, DE_BAD_FILE);
    for (size_t cut = 1; cut <= length; cut++) {
        restore_refused(file, length - cut, DE_BAD_FILE);
    }
    restore_refused(file, length + 1, DE_BAD_FILE);
    restore_refused(file, length + RECORD - 1, DE_BAD_FILE);
    /* What stands past the chain's end is ignored. */
    EXPECT(restore(&state, file, length + RECORD).kind == DE_RESTORED);
    put(file, 0, 2, 7, 0); /* an unknown kind */
    restore_refused(file, length, DE_BAD_CONTENT);
    put(file, 5, 0, 6, 0); /* and past the end */
    restore_refused(file, length, DE_BAD_FILE);
    put(file, 5, 0, 5, 0); /* itself */
    restore_refused(file, length, DE_BAD_FILE);
    put(file, 5, 0, 2, 0); /* an earlier one */
    restore_refused(file, length, DE_BAD_FILE);
    put(file, 5, 0, 0, 0);
    restore_refused(file, length, DE_BAD_CONTENT);
    put(file, 0, 2, 1, 0);
    EXPECT(restore(&state, file, length).kind == DE_RESTORED);
    memset(other, 0, sizeof other);
    restore_refused(other, sizeof other, DE_BAD_CONTENT);
    memset(other, 0xff, sizeof other);
    restore_refused(other, RECORD, DE_BAD_FILE);
    put(other, 0, 0, 0, 0);
    restore_refused(other, RECORD, DE_BAD_CONTENT);
}

/* A file of more records than a `next` can name: the last that it reaches, and some behind it. */
static void long_files(void) {
    enum { RECORDS = 65600 };
    uint8_t *bytes = malloc((size_t)RECORD * RECORDS);
    EXPECT(bytes != NULL);
    walk_begin(&walk, DE_RAND1, 4, 3, 0);
    size_t length = round_trip(&walk.state), last = length / RECORD - 1;
    for (int chained = 0; bytes != NULL && chained < 2; chained++) {
        memset(bytes, 0xff, (size_t)RECORD * RECORDS);
        memcpy(bytes, file, length);
        memcpy(bytes + RECORD * 65535, file + RECORD * last, RECORD);
        put(bytes, last - 1, 0, 0xff, 0xff);
        /* At 65535 the chain ends; or it goes on to the record that was moved, as one of its kind and position too
         * many. */
        put(bytes, 65535, 0, chained ? (uint8_t)last : 0, 0);
        DeFile f = restore(&state, bytes, (size_t)RECORD * RECORDS);
        EXPECT(f.kind == (chained ? DE_REFUSED : DE_RESTORED) && f.refusal == (chained ? DE_BAD_CONTENT : 0));
        /* Every record on one chain, 65,536 steps of it: each a kind 1. */
        for (size_t k = 0; k < 65536; k++) {
            put(bytes, k, 0, (uint8_t)(k + 1), (uint8_t)((k + 1) >> 8));
            put(bytes, k, 2, 1, 0);
        }
        restore_refused(bytes, (size_t)RECORD * RECORDS, DE_BAD_CONTENT);
        put(bytes, 65535, 0, 0x39, 0x30);
        restore_refused(bytes, (size_t)RECORD * RECORDS, DE_BAD_FILE);
    }
    free(bytes);
}

static void pointers(void) {
    uint8_t *over = (uint8_t *)&state;
    walk_begin(&walk, DE_RAND1, 4, 1, 0);
    state = before = walk.state;
    memset(file, 0xa5, sizeof file);
    EXPECT(de_checked_save(NULL, sizeof state, file, sizeof file).kind == DE_NULL_POINTER);
    EXPECT(de_checked_save(&state, sizeof state, NULL, 1).kind == DE_NULL_POINTER);
    EXPECT(de_checked_save(&state, sizeof state - 1, file, sizeof file).kind == DE_SHORT_BUFFER);
    EXPECT(de_checked_save((char *)&state + 4, sizeof state, file, sizeof file).kind == DE_MISALIGNED);
    EXPECT(de_checked_save(&state, sizeof state, over, sizeof state).kind == DE_OVERLAPPING);
    EXPECT(de_checked_save(&state, sizeof state, over + sizeof state - 1, 1).kind == DE_OVERLAPPING);
    EXPECT(de_checked_restore(NULL, sizeof state, file, sizeof file).kind == DE_NULL_POINTER);
    EXPECT(de_checked_restore(&state, sizeof state, NULL, 1).kind == DE_NULL_POINTER);
    EXPECT(de_checked_restore(&state, 0, file, sizeof file).kind == DE_SHORT_BUFFER);
    EXPECT(de_checked_restore((char *)&state + 1, sizeof state, file, sizeof file).kind == DE_MISALIGNED);
    EXPECT(de_checked_restore(&state, sizeof state, over, 1).kind == DE_OVERLAPPING);
    EXPECT(de_checked_restore(&state, sizeof state, over, SIZE_MAX).kind == DE_OVERLAPPING);
    /* A file of length 0 may be a null pointer. */
    DeFile f = de_checked_save(&state, sizeof state, NULL, 0);
    EXPECT(f.kind == DE_REFUSED && f.refusal == DE_BAD_FILE);
    f = de_checked_restore(&state, sizeof state, NULL, 0);
    EXPECT(f.kind == DE_REFUSED && f.refusal == DE_BAD_FILE);
    EXPECT(memcmp(&state, &before, sizeof state) == 0 && untouched(file, sizeof file));

    /* A state and a file that touch do not overlap. */
    static union {
        DeState state;
        uint8_t bytes[RECORD * 6 + sizeof(DeState) + RECORD * 6];
    } room;
    memcpy(room.bytes, &state, sizeof state);
    EXPECT(de_checked_save(room.bytes, sizeof(DeState), room.bytes + sizeof(DeState), RECORD * 6).kind == DE_SAVED);
    EXPECT(de_checked_restore(room.bytes, sizeof(DeState), room.bytes + sizeof(DeState), RECORD * 6).kind ==
           DE_RESTORED);
    EXPECT(memcmp(room.bytes, &state, sizeof state) == 0);
    void *behind = room.bytes + RECORD * 6;
    memmove(behind, &state, sizeof state);
    EXPECT(de_checked_save(behind, sizeof(DeState), room.bytes, RECORD * 6).kind == DE_SAVED);
    EXPECT(de_checked_save(behind, sizeof(DeState), room.bytes, RECORD * 6 + 1).kind == DE_OVERLAPPING);
    EXPECT(memcmp(behind, &state, sizeof state) == 0);
}

int main(void) {
    EXPECT(de_layout_agrees());
    campaigns();
    lengths();
    unused_fields();
    no_states();
    changed_states();
    no_files();
    long_files();
    pointers();
    return ended("C saved files");
}
