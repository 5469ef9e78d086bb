/* Files that are changed, and both readers on them: each is refused by 12 or 13, or is exactly the state that its words
 * describe, which is what the second reader says (second.c); on a refusal the lent memory is as it was. */
#ifndef JUDGE_H
#define JUDGE_H

#include <emkhurtov.h>

#include <stdlib.h>
#include <string.h>

#include "expect.h"
#include "second.h"
#include "states.h"

enum { RECORD = 32, MORE = 4096, KEPT = 60 };

/* What the test is called. */
static const char *test;

/* The files that are changed: of a campaign's states, small ones, and at the end the largest. */
typedef struct {
    uint8_t *bytes;
    size_t length;
} Kept;

static Kept kept[KEPT + 1];
static size_t n_kept;

/* What both readers lay their states over, and the file that is judged. */
static DeState lent, expected, junk;
static uint8_t file[DE_MAX_FILE + MORE];
static size_t length;
static unsigned long restored, refused[2];

/* Both readers on the file: the same answer, and the same memory after it. What was restored is saved alike too. */
static DeFile judge(void) {
    static uint8_t ours[DE_MAX_FILE], theirs[DE_MAX_FILE];
    DeFile f = de_restore(&lent, file, length);
    DeFile g = second_restore(&expected, file, length);
    EXPECT(memcmp(&f, &g, sizeof f) == 0);
    EXPECT(memcmp(&lent, &expected, sizeof lent) == 0);
    if (f.kind == DE_RESTORED) {
        DeFile s = de_save(&lent, ours, sizeof ours);
        DeFile t = second_save(&expected, theirs, sizeof theirs);
        EXPECT(s.kind == DE_SAVED && memcmp(&s, &t, sizeof s) == 0 && memcmp(ours, theirs, (size_t)t.length) == 0);
        restored++;
        lent = expected = junk;
    } else {
        EXPECT(f.kind == DE_REFUSED && (f.refusal == DE_BAD_FILE || f.refusal == DE_BAD_CONTENT));
        refused[f.refusal == DE_BAD_CONTENT]++;
    }
    if (failures > 20) {
        exit(ended(test));
    }
    return f;
}

static void told(const char *what) {
    printf("%s: %s: %lu by 12, %lu by 13, %lu restored, as by the second reader\n", test, what, refused[0], refused[1],
           restored);
    refused[0] = refused[1] = restored = 0;
}

static Kept keep(const DeState *s) {
    Kept k = {.length = (size_t)de_save(s, file, sizeof file).length};
    k.bytes = malloc(k.length);
    if (k.bytes == NULL || k.length == 0) {
        printf("%s: a file to be changed could not be made\n", test);
        exit(1);
    }
    memcpy(k.bytes, file, k.length);
    return k;
}

static void keep_all(void) {
    static const struct {
        uint64_t strategy, size, d, lag, every;
    } plans[] = {
        {DE_RAND1, 4, 1, 0, 2}, {DE_BEST1, 5, 3, 2, 7}, {DE_CURRENT_TO_BEST1, 4, 5, 7, 9}, {DE_RAND1, 0, 2, 0, 6}};
    static Walk walk;
    for (size_t i = 0; i < 4; i++) {
        walk_begin(&walk, plans[i].strategy, plans[i].size, plans[i].d, plans[i].lag);
        for (size_t k = 0; k < KEPT / 4; k++) {
            kept[n_kept++] = keep(&walk.state);
            for (uint64_t calls = 0; calls < plans[i].every; calls++) {
                walk_on(&walk);
            }
        }
    }
    walk_to_largest(&walk);
    kept[n_kept++] = keep(&walk.state);
}

static void take(const Kept *k) {
    memcpy(file, k->bytes, k->length);
    length = k->length;
}

/* Every file as it is; and the counts start from here. */
static void judge_all_kept(void) {
    memset(&junk, 0x5a, sizeof junk);
    lent = expected = junk;
    keep_all();
    for (size_t i = 0; i < n_kept; i++) {
        take(&kept[i]);
        EXPECT(judge().kind == DE_RESTORED);
    }
    restored = 0;
}

/* ---- The fields of a record: next, kind, position and the words. */

static const struct { size_t at, size; } fields[6] = {{0, 2}, {2, 2}, {4, 4}, {8, 8}, {16, 8}, {24, 8}};

static uint64_t get(size_t record, int field) {
    uint64_t n = 0;
    memcpy(&n, file + RECORD * record + fields[field].at, fields[field].size);
    return n;
}

static void put(size_t record, int field, uint64_t n) {
    memcpy(file + RECORD * record + fields[field].at, &n, fields[field].size);
}

static size_t records(void) {
    return length / RECORD;
}

#endif
