/* The second writer and reader: records, chain and checks of docs/SAVED.md. What the page says of words is judged on
 * words (second_words.c): the writer turns the state into words first, the reader the words into a state last. */
#include "second.h"

#include <string.h>

#include "second_words.h"

enum { RECORD = 32, REACH = 65536, POSITIONS = WORDS / 3 + 1 };

static DeFile refused(uint64_t refusal) {
    return (DeFile){.kind = DE_REFUSED, .refusal = refusal};
}

static uint64_t number(const uint8_t *bytes, int size) {
    uint64_t n = 0;
    for (int i = size - 1; i >= 0; i--) {
        n = n << 8 | bytes[i];
    }
    return n;
}

static void put_number(uint8_t *bytes, int size, uint64_t n) {
    for (int i = 0; i < size; i++) {
        bytes[i] = (uint8_t)(n >> 8 * i);
    }
}

/* ---- Reader. */

/* Check 12: the records on the chain, in its order; how many, or 0 where the check applies. */
static size_t chain(const uint8_t *file, size_t length, uint16_t *met) {
    static unsigned char seen[REACH];
    size_t all = length / RECORD, steps = 0;
    uint64_t at = 0;
    if (length == 0 || length % RECORD != 0) {
        return 0;
    }
    memset(seen, 0, all < REACH ? all : REACH);
    do {
        if (at >= all || seen[at]) {
            return 0;
        }
        seen[at] = 1;
        met[steps++] = (uint16_t)at;
        at = number(file + RECORD * at, 2);
    } while (at != 0);
    return steps;
}

/* What stands on the chain: how many records of each kind, and at which positions. */
typedef struct {
    size_t records[KINDS + 1];
    unsigned char at[KINDS + 1][POSITIONS];
} Standing;

/* The words of the records on the chain; 0 where a kind is none of the six or a position is past the last of any. */
static int gather(const uint8_t *file, const uint16_t *met, size_t steps, Lists *l, Standing *standing) {
    memset(standing, 0, sizeof *standing);
    memset(l->words[2], 0, 12 * sizeof *l->words[2]);
    for (size_t i = 0; i < steps; i++) {
        const uint8_t *record = file + RECORD * met[i];
        uint64_t kind = number(record + 2, 2), position = number(record + 4, 4);
        if (kind < 1 || kind > KINDS || position >= POSITIONS) {
            return 0;
        }
        standing->records[kind]++;
        standing->at[kind][position] = 1;
        for (uint64_t k = 0; k < 3; k++) {
            l->words[kind][3 * position + k] = number(record + 8 + 8 * k, 8);
        }
    }
    return 1;
}

/* Of each kind as many records as it has positions and one at each, so none twice nor past the last; and 0 in the words
 * past a list's end. */
static int complete(const Lists *l, const Standing *standing) {
    for (int kind = 1; kind <= KINDS; kind++) {
        if (standing->records[kind] != record_count(l, kind)) {
            return 0;
        }
        for (size_t p = 0; p < record_count(l, kind); p++) {
            if (!standing->at[kind][p]) {
                return 0;
            }
        }
        for (size_t i = word_count(l, kind); i < 3 * record_count(l, kind); i++) {
            if (l->words[kind][i] != 0) {
                return 0;
            }
        }
    }
    return 1;
}

DeFile second_restore(DeState *state, const uint8_t *file, size_t length) {
    static uint16_t met[REACH];
    static Lists l;
    static Standing standing;
    size_t steps = chain(file, length, met);
    if (steps == 0) {
        return refused(DE_BAD_FILE);
    }
    if (!gather(file, met, steps, &l, &standing) || !allowed_counts(l.words[2]) || !complete(&l, &standing) ||
        !judged(&l)) {
        return refused(DE_BAD_CONTENT);
    }
    lay(state, &l);
    return (DeFile){.kind = DE_RESTORED};
}

/* ---- Writer. */

DeFile second_save(const DeState *state, uint8_t *file, size_t room) {
    static Lists l;
    if (!words_of(state, &l)) {
        return refused(DE_BAD_CONTENT);
    }
    size_t all = 0, k = 0;
    for (int kind = 1; kind <= KINDS; kind++) {
        all += record_count(&l, kind);
    }
    if (room < RECORD * all) {
        return refused(DE_BAD_FILE);
    }
    for (int kind = 1; kind <= KINDS; kind++) {
        for (size_t p = 0; p < record_count(&l, kind); p++, k++) {
            uint8_t *record = file + RECORD * k;
            put_number(record, 2, k + 1 < all ? k + 1 : 0);
            put_number(record + 2, 2, (uint64_t)kind);
            put_number(record + 4, 4, p);
            for (size_t i = 0; i < 3; i++) {
                put_number(record + 8 + 8 * i, 8, l.words[kind][3 * p + i]);
            }
        }
    }
    return (DeFile){.kind = DE_SAVED, .length = RECORD * all};
}
