/* The words of a saved file, as docs/SAVED.md has them: what the second writer and reader have in common. */
#ifndef SECOND_WORDS_H
#define SECOND_WORDS_H

#include <emkhurtov.h>

#include <string.h>

enum { KINDS = 6, WORDS = 3584 /* of the longest list: 224 candidates of 16 words */ };

/* The words of each kind, filled up to whole records. Kind k has place k. */
typedef struct {
    uint64_t words[KINDS + 1][WORDS + 3];
} Lists;

/* What a word is as a double and as a signed number. */
static inline double to_double(uint64_t word) {
    double x;
    memcpy(&x, &word, sizeof x);
    return x;
}

static inline int64_t to_signed(uint64_t word) {
    return (int64_t)(word - (UINT64_C(1) << 63));
}

static inline uint64_t larger(uint64_t a, uint64_t b) {
    return a > b ? a : b;
}

/* How many words and records a kind has, by the words of kind 2. */
size_t word_count(const Lists *l, int kind);
size_t record_count(const Lists *l, int kind);

/* Whether the words of kind 2 are as allowed, so that the others can be counted; then whether all words are those of a
 * state that a sampler can have. */
int allowed_counts(const uint64_t *w);
int judged(const Lists *l);

/* The state of words that are judged; and the words of a state, 0 where it is none that a sampler can have, or none
 * that a file has a place for. */
void lay(DeState *s, const Lists *l);
int words_of(const DeState *s, Lists *l);

#endif
