/* A second reading of ladders, which the library's are held against, from the words of document 02 (W9): the rungs by
 * their rule, in whole numbers of any length; the inner bounds by a look at each position. */
#ifndef SECOND_LADDER_H
#define SECOND_LADDER_H

#include <emkhurtov.h>

#include <string.h>

enum { LAST_POSITION = 7936, LONGEST = 256 };

/* R(p) at place p, once second_rungs has run. */
static int64_t rungs[LAST_POSITION + 1];

/* A whole number in words of 32 bits, the lowest first. */
typedef struct {
    uint32_t words[LONGEST];
    size_t length;
} Long;

static inline Long squared(const Long *x) {
    Long y = {{0}, 2 * x->length};
    for (size_t i = 0; i < x->length; i++) {
        uint64_t sum = 0;
        for (size_t k = 0; k < x->length; k++) {
            sum += (uint64_t)x->words[i] * x->words[k] + y.words[i + k];
            y.words[i + k] = (uint32_t)sum;
            sum >>= 32;
        }
        y.words[i + x->length] = (uint32_t)sum;
    }
    while (y.length > 1 && y.words[y.length - 1] == 0) {
        y.length--;
    }
    return y;
}

/* Whether r^256 is at most 2^p. */
static inline int at_most_power(int64_t r, size_t p) {
    Long x = {{(uint32_t)r}, 1};
    for (int k = 0; k < 8; k++) {
        x = squared(&x);
    }
    size_t top = p / 32;
    uint32_t bit = UINT32_C(1) << p % 32;
    if (x.length != top + 1 || x.words[top] != bit) {
        return x.length < top + 1 || (x.length == top + 1 && x.words[top] < bit);
    }
    while (top > 0 && x.words[top - 1] == 0) {
        top--;
    }
    return top == 0;
}

/* "R(p) is the whole part of 2^(p/256)": twice what it is 256 positions before, or one more. How many keep the rule:
 * r^256 is at most 2^p, and 2^p is below (r + 1)^256. */
static inline size_t second_rungs(void) {
    size_t well = 0;
    for (size_t p = 0; p <= LAST_POSITION; p++) {
        int64_t r = p < 256 ? 1 : 2 * rungs[p - 256];
        rungs[p] = r + at_most_power(r + 1, p);
        well += at_most_power(rungs[p], p) && !at_most_power(rungs[p] + 1, p);
    }
    return well;
}

/* "0 for low 1, else the largest p with R(p) below low" */
static inline int second_inner_low(int64_t low) {
    int p = LAST_POSITION;
    while (p > 0 && rungs[p] >= low) {
        p--;
    }
    return low == 1 ? 0 : p;
}

/* "the least p with R(p) at least high" */
static inline int second_inner_high(int64_t high) {
    int p = 0;
    while (p < LAST_POSITION && rungs[p] < high) {
        p++;
    }
    return p;
}

static inline int is_ladder(const DeDistribution *d) {
    return d->kind == DE_INT && d->log_scale == DE_YES;
}

/* "takes R(p) and clamps that to low and high" */
static inline int64_t second_setting(int p, const DeDistribution *d) {
    int64_t r = rungs[p];
    return r < d->whole_low ? d->whole_low : r > d->whole_high ? d->whole_high : r;
}

/* "Decoding clamps the entry to the inner bounds, rounds to p, takes R(p) and clamps that to low and high" */
static inline int64_t second_decoded(double entry, const DeDistribution *d) {
    double low = second_inner_low(d->whole_low), high = second_inner_high(d->whole_high);
    double v = entry < low ? low : entry > high ? high : entry;
    int p = (int)v;
    return second_setting(p + (v - p >= 0.5), d);
}

/* "draws p by `i64` from the inner bounds, both included, and decodes it" */
static inline int64_t second_drawn(uint64_t output, const DeDistribution *d) {
    uint64_t low = (uint64_t)second_inner_low(d->whole_low), high = (uint64_t)second_inner_high(d->whole_high);
    return second_setting((int)(low + output % (high - low + 1)), d);
}

/* The bounds of an entry of this dimension. */
static inline void second_bounds(const DeDistribution *d, double *low, double *high) {
    if (is_ladder(d)) {
        *low = second_inner_low(d->whole_low);
        *high = second_inner_high(d->whole_high);
        return;
    }
    *low = d->kind == DE_FLOAT ? d->low : (double)d->whole_low;
    *high = d->kind == DE_FLOAT ? d->high : (double)d->whole_high;
}

#endif
