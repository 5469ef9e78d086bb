/* The entries that a state has in use, and whether an answer is within its dimension. */
#ifndef ENTRIES_H
#define ENTRIES_H

#include <emkhurtov.h>

#include <math.h>
#include <stddef.h>

/* Whether the setting lies in the dimension. */
static int within(DeAnswer a, DeDistribution d) {
    switch (a.kind == d.kind ? a.kind : DE_REFUSED) {
    case DE_FLOAT:
        return a.real >= d.low && a.real <= d.high;
    case DE_INT:
        return a.whole >= d.whole_low && a.whole <= d.whole_high;
    case DE_CHOICE:
        return a.choice < d.n_choices;
    default:
        return 0;
    }
}

/* How many entries a row has: one for each dimension that is no choice. */
static uint64_t entries_of(const DeState *s) {
    uint64_t entries = 0;
    for (uint64_t k = 0; k < s->n_dims; k++) {
        entries += s->dims[k].kind != DE_CHOICE;
    }
    return entries;
}

/* As many as slots or as open trials, whichever are more. */
static uint64_t candidates_of(const DeState *s) {
    return s->n > s->n_trials ? s->n : s->n_trials;
}

/* The entries that are in use, of candidates and then of parents; a null pointer past the last. */
static double *entry_at(DeState *s, uint64_t place) {
    uint64_t row = place / entries_of(s), j = place % entries_of(s), candidates = candidates_of(s);
    if (row < candidates) {
        return &s->candidates[row].x[j];
    }
    return s->closed >= 1 && row - candidates < s->n ? &s->parents[row - candidates].candidate.x[j] : NULL;
}

/* Whether no entry is over `most` in size, or NaN. */
static inline int at_most(DeState *s, double most) {
    for (uint64_t place = 0; entry_at(s, place) != NULL; place++) {
        if (!(fabs(*entry_at(s, place)) <= most)) {
            return 0;
        }
    }
    return 1;
}

#endif
