/* A second reading of a sweep, which the library's is held against, from the words of documents 01 and 02: the
 * combinations are counted one by one, dimension within dimension, by additions alone. */
#ifndef SECOND_SWEEP_H
#define SECOND_SWEEP_H

#include <emkhurtov.h>

#include <math.h>
#include <string.h>

/* Whether each number of a dimension names a case. A choice has no use for log_scale and stepped. */
static inline int second_named(const DeDistribution *d) {
    int flags = d->log_scale <= DE_YES && d->stepped <= DE_YES;
    return d->kind == DE_CHOICE || ((d->kind == DE_FLOAT || d->kind == DE_INT) && flags);
}

/* Document 01's refusals 4 to 7 of a dimension, the first that applies; 0 where none does. */
static inline uint64_t second_verdict(const DeDistribution *d) {
    const int64_t size = DE_MAX_WHOLE;
    if (d->kind == DE_CHOICE) {
        return d->n_choices == 0 || d->n_choices > 65535 ? 7 : 0;
    }
    if (d->kind == DE_FLOAT) {
        if (!(fabs(d->low) <= 1e300 && fabs(d->high) <= 1e300 && d->low <= d->high)) {
            return 4;
        }
        if (d->log_scale == DE_YES) {
            return 5;
        }
        if (d->stepped == DE_YES &&
            !(isfinite(d->step) && d->step > 0.0 && (d->high - d->low) / d->step <= 4294967295.0)) {
            return 6;
        }
        return 0;
    }
    if (d->whole_low < -size || d->whole_high > size || d->whole_low > d->whole_high) {
        return 4;
    }
    /* "5 now covers Float log and Int log with a step or with bounds outside these" (W9) */
    if (d->log_scale == DE_YES && (d->stepped == DE_YES || d->whole_low < 1 || d->whole_high > INT64_C(2147483648))) {
        return 5;
    }
    return d->stepped == DE_YES && (d->whole_step <= 0 || d->whole_step > size) ? 6 : 0;
}

/* The combinations that were counted, which stand in `list`, and the one that is being made. */
enum { SECOND_MOST = 65536 };
typedef struct {
    const DeDistribution *dims;
    size_t n, count;
    int64_t made[DE_MAX_DIMENSIONS];
    int64_t list[SECOND_MOST * DE_MAX_DIMENSIONS];
} SecondList;

/* "Choices rise from 0 and Int values from low by the step, or by 1 without one, and never pass high." One combination
 * too many ends it. */
static inline void second_nest(SecondList *l, size_t j) {
    if (j == l->n) {
        if (l->count < SECOND_MOST) {
            memcpy(l->list + l->count * l->n, l->made, l->n * sizeof *l->made);
        }
        l->count++;
        return;
    }
    const DeDistribution *d = &l->dims[j];
    int64_t value = d->kind == DE_CHOICE ? 0 : d->whole_low;
    int64_t last = d->kind == DE_CHOICE ? (int64_t)d->n_choices - 1 : d->whole_high;
    int64_t step = d->kind == DE_INT && d->stepped == DE_YES ? d->whole_step : 1;
    for (; value <= last && l->count <= SECOND_MOST; value += step) {
        l->made[j] = value;
        second_nest(l, j + 1);
    }
}

/* The answer, and what is then in lent memory of so many places. */
static inline DeCount second_sweep(const DeDistribution *dims, size_t n, int64_t *out, size_t room) {
    static SecondList l;
    int sweepable = n >= 1 && n <= 16;
    for (size_t i = 0; i < n; i++) {
        if (!second_named(&dims[i])) {
            return (DeCount){.kind = DE_UNKNOWN};
        }
        sweepable = sweepable && (dims[i].kind == DE_CHOICE || (dims[i].kind == DE_INT && dims[i].log_scale == DE_NO));
    }
    /* "Checks, after 4 to 7 on each dimension in turn" */
    for (size_t i = 0; i < n; i++) {
        if (second_verdict(&dims[i]) != 0) {
            return (DeCount){.kind = DE_REFUSED, .refusal = second_verdict(&dims[i])};
        }
    }
    /* "16, no dimension, more than 16, or a Float or ladder dimension" */
    if (!sweepable) {
        return (DeCount){.kind = DE_REFUSED, .refusal = 16};
    }
    /* "17, more combinations than 65,536 or than the lent memory holds" */
    l.dims = dims;
    l.n = n;
    l.count = 0;
    second_nest(&l, 0);
    if (l.count > SECOND_MOST || l.count > room / n) {
        return (DeCount){.kind = DE_REFUSED, .refusal = 17};
    }
    memcpy(out, l.list, l.count * n * sizeof *out);
    return (DeCount){.kind = DE_LISTED, .count = l.count};
}

#endif
