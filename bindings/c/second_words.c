/* What is allowed of the words of a saved file, table by table in the order of docs/SAVED.md. */
#include "second_words.h"

#include <float.h>

/* ---- The six kinds: how many words each has, by the words of kind 2. */

size_t word_count(const Lists *l, int kind) {
    const uint64_t *two = l->words[2];
    uint64_t discovered = two[2], n = two[3], d = two[4], t = two[5], closed = two[6];
    switch (kind) {
    case 1:
        return 6;
    case 2:
        return 10;
    case 3:
        return 5 * d;
    case 4:
        return 2 * t;
    case 5:
        return closed >= 1 ? n * (d + 1) : 0;
    default:
        return discovered ? larger(n, t) * d : 0;
    }
}

size_t record_count(const Lists *l, int kind) {
    return (word_count(l, kind) + 2) / 3;
}

/* ---- What is allowed. */

static int allowed_setup(const uint64_t *w) {
    double f = to_double(w[0]), cr = to_double(w[1]);
    return f >= 0.0 && f <= 2.0 && cr >= 0.0 && cr <= 1.0 && w[2] <= 2 && w[3] <= 1 && w[4] <= (w[3] ? 160 : 0);
}

/* N is bounded here by the most that it can be, so that the lists can be counted; `sound` has what it must be. */
int allowed_counts(const uint64_t *w) {
    return w[0] <= 1 && (w[0] || w[1] == 0) && w[2] <= 1 && w[3] <= DE_MAX_POPULATION && w[4] <= DE_MAX_DIMENSIONS &&
           w[5] <= w[3] + DE_MAX_EXTRA && w[6] <= UINT32_MAX && w[7] <= w[6];
}

static int allowed_float(const uint64_t *w) {
    double low = to_double(w[1]), high = to_double(w[2]), step = to_double(w[4]);
    int bounds = low >= -1e300 && high <= 1e300 && low <= high;
    if (w[3] == 0) {
        return bounds && w[4] == 0;
    }
    return bounds && w[3] == 1 && step > 0.0 && step <= DBL_MAX && (high - low) / step <= 4294967295.0;
}

static int allowed_int(const uint64_t *w) {
    int64_t low = to_signed(w[1]), high = to_signed(w[2]), step = to_signed(w[4]);
    int bounds = low >= -DE_MAX_WHOLE && high <= DE_MAX_WHOLE && low <= high;
    return bounds && (w[3] == 0 ? w[4] == 0 : w[3] == 1 && step >= 1 && step <= DE_MAX_WHOLE);
}

static int allowed_dimension(const uint64_t *w) {
    switch (w[0]) {
    case 1:
        return allowed_float(w);
    case 2:
        return allowed_int(w);
    case 3:
        return w[1] >= 1 && w[1] <= 65535 && w[2] == 0 && w[3] == 0 && w[4] == 0;
    default:
        return 0;
    }
}

static int allowed_trials(const uint64_t *w, uint64_t t, uint64_t d) {
    for (uint64_t i = 0; i < t; i++) {
        for (uint64_t j = 0; j < i; j++) {
            if (w[2 * j] == w[2 * i]) {
                return 0;
            }
        }
        if (w[2 * i + 1] > d) {
            return 0;
        }
    }
    return 1;
}

static int entry_fits(double x) {
    return x >= -4e300 && x <= 4e300;
}

/* A candidate's words, by the words of the dimensions. */
static int allowed_candidate(const uint64_t *w, const uint64_t *dims, uint64_t d) {
    for (uint64_t k = 0; k < d; k++) {
        int choice = dims[5 * k] == 3;
        if (choice ? w[k] >= dims[5 * k + 1] : !entry_fits(to_double(w[k]))) {
            return 0;
        }
    }
    return 1;
}

/* Rows of a candidate each, and after it a value where they are parents. */
static int allowed_rows(const Lists *l, int kind, uint64_t d) {
    uint64_t row = kind == 5 ? d + 1 : d;
    for (size_t i = 0; i < word_count(l, kind); i += row) {
        const uint64_t *w = l->words[kind] + i;
        double value = kind == 5 ? to_double(w[d]) : 0.0;
        if (!allowed_candidate(w, l->words[3], d) || value != value) {
            return 0;
        }
    }
    return 1;
}

/* ---- Sound. */

static uint64_t first_least(const uint64_t *parents, uint64_t n, uint64_t d) {
    uint64_t best = 0;
    for (uint64_t slot = 1; slot < n; slot++) {
        if (to_double(parents[slot * (d + 1) + d]) < to_double(parents[best * (d + 1) + d])) {
            best = slot;
        }
    }
    return best;
}

static uint64_t size(const Lists *l, uint64_t d) {
    const uint64_t *setup = l->words[1];
    uint64_t numeric = 0;
    for (uint64_t k = 0; k < d; k++) {
        numeric += l->words[3][5 * k] != 3;
    }
    return setup[3] ? larger(setup[4], 4) : larger(15, 10 * numeric);
}

static int sound(const Lists *l) {
    const uint64_t *w = l->words[2];
    uint64_t named = w[0], discovered = w[2], n = w[3], d = w[4], t = w[5], closed = w[6], idle = w[7], best = w[8];
    if (!discovered) {
        return n == 0 && t == 0 && closed == 0 && idle == 0 && best == 0 && named == (d >= 1);
    }
    return d >= 1 && named && n == size(l, d) && best == (closed == 0 ? 0 : first_least(l->words[5], n, d));
}

/* Whether the words are those of a state that a sampler can have; those of kind 2 are judged already. */
int judged(const Lists *l) {
    uint64_t d = l->words[2][4], t = l->words[2][5];
    for (uint64_t k = 0; k < d; k++) {
        if (!allowed_dimension(l->words[3] + 5 * k)) {
            return 0;
        }
    }
    return allowed_setup(l->words[1]) && allowed_trials(l->words[4], t, d) && allowed_rows(l, 5, d) &&
           allowed_rows(l, 6, d) && sound(l);
}
