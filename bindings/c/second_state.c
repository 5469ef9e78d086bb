/* The state that words stand for, and the words of a state. A vector has the entries of the Float and Int dimensions
 * alone, one after another; choices have the places of their dimensions. Unused places are as in a fresh state. */
#include "second_words.h"

#include <string.h>

static uint64_t of_double(double x) {
    uint64_t word;
    memcpy(&word, &x, sizeof word);
    return word;
}

static uint64_t of_signed(int64_t k) {
    return (uint64_t)k + (UINT64_C(1) << 63);
}

static DeDistribution dimension_of(const uint64_t *w) {
    DeDistribution d = {.kind = w[0], .stepped = w[3]};
    if (d.kind == DE_FLOAT) {
        d.low = to_double(w[1]);
        d.high = to_double(w[2]);
        d.step = to_double(w[4]);
    } else if (d.kind == DE_INT) {
        d.whole_low = to_signed(w[1]);
        d.whole_high = to_signed(w[2]);
        d.whole_step = d.stepped ? to_signed(w[4]) : 0;
    } else {
        d.n_choices = w[1];
    }
    return d;
}

static void dimension_words(const DeDistribution *d, uint64_t *w) {
    memset(w, 0, 5 * sizeof *w);
    w[0] = d->kind;
    if (d->kind == DE_CHOICE) {
        w[1] = d->n_choices;
        return;
    }
    int real = d->kind == DE_FLOAT;
    w[1] = real ? of_double(d->low) : of_signed(d->whole_low);
    w[2] = real ? of_double(d->high) : of_signed(d->whole_high);
    w[3] = d->stepped;
    if (d->stepped) {
        w[4] = real ? of_double(d->step) : of_signed(d->whole_step);
    }
}

static void lay_candidate(DeCandidate *c, const uint64_t *w, const DeState *s) {
    int entries = 0;
    for (uint64_t k = 0; k < s->n_dims; k++) {
        if (s->dims[k].kind == DE_CHOICE) {
            c->choices[k] = (uint16_t)w[k];
        } else {
            c->x[entries++] = to_double(w[k]);
        }
    }
}

static void candidate_words(const DeCandidate *c, uint64_t *w, const DeState *s) {
    int entries = 0;
    for (uint64_t k = 0; k < s->n_dims; k++) {
        w[k] = s->dims[k].kind == DE_CHOICE ? c->choices[k] : of_double(c->x[entries++]);
    }
}

void lay(DeState *s, const Lists *l) {
    const uint64_t *one = l->words[1], *two = l->words[2];
    memset(s, 0, sizeof *s);
    s->setup = (DeSetup){to_double(one[0]), to_double(one[1]), one[2], one[3], one[4], one[5], DE_CLAMP};
    s->named = two[0];
    s->first = two[1];
    s->discovered = two[2];
    s->n = two[3];
    s->n_dims = two[4];
    s->n_trials = two[5];
    s->closed = (uint32_t)two[6];
    s->idle = (uint32_t)two[7];
    s->best = two[8];
    s->word = two[9];
    for (uint64_t k = 0; k < DE_MAX_DIMENSIONS; k++) {
        s->dims[k] = k < s->n_dims ? dimension_of(l->words[3] + 5 * k) : (DeDistribution){.kind = DE_CHOICE};
    }
    for (uint64_t i = 0; i < s->n_trials; i++) {
        s->trials[i] = (DeTrialProgress){l->words[4][2 * i], l->words[4][2 * i + 1]};
    }
    for (uint64_t i = 0; s->closed >= 1 && i < s->n; i++) {
        const uint64_t *w = l->words[5] + i * (s->n_dims + 1);
        lay_candidate(&s->parents[i].candidate, w, s);
        s->parents[i].value = to_double(w[s->n_dims]);
    }
    for (uint64_t i = 0; s->discovered && i < larger(s->n, s->n_trials); i++) {
        lay_candidate(&s->candidates[i], l->words[6] + i * s->n_dims, s);
    }
}

/* Whether each number that stands for a case names one, and each count is one of places that there are. */
static int names_cases(const DeState *s) {
    int dims = 1;
    for (int k = 0; k < DE_MAX_DIMENSIONS; k++) {
        const DeDistribution *d = &s->dims[k];
        int numeric = (d->kind == DE_FLOAT || d->kind == DE_INT) && d->log_scale <= DE_YES && d->stepped <= DE_YES;
        dims = dims && (d->kind == DE_CHOICE || numeric);
    }
    return dims && s->setup.strategy <= DE_CURRENT_TO_BEST1 && s->setup.sized <= DE_YES && s->named <= DE_YES &&
           s->discovered <= DE_YES && s->n <= DE_MAX_POPULATION && s->n_dims <= DE_MAX_DIMENSIONS &&
           s->n_trials <= DE_MAX_TRIALS;
}

/* The words of a state whose numbers name cases. */
static void list(const DeState *s, Lists *l) {
    const DeSetup *u = &s->setup;
    uint64_t one[6] = {of_double(u->mutation_factor),
                       of_double(u->crossover_rate),
                       u->strategy,
                       u->sized,
                       u->sized == DE_YES ? u->population_size : 0,
                       u->seed};
    uint64_t two[12] = {s->named,      s->named == DE_YES ? s->first : 0,
                        s->discovered, s->n,
                        s->n_dims,     s->n_trials,
                        s->closed,     s->idle,
                        s->best,       s->word};
    memcpy(l->words[1], one, sizeof one);
    memcpy(l->words[2], two, sizeof two);
    for (uint64_t k = 0; k < s->n_dims; k++) {
        dimension_words(&s->dims[k], l->words[3] + 5 * k);
    }
    for (uint64_t i = 0; i < s->n_trials; i++) {
        l->words[4][2 * i] = s->trials[i].number;
        l->words[4][2 * i + 1] = s->trials[i].next_dim;
    }
    for (uint64_t i = 0; s->closed >= 1 && i < s->n; i++) {
        uint64_t *w = l->words[5] + i * (s->n_dims + 1);
        candidate_words(&s->parents[i].candidate, w, s);
        w[s->n_dims] = of_double(s->parents[i].value);
    }
    for (uint64_t i = 0; s->discovered && i < larger(s->n, s->n_trials); i++) {
        candidate_words(&s->candidates[i], l->words[6] + i * s->n_dims, s);
    }
    /* A list's last record has at most two words past its end. */
    for (int kind = 1; kind <= KINDS; kind++) {
        size_t end = word_count(l, kind);
        l->words[kind][end] = l->words[kind][end + 1] = 0;
    }
}

/* Whether the places that no word stands for are as in a fresh state. A field that a kind or flag has no use for may
 * hold any number. */
static int unused_are_fresh(const DeState *s, const Lists *l) {
    static DeState laid;
    for (uint64_t k = s->n_dims; k < DE_MAX_DIMENSIONS; k++) {
        if (s->dims[k].kind != DE_CHOICE || s->dims[k].n_choices != 0) {
            return 0;
        }
    }
    lay(&laid, l);
    return memcmp(s->candidates, laid.candidates, sizeof s->candidates) == 0 &&
           memcmp(s->parents, laid.parents, sizeof s->parents) == 0 &&
           memcmp(s->trials, laid.trials, sizeof s->trials) == 0;
}

/* Whether a file has a place for all of it: it has none yet for midpoint and for log scale. */
static int has_place(const DeState *s) {
    for (uint64_t k = 0; k < s->n_dims; k++) {
        if (s->dims[k].kind != DE_CHOICE && s->dims[k].log_scale != DE_NO) {
            return 0;
        }
    }
    return s->setup.bounds_rule == DE_CLAMP;
}

int words_of(const DeState *s, Lists *l) {
    if (!names_cases(s) || !has_place(s)) {
        return 0;
    }
    list(s, l);
    return allowed_counts(l->words[2]) && judged(l) && unused_are_fresh(s, l);
}
