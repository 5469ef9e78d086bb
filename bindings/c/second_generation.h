/* A second reading of candidates, which the library's are held against, random ones and those that follow on a
 * generation: mutation, crossover and choices from document 01 ("Generator", steps 2 to 4), midpoint and the bounds of
 * ladders from document 02 (W7, W9). */
#ifndef SECOND_GENERATION_H
#define SECOND_GENERATION_H

#include <emkhurtov.h>

#include <math.h>
#include <string.h>

#include "second_ladder.h"

typedef struct {
    DeCandidate candidates[DE_MAX_POPULATION]; /* in the places of their slots; the others are as in a fresh state */
    uint64_t word;                             /* the generator after them */
    uint64_t draws;
    size_t below, above; /* how many entries are from a mutant that was below its low, or above its high, bound */
    size_t nans;         /* how many from a mutant that was NaN */
    double largest;      /* the size of the largest mutant's entry */
} Generation;

/* What candidates are made from: a state's set-up, dimensions, parents and best slot, with bounds for each entry. */
typedef struct {
    const DeState *state;
    double low[DE_MAX_DIMENSIONS], high[DE_MAX_DIMENSIONS];
    uint64_t entries;
} Makings;

static uint64_t drawn_output(Generation *g) {
    g->draws++;
    uint64_t z = g->word += UINT64_C(0x9e3779b97f4a7c15);
    z = (z ^ z >> 30) * UINT64_C(0xbf58476d1ce4e5b9);
    z = (z ^ z >> 27) * UINT64_C(0x94d049bb133111eb);
    return z ^ z >> 31;
}

static int is_taken(const uint64_t *taken, size_t n, uint64_t index) {
    for (size_t k = 0; k < n; k++) {
        if (taken[k] == index) {
            return 1;
        }
    }
    return 0;
}

/* An index below N that is none of those taken; after 1,024 rejected draws the lowest one. */
static uint64_t drawn_index(Generation *g, uint64_t slots, const uint64_t *taken, size_t n) {
    for (int rejected = 0; rejected < 1024; rejected++) {
        uint64_t index = drawn_output(g) % slots;
        if (!is_taken(taken, n, index)) {
            return index;
        }
    }
    uint64_t index = 0;
    while (is_taken(taken, n, index)) {
        index++;
    }
    return index;
}

/* Entry j of the mutant of slot t[0], with the indices t[1], t[2] and t[3]. */
static double mutant_entry(const Makings *m, const uint64_t *t, uint64_t j) {
    const DeMember *p = m->state->parents;
    double f = m->state->setup.mutation_factor, x = p[t[0]].candidate.x[j], b = p[m->state->best].candidate.x[j];
    double x1 = p[t[1]].candidate.x[j], x2 = p[t[2]].candidate.x[j];
    switch (m->state->setup.strategy) {
    case DE_RAND1:
        return x1 + f * (x2 - p[t[3]].candidate.x[j]);
    case DE_BEST1:
        return b + f * (x1 - x2);
    default:
        return (x + f * (b - x)) + f * (x1 - x2);
    }
}

static double clamped(double v, double low, double high) {
    return v < low ? low : v > high ? high : v;
}

/* Entry j as the mutant's, x being the parent's. */
static double from_mutant(const Makings *m, double v, double x, uint64_t j, Generation *g) {
    double low = m->low[j], high = m->high[j];
    int below = v<low, above = v> high;
    g->below += (size_t)below;
    g->above += (size_t)above;
    g->nans += v != v;
    g->largest = fabs(v) > g->largest ? fabs(v) : g->largest;
    if (m->state->setup.bounds_rule == DE_MIDPOINT && (below || above)) {
        double sum = x + (below ? low : high);
        v = sum / 2.0;
    }
    return clamped(v, low, high);
}

static void cross(const Makings *m, uint64_t slot, Generation *g) {
    uint64_t t[4] = {slot, 0, 0, 0};
    size_t indices = m->state->setup.strategy == DE_RAND1 ? 3 : 2;
    for (size_t k = 1; k <= indices; k++) {
        t[k] = drawn_index(g, m->state->n, t, k);
    }
    uint64_t star = drawn_output(g) % m->entries;
    for (uint64_t j = 0; j < m->entries; j++) {
        double x = m->state->parents[slot].candidate.x[j];
        int mutated = j == star || (double)(drawn_output(g) >> 11) * 0x1p-53 < m->state->setup.crossover_rate;
        g->candidates[slot].x[j] =
            mutated ? from_mutant(m, mutant_entry(m, t, j), x, j, g) : clamped(x, m->low[j], m->high[j]);
    }
}

static inline Makings makings(const DeState *s) {
    Makings m = {.state = s};
    for (uint64_t k = 0; k < s->n_dims; k++) {
        if (s->dims[k].kind != DE_CHOICE) {
            second_bounds(&s->dims[k], &m.low[m.entries], &m.high[m.entries]);
            m.entries++;
        }
    }
    return m;
}

static void draw_choices(const DeState *s, DeCandidate *c, Generation *g) {
    for (uint64_t k = 0; k < s->n_dims; k++) {
        if (s->dims[k].kind == DE_CHOICE) {
            c->choices[k] = (uint16_t)(drawn_output(g) % s->dims[k].n_choices);
        }
    }
}

/* The candidates that follow on the state's parents where at least one dimension is a Float or an Int, from the
 * generator's word `word` on. */
static inline void second_generation(const DeState *s, uint64_t word, Generation *g) {
    Makings m = makings(s);
    memset(g, 0, sizeof *g);
    g->word = word;
    for (uint64_t slot = 0; slot < s->n; slot++) {
        cross(&m, slot, g);
        draw_choices(s, &g->candidates[slot], g);
    }
}

/* As many random candidates, from the generator's word `word` on. */
static inline void second_randoms(const DeState *s, uint64_t count, uint64_t word, Generation *g) {
    Makings m = makings(s);
    memset(g, 0, sizeof *g);
    g->word = word;
    for (uint64_t i = 0; i < count; i++) {
        for (uint64_t j = 0; j < m.entries; j++) {
            double unit = (double)(drawn_output(g) >> 11) * 0x1p-53;
            g->candidates[i].x[j] = m.low[j] + unit * (m.high[j] - m.low[j]);
        }
        draw_choices(s, &g->candidates[i], g);
    }
}

#endif
