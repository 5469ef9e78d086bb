/* A commissioning crew tries every combination of three dimensions of a new disk model, and then tries campaigns out on
 * what was measured: table 9 of docs/GUIDE.md, and a line of table 10, as bindings/rust/examples/commission.rs has
 * them. */
#include <emkhurtov.h>

#include <math.h>
#include <stdio.h>
#include <stdlib.h>
#include <string.h>

enum { DIMENSIONS = 3, MODES = 3, TRIALS = 200, SLOTS = 8, CAMPAIGNS = 100 };

/* Cache mode, flush interval (ms), queue depth. */
static const DeDistribution dimensions[DIMENSIONS] = {
    {.kind = DE_CHOICE, .n_choices = MODES},
    {.kind = DE_INT, .whole_low = 20, .whole_high = 200, .stepped = DE_YES, .whole_step = 20},
    {.kind = DE_INT, .whole_low = 1, .whole_high = 16},
};

/* The combinations, one behind the other, what was measured with each, and the place of the best one. */
static int64_t list[DE_MAX_COMBINATIONS * DIMENSIONS];
static double results[DE_MAX_COMBINATIONS];
static size_t count, best;

static const int64_t *combination(size_t place) {
    return list + place * DIMENSIONS;
}

static void stop(const char *what, uint64_t kind, uint64_t refusal) {
    const char *why = kind == DE_REFUSED ? de_refusal_text(refusal) : "it is answered otherwise";
    fprintf(stderr, "commission: %s: %s\n", what, why);
    exit(1);
}

/* A stand-in for the disk: how long a write waits (99th percentile, ms). */
static double measure(const int64_t *settings) {
    static const double disk[MODES][3] = {{2.4, 60.0, 4.0}, {1.7, 100.0, 6.0}, {1.1, 140.0, 11.0}};
    const double *mode = disk[settings[0]];
    double flush = ((double)settings[1] - mode[1]) / 60.0, depth = ((double)settings[2] - mode[2]) / 4.0;
    return mode[0] + flush * flush + depth * depth + 0.6 * flush * depth;
}

static int by_size(const void *a, const void *b) {
    double x = *(const double *)a, y = *(const double *)b;
    return (x > y) - (x < y);
}

static double median(double *figures, size_t n) {
    qsort(figures, n, sizeof *figures, by_size);
    return (figures[(n - 1) / 2] + figures[n / 2]) / 2.0;
}

static void sweep(void) {
    static const char *const names[MODES] = {"none", "write-through", "write-back"};
    static double of_mode[DE_MAX_COMBINATIONS];
    DeCount answer = de_checked_sweep(dimensions, DIMENSIONS, list, sizeof list / sizeof *list);
    if (answer.kind != DE_LISTED) {
        stop("the sweep", answer.kind, answer.refusal);
    }
    count = (size_t)answer.count;
    for (size_t i = 0; i < count; i++) {
        results[i] = measure(combination(i));
        best = results[i] < results[best] ? i : best;
    }
    printf("9. All %zu combinations   least  flush  depth   median   most   within 10%% of the best\n", count);
    for (int64_t mode = 0; mode < MODES; mode++) {
        size_t n = 0, least = count, near = 0;
        for (size_t i = 0; i < count; i++) {
            if (combination(i)[0] == mode) {
                of_mode[n++] = results[i];
                near += results[i] <= 1.1 * results[best];
                least = least == count || results[i] < results[least] ? i : least;
            }
        }
        double middle = median(of_mode, n);
        const int64_t *settings = combination(least);
        printf("%-22s %8.2f %6d %6d %8.2f %6.2f %24zu\n", names[mode], results[least], (int)settings[1],
               (int)settings[2], middle, of_mode[n - 1], near);
    }
}

/* The list rises, so a combination is looked up in a few steps. */
static int by_place(const void *a, const void *b) {
    const int64_t *x = a, *y = b;
    size_t j = 0;
    while (j < DIMENSIONS - 1 && x[j] == y[j]) {
        j++;
    }
    return (x[j] > y[j]) - (x[j] < y[j]);
}

/* One trial at a time, each looked up in what was measured. In which trial the best combination came, from 1, or
 * infinity; and how many combinations came at all. */
static double campaign(uint64_t seed, size_t *tried) {
    static DeState state;
    static DeCompletedTrial history[TRIALS];
    static unsigned char met[DE_MAX_COMBINATIONS];
    DeSetup setup = DE_SETUP_DEFAULT;
    double found = INFINITY;
    setup.mutation_factor = 0.7;
    setup.strategy = DE_CURRENT_TO_BEST1;
    setup.sized = DE_YES;
    setup.population_size = SLOTS;
    setup.seed = seed;
    DeAnswer answer = de_checked_new(&state, sizeof state, &setup);
    if (answer.kind != DE_MADE) {
        stop("the set-up", answer.kind, answer.refusal);
    }
    memset(met, 0, sizeof met);
    for (uint64_t trial = 0; trial < TRIALS; trial++) {
        uint64_t from = trial < SLOTS ? 0 : trial - SLOTS;
        int64_t settings[DIMENSIONS];
        for (size_t j = 0; j < DIMENSIONS; j++) {
            DeCall call = {trial, dimensions[j]};
            answer = de_checked_sample(&state, sizeof state, &call, history + from, (size_t)(trial - from));
            if (answer.kind != DE_INT && answer.kind != DE_CHOICE) {
                stop("a trial", answer.kind, answer.refusal);
            }
            settings[j] = answer.kind == DE_INT ? answer.whole : (int64_t)answer.choice;
        }
        const int64_t *known = bsearch(settings, list, count, sizeof settings, by_place);
        if (known == NULL) {
            /* A high that no step meets would have to be measured; these dimensions have none. */
            stop("a trial that the sweep does not have", answer.kind, 0);
        }
        size_t place = (size_t)(known - list) / DIMENSIONS;
        *tried += !met[place];
        met[place] = 1;
        found = place == best && (double)(trial + 1) < found ? (double)(trial + 1) : found;
        history[trial] = (DeCompletedTrial){trial, results[place], DE_COMPLETE};
    }
    return found;
}

int main(void) {
    double found[CAMPAIGNS];
    size_t tried = 0, after[3] = {0};
    sweep();
    for (size_t i = 0; i < CAMPAIGNS; i++) {
        found[i] = campaign(i + 1, &tried);
        after[0] += found[i] <= 50.0;
        after[1] += found[i] <= 100.0;
        after[2] += found[i] <= TRIALS;
    }
    printf("10. Best found after so many trials          50    100    200  median  tried  measured\n");
    printf("%-41s %4zu%% %5zu%% %5zu%% %7.0f %6.0f %9.1f\n", "N = 8, F = 0.7, CurrentToBest1", after[0], after[1],
           after[2], median(found, CAMPAIGNS), (double)tried / CAMPAIGNS, 0.0);
    return 0;
}
