/* Saved files with one thing changed (judge.h says what is expected of each): words at their limits and just past them,
 * by hand from the tables of docs/SAVED.md, and then every field of every record. Status 0 where all is as expected. */
#include "judge.h"

/* A word of the file that is judged now, by its kind and its place in the kind's list. */
static void put_word(uint64_t kind, size_t word, uint64_t value) {
    for (size_t k = 0; k < records(); k++) {
        if (get(k, 1) == kind && get(k, 2) == word / 3) {
            put(k, 3 + (int)(word % 3), value);
            return;
        }
    }
    EXPECT(kind == 0);
}

static uint64_t real(double x) {
    uint64_t word;
    memcpy(&word, &x, sizeof word);
    return word;
}

static uint64_t whole(int64_t k) {
    return (uint64_t)k + (UINT64_C(1) << 63);
}

/* The file that by-hand changes start from, of a state with N = 4 and D = 5 after two closings; its dimensions are a
 * Float, an Int with a step, a choice of 4, a Float with a step and an Int, and two trials are open. */
static Kept base;
static Walk walk;
enum { NO = 0, YES = 1 };

/* The file with this word is a state's, or is refused by 13. Words that were put before count too. */
static void word(uint64_t kind, size_t at, uint64_t value, int allowed) {
    put_word(kind, at, value);
    DeFile f = judge();
    EXPECT(allowed ? f.kind == DE_RESTORED : f.kind == DE_REFUSED && f.refusal == DE_BAD_CONTENT);
    take(&base);
}

static void setup_words(void) {
    static const double above_two = 2.0000000000000004, above_one = 1.0000000000000002, tiny = 5e-324;
    for (size_t at = 0; at < 2; at++) {
        word(1, at, real(0.0), YES);
        word(1, at, real(-0.0), YES);
        word(1, at, real(tiny), YES);
        word(1, at, real(-tiny), NO);
        word(1, at, real(NAN), NO);
        word(1, at, real(INFINITY), NO);
    }
    word(1, 0, real(2.0), YES);
    word(1, 0, real(above_two), NO);
    word(1, 1, real(1.0), YES);
    word(1, 1, real(above_one), NO);
    for (uint64_t strategy = 0; strategy <= 2; strategy++) {
        word(1, 2, strategy, YES);
    }
    word(1, 2, 3, NO);
    /* N is 4: a size below it is raised to it, and any other gives another N. */
    for (uint64_t size = 0; size <= 4; size++) {
        word(1, 4, size, YES);
    }
    word(1, 4, 5, NO);
    word(1, 4, 161, NO);
    word(1, 3, 2, NO);
    /* No size: N is 10 for each of the four Float and Int dimensions. */
    put_word(1, 4, 0);
    word(1, 3, 0, NO);
    word(1, 5, UINT64_MAX, YES);
}

static void count_words(void) {
    word(2, 0, 0, NO);
    word(2, 0, 2, NO);
    word(2, 1, UINT64_MAX, YES);
    word(2, 2, 0, NO);
    word(2, 2, 2, NO);
    word(2, 3, 5, NO);
    word(2, 3, UINT64_MAX, NO);
    word(2, 4, 4, NO);
    word(2, 4, 17, NO);
    word(2, 5, 1, NO);
    word(2, 5, 69, NO);
    /* One closed generation or many: the rows are as many. Idle generations are two at most. */
    word(2, 6, 0, NO);
    word(2, 6, UINT32_MAX, YES);
    word(2, 6, (uint64_t)UINT32_MAX + 1, NO);
    word(2, 7, 0, YES);
    word(2, 7, 2, YES);
    word(2, 7, 3, NO);
    put_word(2, 6, UINT32_MAX);
    word(2, 7, UINT32_MAX, YES);
    word(2, 8, 3, NO);
    word(2, 8, 4, NO);
    word(2, 8, UINT64_MAX, NO);
    word(2, 9, UINT64_MAX, YES);
    word(2, 10, 1, NO);
    word(2, 11, UINT64_C(1) << 63, NO);
}

/* The bounds of a Float at word `at` of kind 3, which is low; the next one is high. */
static void float_words(size_t at) {
    static const double most = 1e300, over = 1.0000000000000002e300;
    word(3, at, real(-most), YES);
    word(3, at, real(-over), NO);
    word(3, at, real(NAN), NO);
    word(3, at, real(-INFINITY), NO);
    word(3, at, real(256.0), YES);
    word(3, at, real(256.00000000000006), NO);
    word(3, at + 1, real(most), YES);
    word(3, at + 1, real(over), NO);
    word(3, at + 1, real(INFINITY), NO);
    word(3, at + 1, real(-8.0), YES);
    word(3, at + 1, real(-8.000000000000002), NO);
}

/* The steps of the fourth dimension, 0 to 1 by 0.125. */
static void step_words(void) {
    enum { LOW = 16, HIGH, FLAG, STEP };
    static const double bad[] = {0.0, -0.0, -0.125, INFINITY, NAN, 2e-10};
    for (size_t i = 0; i < sizeof bad / sizeof *bad; i++) {
        word(3, STEP, real(bad[i]), NO);
    }
    word(3, STEP, real(1.7976931348623157e308), YES);
    word(3, FLAG, 0, NO);
    word(3, FLAG, 2, NO);
    put_word(3, FLAG, 0);
    word(3, STEP, 0, YES);
    put_word(3, FLAG, 0);
    word(3, STEP, real(-0.0), NO);
    /* 4,294,967,295 steps, and a little more. */
    word(3, HIGH, real(536870911.875), YES);
    word(3, HIGH, real(536870911.87500006), NO);
    put_word(3, LOW, real(-1e300));
    word(3, STEP, real(1e291), YES);
    put_word(3, LOW, real(-1e300));
    put_word(3, HIGH, real(1e300));
    word(3, STEP, real(4e290), NO);
}

static void whole_words(void) {
    enum { LOW = 6, HIGH, FLAG, STEP };
    word(3, LOW, whole(-DE_MAX_WHOLE), YES);
    word(3, LOW, whole(-DE_MAX_WHOLE - 1), NO);
    word(3, LOW, whole(64), YES);
    word(3, LOW, whole(65), NO);
    word(3, LOW, 0, NO);
    word(3, HIGH, whole(DE_MAX_WHOLE), YES);
    word(3, HIGH, whole(DE_MAX_WHOLE + 1), NO);
    word(3, HIGH, UINT64_MAX, NO);
    word(3, HIGH, whole(-6), NO);
    word(3, STEP, whole(1), YES);
    word(3, STEP, whole(DE_MAX_WHOLE), YES);
    word(3, STEP, whole(DE_MAX_WHOLE + 1), NO);
    word(3, STEP, whole(0), NO);
    word(3, STEP, whole(-1), NO);
    word(3, FLAG, 0, NO);
    put_word(3, FLAG, 0);
    word(3, STEP, 0, YES);
    put_word(3, FLAG, 0);
    word(3, STEP, whole(0), NO);
    word(3, FLAG, 2, NO);
}

static void choice_words(void) {
    enum { KIND = 10, CHOICES };
    word(3, CHOICES, 65535, YES);
    word(3, CHOICES, 65536, NO);
    word(3, CHOICES, 0, NO);
    for (size_t at = CHOICES + 1; at < KIND + 5; at++) {
        word(3, at, 1, NO);
    }
    for (uint64_t kind = 0; kind <= 4; kind++) {
        word(3, KIND, kind, kind == 3);
    }
    /* The last dimension's words end within a record. */
    word(3, 25, 1, NO);
    word(3, 26, 1, NO);
}

static void trial_words(void) {
    word(4, 0, UINT64_MAX / 2, YES);
    word(4, 1, 5, YES);
    word(4, 1, 0, YES);
    word(4, 1, 6, NO);
    word(4, 1, UINT64_MAX, NO);
    put_word(4, 0, 7);
    word(4, 2, 7, NO);
    word(4, 4, 1, NO);
}

/* The row of parents or of candidates whose first word is word `at`: a Float's entry, an Int's, a choice, a Float's and
 * an Int's. */
static void row_words(uint64_t kind, size_t at) {
    static const size_t entries[4] = {0, 1, 3, 4};
    static const double fit[] = {-0.0, 4e300, -4e300};
    static const double unfit[] = {4.000000000000001e300, -4.000000000000001e300, 1e308, INFINITY, -INFINITY, NAN};
    for (size_t i = 0; i < 4; i++) {
        for (size_t k = 0; k < sizeof fit / sizeof *fit; k++) {
            word(kind, at + entries[i], real(fit[k]), YES);
        }
        for (size_t k = 0; k < sizeof unfit / sizeof *unfit; k++) {
            word(kind, at + entries[i], real(unfit[k]), NO);
        }
    }
    word(kind, at + 2, 3, YES);
    word(kind, at + 2, 4, NO);
    word(kind, at + 2, 65536, NO);
    word(kind, at + 2, UINT64_MAX, NO);
}

/* The values of the four parents; the best slot's place is word 8 of kind 2. */
static void values(void) {
    static const struct {
        double values[4];
        uint64_t best;
    } cases[] = {{{INFINITY, INFINITY, INFINITY, INFINITY}, 0},
                 {{3.0, 2.0, 1.0, 1.0}, 2},
                 {{0.0, -0.0, 5.0, 0.0}, 0},
                 {{1.0, -0.0, 0.0, 0.0}, 1},
                 {{INFINITY, 5.0, -INFINITY, -1e308}, 2},
                 {{5.0, 5e-324, 0.0, -5e-324}, 3}};
    for (size_t i = 0; i < sizeof cases / sizeof *cases; i++) {
        for (uint64_t best = 0; best <= 4; best++) {
            for (size_t slot = 0; slot < 4; slot++) {
                put_word(5, 6 * slot + 5, real(cases[i].values[slot]));
            }
            word(2, 8, best, best == cases[i].best);
        }
    }
    for (size_t slot = 0; slot < 4; slot++) {
        word(5, 6 * slot + 5, real(NAN), NO);
    }
}

/* 68 open trials of a state with N = 4, the most there are; and one more, for which its last records have the room. */
static void extra_words(void) {
    walk_begin(&walk, DE_RAND1, 4, 1, WALK_TRIALS);
    while (walk.state.n_trials < 4 + DE_MAX_EXTRA) {
        walk_on(&walk);
    }
    base = keep(&walk.state);
    take(&base);
    /* The last extra's entry. */
    word(6, 67, real(4e300), YES);
    word(6, 67, real(-4.000000000000001e300), NO);
    for (uint64_t n = 4; n <= 5; n++) {
        take(&base);
        put_word(1, 4, n);
        put_word(2, 3, n);
        put_word(4, 2 * 68, 1234);
        put_word(6, 68, real(1.0));
        word(2, 5, 69, n == 5);
    }
    free(base.bytes);
}

static void by_hand(void) {
    walk_begin(&walk, DE_BEST1, 4, 5, 0);
    while (walk.state.closed < 2 || walk.state.n_trials < 2) {
        walk_on(&walk);
    }
    base = keep(&walk.state);
    take(&base);
    EXPECT(base.length == RECORD * (2 + 4 + 9 + 2 + 8 + 7));
    setup_words();
    count_words();
    float_words(1);
    step_words();
    whole_words();
    choice_words();
    trial_words();
    /* The first slot and the last. */
    row_words(5, 0);
    row_words(5, 3 * 6);
    row_words(6, 0);
    row_words(6, 3 * 5);
    values();
    free(base.bytes);
    extra_words();
}

/* ---- Every field of every record. */

static void change_each_field(const Kept *k) {
    size_t records = k->length / RECORD;
    take(k);
    for (size_t record = 0; record < records; record++) {
        for (int field = 0; field < 6; field++) {
            uint64_t was = get(record, field), top = UINT64_C(1) << (8 * fields[field].size - 1);
            const uint64_t values[] = {0,        was + 1, was - 1, was ^ top, get((record + 1) % records, field),
                                       was + 32, 1,       2,       3,         get((record + 7) % records, field)};
            for (size_t i = 0; i < sizeof values / sizeof *values; i++) {
                put(record, field, values[i]);
                judge();
            }
            put(record, field, was);
        }
    }
    EXPECT(judge().kind == DE_RESTORED);
}

int main(void) {
    test = "C changed files";
    judge_all_kept();
    by_hand();
    told("words at their limits");
    for (size_t i = 0; i < KEPT; i++) {
        change_each_field(&kept[i]);
    }
    told("a field of a record");
    return ended(test);
}
