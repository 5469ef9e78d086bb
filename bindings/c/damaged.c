/* Files that are damaged at random, from a fixed seed (judge.h says what is expected of each): as many as the argument
 * says, 250,000 without one. Status 0 where all is as expected. */
#include "judge.h"

/* ---- Random numbers, from a fixed seed (SplitMix64). */

static uint64_t word = 2026;

static uint64_t draw(void) {
    uint64_t z = word += UINT64_C(0x9e3779b97f4a7c15);
    z = (z ^ z >> 30) * UINT64_C(0xbf58476d1ce4e5b9);
    z = (z ^ z >> 27) * UINT64_C(0x94d049bb133111eb);
    return z ^ z >> 31;
}

static size_t below(size_t n) {
    return (size_t)(draw() % n);
}

/* ---- Damage. */

/* A word from those that lie at a limit or are easily taken for another. */
static uint64_t nasty(void) {
    static const uint64_t counts[] = {
        0, 1, 2, 3, 4, 15, 16, 17, 160, 161, 224, 225, 65535, 65536, UINT32_MAX, UINT64_C(1) << 32, UINT64_MAX};
    /* Signed numbers: 0, which is minus zero too, 1, -1, 2^53, 2^53 + 1, -2^53, -2^53 - 1; and 2^53 + 1 as it is. */
    static const uint64_t wholes[] = {UINT64_C(0x8000000000000000), UINT64_C(0x8000000000000001),
                                      UINT64_C(0x7fffffffffffffff), UINT64_C(0x8020000000000000),
                                      UINT64_C(0x8020000000000001), UINT64_C(0x7fe0000000000000),
                                      UINT64_C(0x7fdfffffffffffff), UINT64_C(0x0020000000000001)};
    /* Doubles: infinities, NaN, the largest, 4e300, 1e300, 2, 1 and 0.5 with neighbours, the largest subnormal. */
    static const uint64_t doubles[] = {
        UINT64_C(0x7ff0000000000000), UINT64_C(0xfff0000000000000), UINT64_C(0x7ff8000000000000),
        UINT64_C(0x7ff0000000000001), UINT64_C(0xfff8000000000001), UINT64_C(0x7fefffffffffffff),
        UINT64_C(0xffefffffffffffff), UINT64_C(0x7e57e43c8800759c), UINT64_C(0x7e57e43c8800759d),
        UINT64_C(0xfe57e43c8800759c), UINT64_C(0xfe57e43c8800759d), UINT64_C(0x7e37e43c8800759c),
        UINT64_C(0x7e37e43c8800759d), UINT64_C(0xfe37e43c8800759c), UINT64_C(0xfe37e43c8800759d),
        UINT64_C(0x4000000000000000), UINT64_C(0x4000000000000001), UINT64_C(0x3ff0000000000000),
        UINT64_C(0x3ff0000000000001), UINT64_C(0x3fe0000000000000), UINT64_C(0x000fffffffffffff)};
    switch (below(3)) {
    case 0:
        return counts[below(sizeof counts / sizeof *counts)];
    case 1:
        return wholes[below(sizeof wholes / sizeof *wholes)];
    default:
        return doubles[below(sizeof doubles / sizeof *doubles)];
    }
}

static void flip_bytes(void) {
    for (size_t times = 1 + below(4); times > 0; times--) {
        file[below(length)] ^= (uint8_t)(1 + below(255));
    }
}

static void nasty_words(void) {
    for (size_t times = 1 + below(3); times > 0; times--) {
        put(below(records()), 3 + (int)below(3), nasty());
    }
}

/* A word or a field of one record put into another. */
static void copy_field(void) {
    int field = (int)below(6);
    put(below(records()), field >= 3 ? 3 + (int)below(3) : field, get(below(records()), field));
}

/* A word changed by a little: many of these files are other states' files. */
static void nudge_word(void) {
    size_t record = below(records());
    int field = 3 + (int)below(3);
    put(record, field, get(record, field) + below(5) - 2);
}

static void swap_records(void) {
    uint8_t one[RECORD];
    size_t a = RECORD * below(records()), b = RECORD * below(records());
    size_t from = below(2) ? 2 : 0; /* with their `next` or without */
    memcpy(one, file + a + from, RECORD - from);
    memcpy(file + a + from, file + b + from, RECORD - from);
    memcpy(file + b + from, one, RECORD - from);
}

static void cut_off(void) {
    length = below(2) ? below(length) : RECORD * below(records());
}

static void extend(void) {
    size_t more = below(2) ? below(200) : RECORD * below(8);
    for (size_t i = 0; i < more; i++) {
        file[length + i] = (uint8_t)draw();
    }
    length += more;
}

static void fill(size_t bytes) {
    length = bytes;
    for (size_t i = 0; i < length; i++) {
        file[i] = (uint8_t)draw();
    }
}

/* Nothing but random bytes; or these in a chain of known kinds and small positions. */
static void garbage(void) {
    int chained = below(2) == 0;
    fill(chained ? RECORD * (1 + below(40)) : below(1000));
    for (size_t k = 0; chained && k < records(); k++) {
        put(k, 0, k + 1 < records() ? k + 1 : 0);
        put(k, 1, 1 + below(6));
        put(k, 2, below(8));
    }
}

/* Places 0 to n - 1 in a random order. */
static void shuffle(size_t *places, size_t n) {
    for (size_t i = 0; i < n; i++) {
        size_t j = below(i + 1);
        places[i] = places[j];
        places[j] = i;
    }
}

/* The records at other places and in another order, with junk between them: the same state. */
static void reorder(void) {
    static uint8_t was[DE_MAX_FILE];
    static size_t order[DE_MAX_FILE / RECORD], place[DE_MAX_FILE / RECORD + 16];
    size_t n = records(), room = n + below(16), start = 0;
    memcpy(was, file, length);
    fill(RECORD * room);
    shuffle(order, n);
    shuffle(place, room);
    while (place[start] != 0) {
        start++;
    }
    /* The chain starts at record 0. */
    place[start] = place[0];
    place[0] = 0;
    for (size_t i = 0; i < n; i++) {
        memcpy(file + RECORD * place[i], was + RECORD * order[i], RECORD);
        put(place[i], 0, i + 1 < n ? place[i + 1] : 0);
    }
}

/* A record more on the chain, behind its last: of any kind, at a position that a record has or at none. */
static void insert_record(void) {
    size_t last = records() - 1;
    length += RECORD;
    memcpy(file + RECORD * (last + 1), file + RECORD * below(last + 1), RECORD);
    put(last, 0, last + 1);
    put(last + 1, 0, 0);
    if (below(3) != 0) {
        put(last + 1, 1, below(9));
    }
    if (below(3) != 0) {
        put(last + 1, 2, below(2) ? below(40) : draw());
    }
}

/* A record less on the chain. */
static void leave_out(void) {
    size_t record = below(records() - 1);
    put(record, 0, get((size_t)get(record, 0), 0));
}

static void random_damage(unsigned long files) {
    static void (*const kinds[])(void) = {flip_bytes, nasty_words, copy_field,    nudge_word, swap_records,
                                          cut_off,    extend,      insert_record, leave_out,  garbage};
    for (unsigned long i = 0; i < files; i++) {
        /* The largest state seldom: its file is fifty times as long as the others. */
        take(below(1000) == 0 ? &kept[KEPT] : &kept[below(KEPT)]);
        size_t kind = below(12);
        if (kind >= 10) {
            reorder();
        }
        if (kind != 10) {
            kinds[kind < 10 ? kind : below(5)]();
        }
        DeFile f = judge();
        EXPECT(kind != 10 || f.kind == DE_RESTORED);
    }
}

int main(int argc, char **argv) {
    unsigned long files = argc > 1 ? strtoul(argv[1], NULL, 10) : 250000;
    test = "C damaged files";
    judge_all_kept();
    random_damage(files);
    told("damaged at random");
    return ended(test);
}
