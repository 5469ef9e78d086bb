/* Sweeps of many spaces, held against a second reading of document 02 (W10): the limits, products that would wrap, and
 * random spaces of 1 to 20 dimensions. Status 0 where all is as expected. */
#include <emkhurtov.h>

#include "expect.h"
#include "sweeps.h"

/* ---- The limit: 65,536 combinations are listed, and 65,537 are refused; room for each is enough, one less is not. */

static void limits(void) {
    static const struct {
        size_t n;
        DeDistribution dims[3];
        uint64_t count;
    } rows[] = {
        {1, {INT(0, 65535)}, 65536},
        {1, {INT(-DE_MAX_WHOLE, 65535 - DE_MAX_WHOLE)}, 65536},
        {1, {STEPPED(-DE_MAX_WHOLE, DE_MAX_WHOLE - 1, INT64_C(1) << 38)}, 65536},
        {1, {STEPPED(3, 3 + 65536 * 7 - 1, 7)}, 65536},
        {1, {CHOICE(65535)}, 65535},
        {2, {CHOICE(2), STEPPED(-32768, 32766, 2)}, 65536},
        {2, {CHOICE(256), INT(1, 256)}, 65536},
        {2, {INT(5, 5), INT(0, 65535)}, 65536},
        {2, {INT(0, 65535), CHOICE(1)}, 65536},
        {3, {INT(0, 3), CHOICE(16384), INT(9, 9)}, 65536},
        {3, {CHOICE(3), CHOICE(5), INT(0, 4368)}, 65535},
        {1, {INT(0, 65536)}, 0},
        {1, {STEPPED(-DE_MAX_WHOLE, DE_MAX_WHOLE, INT64_C(1) << 38)}, 0},
        {1, {STEPPED(3, 3 + 65536 * 7, 7)}, 0},
        {1, {INT(0, DE_MAX_WHOLE)}, 0},
        {1, {INT(-DE_MAX_WHOLE, DE_MAX_WHOLE)}, 0},
        {2, {INT(0, 65536), INT(4, 4)}, 0},
        {2, {INT(4, 4), INT(0, 65536)}, 0},
        {2, {CHOICE(2), INT(0, 32768)}, 0},
        {2, {CHOICE(65535), CHOICE(2)}, 0},
        {3, {CHOICE(41), CHOICE(41), CHOICE(39)}, 0},
        /* 2^32; 2^32 + 1; 2^64; 2^64 + 1, which is the product of these two primes; 2^64 + 65,536. */
        {2, {INT(1, 65536), INT(1, 65536)}, 0},
        {2, {INT(1, 641), INT(1, 6700417)}, 0},
        {2, {INT(1, INT64_C(1) << 32), INT(1, INT64_C(1) << 32)}, 0},
        {2, {INT(1, 274177), INT(1, INT64_C(67280421310721))}, 0},
        {3, {INT(1, 65536), INT(1, INT64_C(4278255361)), INT(1, 65537)}, 0},
    };
    for (size_t i = 0; i < COUNT(rows); i++) {
        size_t enough = rows[i].n * (rows[i].count == 0 ? DE_MAX_COMBINATIONS : rows[i].count);
        DeCount c = taken(rows[i].dims, rows[i].n, enough);
        EXPECT(rows[i].count == 0 ? is_refused(c, DE_TOO_MANY) : is_listed(c, rows[i].count));
        EXPECT(is_refused(taken(rows[i].dims, rows[i].n, enough - 1), DE_TOO_MANY));
        EXPECT(is_refused(taken(rows[i].dims, rows[i].n, 0), DE_TOO_MANY));
        EXPECT(taken(rows[i].dims, rows[i].n, PLACES).kind == c.kind);
    }
}

/* As many dimensions as there may be, the largest, and values of 1 to 17 among them. */
static void many_dimensions(void) {
    DeDistribution dims[DE_MAX_DIMENSIONS];
    for (size_t n = 1; n <= DE_MAX_DIMENSIONS; n++) {
        for (int64_t most = 1; most <= DE_MAX_WHOLE; most *= 2) {
            for (size_t i = 0; i < n; i++) {
                dims[i] = (DeDistribution)INT(1 - most, 0);
            }
            taken(dims, n, n << 10);
            for (size_t i = 0; i < n; i++) {
                dims[i] = (DeDistribution)INT(-most, most);
            }
            taken(dims, n, n << 10);
        }
    }
    for (size_t i = 0; i < DE_MAX_DIMENSIONS; i++) {
        dims[i] = (DeDistribution)INT(-(int64_t)i, 1 - (int64_t)i);
    }
    EXPECT(is_listed(taken(dims, DE_MAX_DIMENSIONS, PLACES), DE_MAX_COMBINATIONS));
    EXPECT(is_refused(taken(dims, DE_MAX_DIMENSIONS, PLACES - 1), DE_TOO_MANY));
    for (size_t i = 0; i < DE_MAX_DIMENSIONS; i++) {
        dims[i].whole_high++;
        EXPECT(is_refused(taken(dims, DE_MAX_DIMENSIONS, PLACES), DE_TOO_MANY));
        dims[i].whole_high--;
    }
}

/* ---- Random spaces. */

static uint64_t drawn(void) {
    static uint64_t word = 1;
    word = word * UINT64_C(6364136223846793005) + UINT64_C(1442695040888963407);
    return word >> 31;
}

static uint64_t drawn_long(void) {
    uint64_t high = drawn();
    return high << 32 ^ drawn();
}

/* 0 to most, of one length in bits as often as of another. */
static uint64_t drawn_to(uint64_t most) {
    uint64_t number = drawn_long() % (most + 1), length = 0;
    while (most >> length != 0) {
        length++;
    }
    return number >> drawn() % (length + 1);
}

/* A dimension of so many values; what its kind has no use for is anything. */
static DeDistribution of_size(uint64_t size) {
    const double other = drawn() % 2 == 0 ? NAN : 3.0;
    const uint64_t any = drawn();
    DeDistribution d = {0, other, -other, (int64_t)any, -7, any % 9, any % 7, -other, 0, any % 99};
    if (size <= DE_MAX_CHOICES && drawn() % 3 == 0) {
        d.kind = DE_CHOICE;
        d.n_choices = size;
        return d;
    }
    const uint64_t span = 2 * (uint64_t)DE_MAX_WHOLE;
    uint64_t most = size == 1 ? (uint64_t)DE_MAX_WHOLE : span / (size - 1);
    uint64_t step = 1 + drawn_to((most < (uint64_t)DE_MAX_WHOLE ? most : (uint64_t)DE_MAX_WHOLE) - 1);
    d.kind = DE_INT;
    d.log_scale = DE_NO;
    d.stepped = drawn() % 3 != 0;
    d.whole_step = d.stepped ? (int64_t)step : -9;
    step = d.stepped ? step : 1;
    uint64_t extent = (size - 1) * step, left = span - extent;
    /* High is met, or missed by less than a step. */
    uint64_t missed = drawn() % 2 == 0 ? 0 : drawn_to(step - 1);
    missed = missed < left ? missed : left;
    left -= missed;
    /* From the least bound, up to the largest, or near 0. */
    uint64_t from = drawn() % 3 == 0 ? drawn_to(left) : drawn() % 2 == 0 ? left : left / 2;
    d.whole_low = (int64_t)from - DE_MAX_WHOLE;
    d.whole_high = d.whole_low + (int64_t)(extent + missed);
    return d;
}

/* A dimension that is refused, is no sweep's, or names no case. */
static DeDistribution odd(void) {
    const uint64_t any = drawn();
    const int64_t some = (int64_t)any, rung = 1 + (int64_t)drawn_to(2147483647);
    const DeDistribution rows[] = {
        INT(1, -some),
        INT(-some, DE_MAX_WHOLE + 1 + some),
        LADDER(-some, 64),
        STEPPED(1, 9, -some),
        CHOICE(65536 + any),
        CHOICE(0),
        FLOAT(1.0, 0.0),
        FLOAT(0.0, (double)some),
        {.kind = DE_FLOAT, .low = 0.0, .high = 1.0, .log_scale = DE_YES},
        {.kind = DE_FLOAT, .low = 0.0, .high = 4294967296.0, .stepped = DE_YES, .step = 1.0},
        LADDER(1, rung),
        LADDER(rung, DE_MAX_LADDER),
        {.kind = 4 + any},
        {.kind = DE_INT, .whole_high = 9, .log_scale = 2 + any},
    };
    return rows[drawn() % COUNT(rows)];
}

static void random_spaces(size_t spaces) {
    DeDistribution dims[20];
    size_t listed = 0, numbers = 0, unknown = 0, by[18] = {0}, of[20] = {0};
    for (size_t k = 0; k < spaces; k++) {
        size_t most = drawn() % 8 == 0 ? 20 : 16, n = 1 + drawn() % most;
        /* Mostly a few combinations; and some near 65,536, a little more too. */
        uint64_t left = drawn() % 32 == 0 ? 66000 : 1 + drawn_to(drawn() % 8 == 0 ? 65535 : 4095), count = 1;
        for (size_t i = 0; i < n; i++) {
            uint64_t size = i + 1 == n && drawn() % 2 == 0 ? left : 1 + drawn_to(left - 1);
            dims[i] = of_size(size);
            count *= size;
            left /= size;
        }
        /* The large ones in other places too. */
        for (size_t i = 0; i < n; i++) {
            size_t with = drawn() % n;
            DeDistribution d = dims[i];
            dims[i] = dims[with];
            dims[with] = d;
        }
        for (size_t odds = drawn() % 8 == 0 ? 1 + drawn() % 3 : 0; odds > 0; odds--) {
            DeDistribution d = odd();
            dims[drawn() % n] = d;
        }
        size_t room = (count < DE_MAX_COMBINATIONS ? (size_t)count : DE_MAX_COMBINATIONS) * n;
        switch (drawn() % 8) {
        case 0:
            room -= 1 + drawn_to(room - 1);
            break;
        case 1:
            room--;
            break;
        case 2:
            room += drawn() % (2 * n);
        }
        DeCount c = taken(dims, n, room < PLACES ? room : PLACES);
        listed += c.kind == DE_LISTED;
        unknown += c.kind == DE_UNKNOWN;
        by[c.kind == DE_REFUSED ? c.refusal : 0]++;
        of[c.kind == DE_LISTED ? n : 0]++;
        numbers += (size_t)c.count * n;
    }
    for (size_t n = 1; n <= DE_MAX_DIMENSIONS; n++) {
        EXPECT(of[n] > spaces / 100);
    }
    for (size_t refusal = 4; refusal <= 17; refusal++) {
        EXPECT(refusal > 7 && refusal < 16 ? by[refusal] == 0 : by[refusal] > spaces / 1000);
    }
    EXPECT(unknown > spaces / 200 && of[0] == spaces - listed);
    printf("C sweeps: of %zu random spaces %zu listed, %zu numbers, and %zu refused by 16, %zu by 17, as by the second "
           "reading\n",
           spaces, listed, numbers, by[16], by[17]);
}

int main(void) {
    limits();
    many_dimensions();
    random_spaces(10000);
    return ended("C sweeps of many spaces");
}
