/* Sweeps, held against a second reading of document 02 (W10): lists by hand, every refusal and their order, what is
 * read and touched, and pointers. Status 0 where all is as expected. */
#include <emkhurtov.h>

#include <string.h>

#include "expect.h"
#include "sweeps.h"

/* ---- By hand. */

static void by_hand(void) {
    static const DeDistribution dims[] = {CHOICE(2), STEPPED(1, 11, 4), INT(-1, 1)};
    static const int64_t list[18][3] = {{0, 1, -1}, {0, 1, 0}, {0, 1, 1}, {0, 5, -1}, {0, 5, 0}, {0, 5, 1},
                                        {0, 9, -1}, {0, 9, 0}, {0, 9, 1}, {1, 1, -1}, {1, 1, 0}, {1, 1, 1},
                                        {1, 5, -1}, {1, 5, 0}, {1, 5, 1}, {1, 9, -1}, {1, 9, 0}, {1, 9, 1}};
    EXPECT(is_listed(taken(dims, 3, 54), 18) && memcmp(one + GUARD, list, sizeof list) == 0);
    EXPECT(is_listed(taken(dims, 3, 55), 18) && is_refused(taken(dims, 3, 53), DE_TOO_MANY));
    /* Room for 18 combinations of three dimensions is room for 27 of two. */
    EXPECT(is_listed(taken(dims + 1, 2, 18), 9) && one[GUARD] == 1 && one[GUARD + 17] == 1);
    /* One dimension: its values. A high that a step meets is in, one that none meets is not. */
    static const struct {
        DeDistribution d;
        size_t count;
        int64_t values[5];
    } rows[] = {
        {CHOICE(1), 1, {0}},
        {CHOICE(3), 3, {0, 1, 2}},
        {INT(7, 7), 1, {7}},
        {INT(-2, 1), 4, {-2, -1, 0, 1}},
        {STEPPED(-2, 1, 1), 4, {-2, -1, 0, 1}},
        {STEPPED(1, 9, 4), 3, {1, 5, 9}},
        {STEPPED(1, 10, 4), 3, {1, 5, 9}},
        {STEPPED(1, 12, 4), 3, {1, 5, 9}},
        {STEPPED(1, 13, 4), 4, {1, 5, 9, 13}},
        {STEPPED(-7, -1, 3), 3, {-7, -4, -1}},
        {STEPPED(-7, 0, 3), 3, {-7, -4, -1}},
        {STEPPED(3, 9, 7), 1, {3}},
        {STEPPED(5, 5, DE_MAX_WHOLE), 1, {5}},
        {STEPPED(0, DE_MAX_WHOLE, DE_MAX_WHOLE), 2, {0, DE_MAX_WHOLE}},
        {STEPPED(-DE_MAX_WHOLE, DE_MAX_WHOLE, DE_MAX_WHOLE), 3, {-DE_MAX_WHOLE, 0, DE_MAX_WHOLE}},
        {STEPPED(-DE_MAX_WHOLE, DE_MAX_WHOLE, DE_MAX_WHOLE - 1), 3, {-DE_MAX_WHOLE, -1, DE_MAX_WHOLE - 2}},
        {STEPPED(-DE_MAX_WHOLE, -1, DE_MAX_WHOLE), 1, {-DE_MAX_WHOLE}},
        {STEPPED(DE_MAX_WHOLE - 1, DE_MAX_WHOLE, 1), 2, {DE_MAX_WHOLE - 1, DE_MAX_WHOLE}},
    };
    for (size_t i = 0; i < COUNT(rows); i++) {
        EXPECT(is_listed(taken(&rows[i].d, 1, rows[i].count), rows[i].count));
        EXPECT(memcmp(one + GUARD, rows[i].values, rows[i].count * sizeof *one) == 0);
    }
}

/* ---- Refusals: each behind, before and among dimensions that have none, behind the 16th too; their order. */

static const struct {
    DeDistribution d;
    uint64_t refusal;
} refused[] = {
    {INT(3, 2), DE_BOUNDS},
    {INT(-DE_MAX_WHOLE - 1, 0), DE_BOUNDS},
    {INT(0, DE_MAX_WHOLE + 1), DE_BOUNDS},
    {INT(INT64_MIN, INT64_MAX), DE_BOUNDS},
    {{.kind = DE_FLOAT, .low = 0.0, .high = NAN}, DE_BOUNDS},
    {{.kind = DE_INT, .whole_low = 1, .whole_high = 0, .log_scale = DE_YES, .stepped = DE_YES}, DE_BOUNDS},
    {LADDER(0, 64), DE_LOG_SCALE},
    {{.kind = DE_INT, .whole_low = 1, .whole_high = 9, .log_scale = DE_YES, .stepped = DE_YES}, DE_LOG_SCALE},
    {{.kind = DE_FLOAT, .low = 1.0, .high = 2.0, .log_scale = DE_YES}, DE_LOG_SCALE},
    {STEPPED(1, 9, 0), DE_STEP},
    {STEPPED(1, 9, INT64_MIN), DE_STEP},
    {STEPPED(1, 9, DE_MAX_WHOLE + 1), DE_STEP},
    {{.kind = DE_FLOAT, .low = 0.0, .high = 1.0, .stepped = DE_YES, .step = NAN}, DE_STEP},
    {CHOICE(0), DE_CHOICES},
    {CHOICE(65536), DE_CHOICES},
    {CHOICE(UINT64_MAX), DE_CHOICES},
};
static const DeDistribution unsweepable[] = {
    FLOAT(0.0, 1.0), LADDER(1, 64), {.kind = DE_FLOAT, .low = 0.0, .high = 1.0, .stepped = DE_YES, .step = 0.5}};
/* The values of each alone are more than 65,536. */
static const DeDistribution many = INT(0, DE_MAX_WHOLE);

static void refusals(void) {
    DeDistribution dims[MOST] = {CHOICE(2)};
    EXPECT(is_refused(taken(dims, 0, 0), DE_UNSWEEPABLE) && is_refused(taken(dims, 0, 9), DE_UNSWEEPABLE));
    for (size_t n = 1; n <= 20; n++) {
        for (size_t i = 0; i < n; i++) {
            dims[i] = (DeDistribution)CHOICE(2);
        }
        size_t room = n <= 16 ? n << n : 9;
        DeCount c = taken(dims, n, room);
        EXPECT(n <= 16 ? is_listed(c, UINT64_C(1) << n) : is_refused(c, DE_UNSWEEPABLE));
        EXPECT(is_refused(taken(dims, n, n <= 16 ? room - 1 : 0), n <= 16 ? DE_TOO_MANY : DE_UNSWEEPABLE));
        for (size_t at = 0; at < n; at++) {
            for (size_t k = 0; k < COUNT(unsweepable); k++) {
                dims[at] = unsweepable[k];
                EXPECT(is_refused(taken(dims, n, 0), DE_UNSWEEPABLE));
                /* 16 comes before 17, on whatever side the many stand. */
                dims[(at + 1) % n] = n > 1 ? many : dims[at];
                EXPECT(is_refused(taken(dims, n, 9), DE_UNSWEEPABLE));
                dims[(at + 1) % n] = (DeDistribution)CHOICE(2);
            }
            for (size_t k = 0; k < COUNT(refused); k++) {
                dims[at] = refused[k].d;
                EXPECT(is_refused(taken(dims, n, 9), refused[k].refusal));
                /* 4 to 7 come before 16 and 17, and of two dimensions the first counts. */
                if (at > 0) {
                    dims[at - 1] = unsweepable[k % COUNT(unsweepable)];
                    EXPECT(is_refused(taken(dims, n, 0), refused[k].refusal));
                    dims[0] = many;
                    EXPECT(is_refused(taken(dims, n, 9), refused[k].refusal));
                    dims[at - 1] = refused[(5 * k + 7) % COUNT(refused)].d;
                    EXPECT(is_refused(taken(dims, n, 9), refused[(5 * k + 7) % COUNT(refused)].refusal));
                    dims[0] = dims[at - 1] = (DeDistribution)CHOICE(2);
                }
            }
            dims[at] = (DeDistribution)CHOICE(2);
        }
    }
}

/* A number that names no case, in any dimension, before everything else; what the kind has no use for is not read. */
static void unknown(void) {
    static const DeDistribution rows[] = {
        {.kind = 0, .whole_high = 1, .n_choices = 1},
        {.kind = 4, .n_choices = 2},
        {.kind = UINT64_MAX, .n_choices = 2},
        {.kind = DE_INT, .whole_high = 1, .log_scale = 2},
        {.kind = DE_INT, .whole_high = 1, .stepped = 2, .whole_step = 1},
        {.kind = DE_INT, .whole_low = 3, .whole_high = 2, .log_scale = UINT64_MAX},
        {.kind = DE_FLOAT, .low = 0.0, .high = 1.0, .log_scale = 7},
        {.kind = DE_FLOAT, .low = 2.0, .high = 1.0, .stepped = UINT64_C(1) << 32},
    };
    const DeDistribution first[] = {CHOICE(2), CHOICE(0), INT(3, 2), FLOAT(0.0, 1.0), many};
    DeDistribution dims[MOST];
    for (size_t n = 1; n <= 18; n++) {
        for (size_t at = 0; at < n; at++) {
            for (size_t k = 0; k < COUNT(rows) * COUNT(first); k++) {
                for (size_t i = 0; i < n; i++) {
                    dims[i] = first[k / COUNT(rows)];
                }
                dims[at] = rows[k % COUNT(rows)];
                EXPECT(is_unknown(taken(dims, n, 9)));
            }
        }
    }
    static const DeDistribution unread[] = {
        {DE_CHOICE, NAN, -INFINITY, INT64_MAX, INT64_MIN, 77, UINT64_MAX, NAN, 0, 2},
        {DE_INT, NAN, -INFINITY, 1, 2, DE_NO, DE_NO, NAN, 0, 0},
        {DE_INT, 3.0, 2.0, 1, 5, DE_NO, DE_YES, -1.0, 4, UINT64_MAX},
    };
    EXPECT(is_listed(taken(unread, 3, 24), 8));
}

static void pointers(void) {
    static const DeDistribution dims[] = {CHOICE(2), INT(1, 3)};
    static union {
        DeDistribution dims[4];
        int64_t places[40];
        char bytes[4 * sizeof(DeDistribution)];
    } room, before;
    memset(&room, 0x5a, sizeof room);
    memcpy(room.dims + 1, dims, sizeof dims);
    before = room;
    int64_t *list = room.places + 30;
    void *byte = room.bytes + 1;
    EXPECT(de_checked_sweep(NULL, 2, list, 10).kind == DE_NULL_POINTER);
    EXPECT(de_checked_sweep(dims, 2, NULL, 1).kind == DE_NULL_POINTER);
    EXPECT(de_checked_sweep(byte, 2, list, 10).kind == DE_MISALIGNED);
    EXPECT(de_checked_sweep(dims, 2, byte, 10).kind == DE_MISALIGNED);
    EXPECT(de_checked_sweep(byte, 0, byte, 0).kind == DE_MISALIGNED);
    EXPECT(de_checked_sweep(room.dims + 1, 2, room.places + 29, 11).kind == DE_OVERLAPPING);
    EXPECT(de_checked_sweep(room.dims + 1, 2, room.places + 10, 12).kind == DE_OVERLAPPING);
    EXPECT(de_checked_sweep(room.dims + 1, 2, room.places, 11).kind == DE_OVERLAPPING);
    EXPECT(de_checked_sweep(room.dims + 1, 2, room.places, SIZE_MAX).kind == DE_OVERLAPPING);
    EXPECT(de_checked_sweep(room.dims + 1, SIZE_MAX, list, 10).kind == DE_OVERLAPPING);
    /* Counts whose bytes are few when they wrap. */
    EXPECT(de_checked_sweep(room.dims + 1, 2, room.places, SIZE_MAX / sizeof *list + 2).kind == DE_OVERLAPPING);
    EXPECT(de_checked_sweep(room.dims, SIZE_MAX / sizeof *dims + 2, list, 10).kind == DE_OVERLAPPING);
    DeCount c = de_checked_sweep(NULL, 1, NULL, 1);
    EXPECT(c.kind == DE_NULL_POINTER && c.refusal == 0 && c.count == 0);
    /* What has no byte may be a null pointer, and overlaps nothing. */
    EXPECT(is_refused(de_checked_sweep(NULL, 0, NULL, 0), DE_UNSWEEPABLE));
    EXPECT(is_refused(de_checked_sweep(NULL, 0, list, 10), DE_UNSWEEPABLE));
    EXPECT(is_refused(de_checked_sweep(dims, 2, NULL, 0), DE_TOO_MANY));
    EXPECT(is_refused(de_checked_sweep(room.dims + 1, 0, room.places, 40), DE_UNSWEEPABLE));
    EXPECT(is_refused(de_checked_sweep(room.dims + 1, 2, room.places + 12, 0), DE_TOO_MANY));
    EXPECT(memcmp(&room, &before, sizeof room) == 0);
    /* Dimensions and a list that touch do not overlap. */
    static const int64_t six[] = {0, 1, 0, 2, 0, 3, 1, 1, 1, 2, 1, 3};
    EXPECT(is_refused(de_checked_sweep(room.dims + 1, 2, room.places, 10), DE_TOO_MANY));
    EXPECT(memcmp(&room, &before, sizeof room) == 0);
    EXPECT(is_refused(de_checked_sweep(room.dims + 1, 2, list, 10), DE_TOO_MANY));
    memcpy(room.dims, dims, sizeof dims);
    EXPECT(is_listed(de_checked_sweep(room.dims, 2, room.places + 20, 12), 6));
    EXPECT(memcmp(room.places + 20, six, sizeof six) == 0 && memcmp(room.dims, dims, sizeof dims) == 0);
    EXPECT(memcmp(room.places + 32, before.places + 32, 8 * sizeof *six) == 0);
    memcpy(room.dims + 2, dims, sizeof dims);
    EXPECT(is_listed(de_checked_sweep(room.dims + 2, 2, room.places + 8, 12), 6));
    EXPECT(memcmp(room.places + 8, six, sizeof six) == 0 && memcmp(room.dims + 2, dims, sizeof dims) == 0);
}

int main(void) {
    DeMarks m = de_marks();
    EXPECT(de_layout_agrees());
    /* a count as this file was compiled to see it, against the library's own numbers */
    EXPECT(m.count.kind == 1 && m.count.refusal == 2 && m.count.count == 3 && m.after_count == 12);
    EXPECT(DE_MAX_COMBINATIONS == 65536 && DE_UNSWEEPABLE == 16 && DE_TOO_MANY == 17 && DE_LISTED == 1);
    by_hand();
    refusals();
    unknown();
    pointers();
    return ended("C sweeps");
}
