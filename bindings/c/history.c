/* A metrics export read into a lent history: lines by hand, every change of a byte held against a second reader, many
 * values held against strtod, and a campaign that is lent what was read. Status 0 where all is as expected. */
#include <emkhurtov.h>

#include <stdlib.h>
#include <string.h>

#include "expect.h"
#include "history_lines.h"
#include "second_history.h"

enum { ROOM = 64, FILLING = 0xa5 };
#define COUNT(table) (sizeof table / sizeof *table)

static DeCompletedTrial history[ROOM], other[ROOM];
static char text[400];
static size_t length;

static void add(const void *bytes, size_t count) {
    memcpy(text + length, bytes, count);
    length += count;
}

static void add_text(const char *words) {
    add(words, strlen(words));
}

static uint64_t bits(double x) {
    uint64_t n;
    memcpy(&n, &x, sizeof n);
    return n;
}

/* Whether the places from one on hold what they were filled with. */
static int untouched(const DeCompletedTrial *places, uint64_t from, size_t count) {
    const unsigned char *bytes = (const unsigned char *)places;
    for (size_t i = (size_t)from * sizeof *places; i < count * sizeof *places; i++) {
        if (bytes[i] != FILLING) {
            return 0;
        }
    }
    return 1;
}

static int is_read(DeRead r, uint64_t count) {
    return r.kind == DE_READ && r.refusal == 0 && r.count == count && r.line == 0;
}

static int is_refused(DeRead r, uint64_t refusal, uint64_t line) {
    return r.kind == DE_REFUSED && r.refusal == refusal && r.count == 0 && r.line == line;
}

/* Reads by the checked function and by the proved one into memory that was filled before: the same answer and the same
 * memory, with no place touched past the count, and none on a refusal. */
static DeRead taken(const char *bytes, size_t count, size_t places) {
    memset(history, FILLING, sizeof history);
    memset(other, FILLING, sizeof other);
    DeRead r = de_checked_read_history(bytes, count, history, places);
    DeRead s = de_read_history((const uint8_t *)bytes, count, other, places);
    EXPECT(memcmp(&r, &s, sizeof r) == 0 && memcmp(history, other, sizeof history) == 0);
    EXPECT(r.count <= places && untouched(history, r.count, ROOM));
    return r;
}

/* What is said of a table's row where something in it was not as expected. */
static void row(const char *words, int before) {
    if (failures != before) {
        printf("  in the row %s\n", words);
    }
}

static void good_lines(void) {
    for (size_t i = 0; i < COUNT(values); i++) {
        const char *number = numbers[i % COUNT(numbers)].text;
        int before = failures;
        length = 0;
        add_text(number);
        add_text(",");
        add_text(values[i].text);
        add_text("\n");
        EXPECT(is_read(taken(text, length, 1), 1));
        EXPECT(history[0].number == numbers[i % COUNT(numbers)].number && bits(history[0].value) == values[i].bits);
        EXPECT(history[0].state == DE_COMPLETE);
        row(values[i].text, before);
    }
}

/* A malformed line as the only one, and with good lines behind it, around it and before it. It comes before a history
 * that is too short. */
static void bad_lines(void) {
    static const struct {
        const char *before, *behind;
        uint64_t line;
    } among[] = {{"", "", 1}, {"", "3,4\n", 1}, {"1,2\n", "3,4\n", 2}, {"1,2\n3,4\n", "", 3}, {"1,2\n", "x\n\n", 2}};
    for (size_t i = 0; i < COUNT(malformed); i++) {
        for (size_t k = 0; k < COUNT(among); k++) {
            int before = failures;
            length = 0;
            add_text(among[k].before);
            add(malformed[i].text, malformed[i].length);
            add_text("\n");
            add_text(among[k].behind);
            EXPECT(is_refused(taken(text, length, ROOM), DE_MALFORMED_LINE, among[k].line));
            EXPECT(is_refused(taken(text, length, 0), DE_MALFORMED_LINE, among[k].line));
            row(malformed[i].text, before);
        }
    }
}

/* Every beginning of an export: read where it ends behind a line feed, else the line that is cut off is malformed. What
 * stands behind it in memory is not looked at. */
static void cut_off(void) {
    static const char whole[] = "12,0.5\n7,-3\n18446744073709551615,0.25\n\n";
    uint64_t lines = 0;
    EXPECT(is_read(taken("", 0, 0), 0));
    EXPECT(is_read(taken("", 0, ROOM), 0));
    for (size_t n = 1; n < sizeof whole; n++) {
        DeRead r = taken(whole, n, ROOM);
        if (n == sizeof whole - 1) {
            EXPECT(is_refused(r, DE_MALFORMED_LINE, 4));
        } else if (whole[n - 1] == '\n') {
            EXPECT(is_read(r, ++lines));
        } else {
            EXPECT(is_refused(r, DE_MALFORMED_LINE, lines + 1));
        }
    }
    EXPECT(lines == 3);
}

/* In the text's order, one number twice; as many places as entries are enough, and one less is too short. */
static void places(void) {
    static const char three[] = "9,0.5\n3,-1\n9,2\n";
    size_t n = sizeof three - 1;
    for (size_t more = 0; more <= 2; more++) {
        EXPECT(is_read(taken(three, n, 3 + more), 3));
        EXPECT(history[0].number == 9 && history[0].value == 0.5 && history[1].number == 3 && history[1].value == -1.0);
        EXPECT(history[2].number == 9 && history[2].value == 2.0);
        EXPECT(history[0].state == DE_COMPLETE && history[1].state == DE_COMPLETE && history[2].state == DE_COMPLETE);
    }
    for (size_t less = 0; less < 3; less++) {
        EXPECT(is_refused(taken(three, n, less), DE_SHORT_HISTORY, 0));
        EXPECT(is_refused(taken(three, n - 1, less), DE_MALFORMED_LINE, 3));
    }
}

/* A changed export by both readers. */
static void judge(size_t *read, size_t *refused) {
    static DeCompletedTrial second[ROOM];
    DeRead r = taken(text, length, ROOM);
    DeRead s = second_read(text, length, second);
    EXPECT(memcmp(&r, &s, sizeof r) == 0);
    EXPECT(memcmp(history, second, (size_t)s.count * sizeof *second) == 0);
    *read += r.kind == DE_READ;
    *refused += r.kind == DE_REFUSED;
}

/* Each byte of an export replaced by every byte, every byte put before it, and it left out. */
static void changed(void) {
    static const char whole[] =
        "7,-0.25\n18446744073709551615,12345678.9012345\n00000000000000000001,-99999999999999\n";
    size_t n = sizeof whole - 1, read = 0, refused = 0;
    for (size_t at = 0; at < n; at++) {
        for (int put = 0; put <= 256; put++) {
            unsigned char byte = (unsigned char)put;
            for (size_t over = put == 256; over <= 1; over++) {
                length = 0;
                add(whole, at);
                add(&byte, put < 256);
                add(whole + at + over, n - at - over);
                judge(&read, &refused);
            }
        }
        if (failures > 20) {
            return;
        }
    }
    printf("C histories: of %zu changed exports %zu were read and %zu refused, as by the second reader\n",
           read + refused, read, refused);
}

static uint64_t drawn(void) {
    static uint64_t word = 1;
    word = word * UINT64_C(6364136223846793005) + UINT64_C(1442695040888963407);
    return word >> 33;
}

/* A value of any form: how many digits, where the point is, with a minus, with zeros in front. */
static size_t put_value(char *to) {
    size_t digits = 1 + drawn() % 15, point = drawn() % digits, zeros = drawn() % 4 == 0 ? drawn() % (digits + 1) : 0;
    size_t n = 0;
    if (drawn() % 2 == 0) {
        to[n++] = '-';
    }
    for (size_t i = 0; i < digits; i++) {
        if (i == point && i != 0) {
            to[n++] = '.';
        }
        to[n++] = (char)('0' + (i < zeros ? 0 : drawn() % 10));
    }
    to[n] = '\0';
    return n;
}

/* One export of many lines: the double of each value is strtod's, whose result is the nearest double too. */
static void many(void) {
    enum { LINES = 200000, LONGEST = 40 };
    size_t size = (LINES + 2) * sizeof(DeCompletedTrial), n = 0;
    char *lines = malloc((size_t)LINES * LONGEST);
    DeCompletedTrial *expected = malloc(size), *got = malloc(size);
    if (lines == NULL || expected == NULL || got == NULL) {
        printf("C histories: no memory for many lines\n");
        exit(1);
    }
    memset(expected, FILLING, size);
    memset(got, FILLING, size);
    for (size_t i = 0; i < LINES; i++) {
        uint64_t number = (drawn() << 33 ^ drawn() << 8 ^ drawn()) >> drawn() % 64;
        n += (size_t)sprintf(lines + n, "%0*llu,", (int)(1 + drawn() % 20), (unsigned long long)number);
        char *value = lines + n;
        n += put_value(value);
        expected[i] = (DeCompletedTrial){number, strtod(value, NULL), DE_COMPLETE};
        lines[n++] = '\n';
    }
    EXPECT(is_refused(de_checked_read_history(lines, n - 1, got, LINES + 2), DE_MALFORMED_LINE, LINES));
    EXPECT(is_refused(de_checked_read_history(lines, n, got, LINES - 1), DE_SHORT_HISTORY, 0));
    EXPECT(untouched(got, 0, LINES + 2));
    EXPECT(is_read(de_checked_read_history(lines, n, got, LINES + 2), LINES));
    EXPECT(memcmp(got, expected, size) == 0);
    printf("C histories: %d lines of %zu bytes read, the values as by strtod\n", (int)LINES, n);
    free(lines);
    free(expected);
    free(got);
}

static void pointers(void) {
    static const char good[] = "1,2\n";
    static union {
        DeCompletedTrial places[4];
        char bytes[4 * sizeof(DeCompletedTrial)];
    } room, before;
    char *inside = room.bytes + sizeof *room.places;
    memset(&room, FILLING, sizeof room);
    memcpy(inside - 4, good, 4);
    memcpy(inside + 2 * sizeof *room.places, good, 4);
    before = room;
    DeCompletedTrial *two = room.places + 1;
    EXPECT(de_checked_read_history(NULL, 1, two, 2).kind == DE_NULL_POINTER);
    EXPECT(de_checked_read_history(good, 4, NULL, 1).kind == DE_NULL_POINTER);
    EXPECT(de_checked_read_history(good, 4, (void *)(inside + 4), 1).kind == DE_MISALIGNED);
    EXPECT(de_checked_read_history(good, 0, (void *)(inside + 1), 0).kind == DE_MISALIGNED);
    EXPECT(de_checked_read_history(inside, 4, two, 2).kind == DE_OVERLAPPING);
    EXPECT(de_checked_read_history(inside + 2 * sizeof *two - 1, 1, two, 2).kind == DE_OVERLAPPING);
    EXPECT(de_checked_read_history(inside - 4, 5, two, 2).kind == DE_OVERLAPPING);
    EXPECT(de_checked_read_history(inside - 4, sizeof room.bytes, two, 1).kind == DE_OVERLAPPING);
    EXPECT(de_checked_read_history(inside + 16, 4, two, SIZE_MAX).kind == DE_OVERLAPPING);
    EXPECT(de_checked_read_history(inside, SIZE_MAX, two, 1).kind == DE_OVERLAPPING);
    DeRead r = de_checked_read_history(NULL, 1, NULL, 1);
    EXPECT(r.kind == DE_NULL_POINTER && r.refusal == 0 && r.count == 0 && r.line == 0);
    /* What has no byte may be a null pointer, and overlaps nothing. */
    EXPECT(is_read(de_checked_read_history(NULL, 0, NULL, 0), 0));
    EXPECT(is_read(de_checked_read_history(NULL, 0, two, 2), 0));
    EXPECT(is_read(de_checked_read_history(inside + 1, 0, two, 2), 0));
    EXPECT(is_refused(de_checked_read_history(good, 4, NULL, 0), DE_SHORT_HISTORY, 0));
    EXPECT(is_refused(de_checked_read_history(good, 3, NULL, 0), DE_MALFORMED_LINE, 1));
    EXPECT(is_refused(de_checked_read_history(inside - 4, 4, room.places, 0), DE_SHORT_HISTORY, 0));
    EXPECT(memcmp(&room, &before, sizeof room) == 0);
    /* A text and a history that touch do not overlap. */
    EXPECT(is_read(de_checked_read_history(inside - 4, 4, two, 2), 1));
    EXPECT(is_read(de_checked_read_history(inside + 2 * sizeof *two, 4, two, 2), 1));
    EXPECT(two[0].number == 1 && two[0].value == 2.0 && two[0].state == DE_COMPLETE);
    EXPECT(memcmp(two + 1, before.places + 2, 2 * sizeof *two) == 0);
}

/* A campaign that is lent what was read goes on, to the last bit, as one that is lent the same history directly. */
static void campaign(void) {
    enum { TRIALS = 22 };
    static const DeSetup setup = {0.8, 0.9, DE_CURRENT_TO_BEST1, DE_YES, 4, 7, DE_CLAMP};
    static const DeDistribution quota = {.kind = DE_FLOAT, .low = 8.0, .high = 256.0};
    static DeState direct, from_text;
    static DeCompletedTrial told[TRIALS];
    EXPECT(de_checked_new(&direct, sizeof direct, &setup).kind == DE_MADE);
    from_text = direct;
    length = 0;
    for (uint64_t trial = 0; trial < TRIALS; trial++) {
        DeCall call = {trial, quota};
        DeRead r = taken(text, length, ROOM);
        EXPECT(is_read(r, trial));
        DeAnswer a = de_checked_sample(&direct, sizeof direct, &call, told, (size_t)trial);
        DeAnswer b = de_checked_sample(&from_text, sizeof from_text, &call, history, (size_t)r.count);
        EXPECT(a.kind == DE_FLOAT && memcmp(&a, &b, sizeof a) == 0);
        EXPECT(memcmp(&direct, &from_text, sizeof direct) == 0);
        /* Eighths, so that three digits behind the point are the very value; minus zero among them. */
        double value = trial == 6 ? -0.0 : ((double)(trial * 7919 % 1009) - 400.0) / 8.0;
        told[trial] = (DeCompletedTrial){trial, value, DE_COMPLETE};
        length += (size_t)sprintf(text + length, "%u,%.3f\n", (unsigned)trial, value);
    }
    EXPECT(de_checked_look(&from_text, sizeof from_text).closed == 5);
}

int main(void) {
    EXPECT(de_layout_agrees());
    good_lines();
    bad_lines();
    cut_off();
    places();
    changed();
    many();
    pointers();
    campaign();
    return ended("C histories");
}
