/* A second reader of metrics exports, written from the header's words by the C library's own functions. */
#ifndef SECOND_HISTORY_H
#define SECOND_HISTORY_H

#include <emkhurtov.h>

#include <errno.h>
#include <stdlib.h>
#include <string.h>

static const char second_digits[] = "0123456789";

/* Whether a line without its line feed is an entry, and that entry. A zero in the line ends every span too early. */
static int second_line(const char *line, size_t length, DeCompletedTrial *entry) {
    char text[40] = {0};
    if (length >= sizeof text) {
        return 0; /* 20 digits, a comma, a minus, 15 digits and a point are 38 */
    }
    memcpy(text, line, length);
    size_t number = strspn(text, second_digits);
    if (number < 1 || number > 20 || text[number] != ',') {
        return 0;
    }
    const char *value = text + number + 1;
    const char *at = value + (*value == '-');
    size_t whole = strspn(at, second_digits), behind = 0;
    at += whole;
    if (*at == '.') {
        behind = strspn(at + 1, second_digits);
        at += behind == 0 ? 0 : 1 + behind;
    }
    if (at != text + length || whole < 1 || whole + behind > 15) {
        return 0;
    }
    errno = 0;
    entry->number = strtoull(text, NULL, 10);
    entry->value = strtod(value, NULL);
    entry->state = DE_COMPLETE;
    return errno == 0;
}

/* Reads into as many places as there are lines. */
static DeRead second_read(const char *text, size_t length, DeCompletedTrial *entries) {
    DeRead answer = {.kind = DE_READ};
    const char *at = text, *end = text + length;
    while (at != end) {
        const char *feed = memchr(at, '\n', (size_t)(end - at));
        if (feed == NULL || !second_line(at, (size_t)(feed - at), &entries[answer.count])) {
            return (DeRead){.kind = DE_REFUSED, .refusal = DE_MALFORMED_LINE, .line = answer.count + 1};
        }
        answer.count++;
        at = feed + 1;
    }
    return answer;
}

#endif
