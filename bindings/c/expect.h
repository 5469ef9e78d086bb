/* What the C tests share: an expectation, counted where it fails, and what a test says at its end. The first hundred
 * that fail are told. */
#ifndef EXPECT_H
#define EXPECT_H

#include <stdio.h>

static int failures;

#define EXPECT(c)                                                                                                      \
    do {                                                                                                               \
        if (!(c) && failures++ < 100) {                                                                                \
            printf("line %d: not so: %s\n", __LINE__, #c);                                                             \
        }                                                                                                              \
    } while (0)

/* The status that the test ends with. */
static int ended(const char *test) {
    if (failures != 0) {
        printf("%s: %d not as expected\n", test, failures);
        return 1;
    }
    printf("%s: as expected\n", test);
    return 0;
}

#endif
