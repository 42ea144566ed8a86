/* expect.h: what the tests count. Each program ends with status 0 only if nothing failed. */
#ifndef EXPECT_H
#define EXPECT_H

#include <stdbool.h>
#include <stdio.h>

static int expected, failed;

#define EXPECT(holds)                                                  \
    do {                                                               \
        expected++;                                                    \
        if (!(holds)) {                                                \
            failed++;                                                  \
            printf("%s:%d: not so: %s\n", __FILE__, __LINE__, #holds); \
        }                                                              \
    } while (0)

static inline int ended(void)
{
    printf("%d of %d hold\n", expected - failed, expected);
    return failed != 0 || expected == 0;
}

#endif
