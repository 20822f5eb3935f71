/* What the tests in C share: checks, counted, and a line for each that fails. */
#ifndef CHECK_H
#define CHECK_H

#include <stdio.h>

static unsigned checks, failed;

/* Counts a check, and says where it failed. */
static inline void check(int holds, const char *group, const char *what, int line)
{
    checks++;
    if (!holds) {
        failed++;
        printf("line %d: %s: %s failed\n", line, group, what);
    }
}

#define CHECK(group, condition) check((condition) ? 1 : 0, group, #condition, __LINE__)

/* Prints the totals. The exit status of a test: 1 where a check failed. */
static inline int totals(void)
{
    printf("c: %u checks, %u failed\n", checks, failed);
    return failed != 0;
}

#endif
