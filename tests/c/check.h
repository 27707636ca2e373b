/* One test to each CHECK in the text, however often it runs; one that is never reached fails. A test program ends with
 * `return check_tally();` as the last line of main. */
#ifndef CHECK_H
#define CHECK_H

#include <stdio.h>

#define CHECK_MOST 400
static int check_runs[CHECK_MOST], check_wrong[CHECK_MOST];
#define CHECK(x) check_one((x), __COUNTER__, __FILE__, __LINE__, #x)
#define COUNT(a) (sizeof(a) / sizeof(*(a)))

static void check_one(int ok, int at, const char *file, int line, const char *text) {
    if (!ok && !check_wrong[at]++) printf("FAIL %s:%d: %s\n", file, line, text);
    check_runs[at]++;
}

/* The last line, 'N passed, M failed', and the exit status. */
static int check_count(int checks) {
    int passed = 0, failed = 0;
    for (int at = 0; at < checks; at++) {
        if (!check_runs[at]) printf("FAIL: check %d is never reached\n", at);
        if (check_runs[at] && !check_wrong[at]) passed++;
        else failed++;
    }
    printf("%d passed, %d failed\n", passed, failed);
    return failed != 0;
}

#define check_tally()                                                                \
    ({                                                                               \
        enum { CHECKS = __COUNTER__ };                                               \
        _Static_assert(CHECKS <= CHECK_MOST, "more checks than places for them");    \
        check_count(CHECKS);                                                         \
    })

#endif
