/* What the tests say where an answer is another one than they expect. */
#ifndef EXPECT_H
#define EXPECT_H

#include <stdio.h>

#include "pif.h"

static int failures;

static inline void expect_number(int line, const char *what, pif_number is, uint32_t result, uint32_t number)
{
    if (is.result != result || is.number != number) {
        printf("line %d: %s: result %u, number %u, and not %u, %u\n", line, what, is.result, is.number, result, number);
        failures++;
    }
}

static inline void expect_seen(int line, const char *what, pif_seen is, uint32_t seen, uint32_t detail)
{
    if (is.what != seen || is.detail != detail) {
        printf("line %d: %s: what %u, detail %u, and not %u, %u\n", line, what, is.what, is.detail, seen, detail);
        failures++;
    }
}

static inline void expect_true(int line, const char *what, bool is)
{
    if (!is) {
        printf("line %d: %s is not so\n", line, what);
        failures++;
    }
}

#define NUMBER(call, result, number) expect_number(__LINE__, #call, call, result, number)
#define SEEN(call, what, detail) expect_seen(__LINE__, #call, call, what, detail)
#define TRUE(condition) expect_true(__LINE__, #condition, condition)

/* 0 where all was as expected. */
static inline int outcome(void)
{
    return failures == 0 ? 0 : 1;
}

#endif
