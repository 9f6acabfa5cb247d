/*
 * In place of the tests' own minunit.h: an assertion that fails is printed as FILE:LINE: MESSAGE, and the test goes on, so
 * that all of them are seen.
 */
#ifndef MINUNIT_H
#define MINUNIT_H

#include <inttypes.h>
#include <math.h>
#include <stdbool.h>
#include <stdio.h>
#include <string.h>

struct mu_result {
    char *test;
    char *message;
};

static inline void each_failed(const char *path, int line, const char *message)
{
    const char *name = strrchr(path, '/');

    printf("failed %s:%d: %s\n", name != NULL ? name + 1 : path, line, message);
}

#define mu_assert(message, test)                          \
    do {                                                  \
        if (!(test))                                      \
            each_failed(__FILE__, __LINE__, message);     \
    } while (0)

#define mu_run_test(name) \
    do {                  \
        name();           \
        tests_run++;      \
    } while (0)

#define mu_ok return (struct mu_result){NULL, NULL}

extern int tests_run;

bool compare_double(double a, double b, double delta);

bool compare_int64(int64_t a, int64_t b);

#endif
