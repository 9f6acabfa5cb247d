/* CHECK counts and prints what does not hold. `checked` ends a test: its result is the status of the program. */
#ifndef CHECK_H
#define CHECK_H

#include <inttypes.h>
#include <stdio.h>
#include <stdlib.h>
#include <string.h>

#include "dkap.h"

static int failures = 0;

#define CHECK(condition)                                                                     \
    do {                                                                                     \
        if (!(condition)) {                                                                  \
            fprintf(stderr, "%s:%d: does not hold: %s\n", __FILE__, __LINE__, #condition);   \
            failures++;                                                                      \
        }                                                                                    \
    } while (0)

static inline int checked(void)
{
    if (failures != 0)
        fprintf(stderr, "%d failed\n", failures);
    return failures != 0;
}

/* A block of exactly `length` bytes, so that a memory checker sees what lies past it. */
static inline uint8_t *block(size_t length)
{
    uint8_t *bytes = malloc(length == 0 ? 1 : length);

    if (bytes == NULL) {
        fputs("out of memory\n", stderr);
        exit(2);
    }
    return bytes;
}

/* The V2 bytes of a histogram in a block of their length. */
static inline uint8_t *encoded(const struct dkap_histogram *h, size_t *length)
{
    uint8_t none = 0, *bytes;

    CHECK(dkap_encode(h, &none, 0, length) == DKAP_E_BUFFER_TOO_SMALL);
    bytes = block(*length);
    CHECK(dkap_encode(h, bytes, *length, length) == DKAP_OK);
    return bytes;
}

#endif
