/*
 * Finds where a proved histogram has the address of its counts, and prints it for histogram.c. The library that is
 * linked here is the one that libhdr_histogram.so has in it, so the offset is that of its code.
 */
#define _DEFAULT_SOURCE
#include <malloc.h>
#include <stdio.h>
#include <string.h>
#include <unistd.h>

#include "dkap.h"

enum { HIGH = 1000000, FIRST = 12345, LAST = 54321 };

/* Copies memory that need not be readable. */
static bool is_readable(const void *at, void *copy, size_t length)
{
    int ends[2];
    bool readable;

    if (pipe(ends) != 0)
        return false;
    readable = write(ends[1], at, length) == (ssize_t)length && read(ends[0], copy, length) == (ssize_t)length;
    close(ends[0]);
    close(ends[1]);
    return readable;
}

/* Whether the array at an address has the counts of the first and the last bin. */
static bool is_counts(const uint64_t *at, uint64_t bins)
{
    uint64_t first, last;

    return is_readable(at, &first, sizeof first) && is_readable(at + bins - 1, &last, sizeof last) && first == FIRST &&
           last == LAST;
}

int main(void)
{
    struct dkap_histogram h = DKAP_CLOSED;
    struct dkap_shape shape;
    size_t offset, found = 0, length;

    if (dkap_init(&h, 1, HIGH, 3) != DKAP_OK || dkap_shape_of(&h, &shape) != DKAP_OK ||
        dkap_record_n(&h, 0, FIRST) != DKAP_OK || dkap_record_saturating(&h, (1 << 20) - 1, LAST) != DKAP_OK)
        return 1;
    length = malloc_usable_size(h.at_);
    for (offset = 0; offset + sizeof(void *) <= length; offset += sizeof(void *)) {
        const uint64_t *at = NULL;

        memcpy(&at, (const char *)h.at_ + offset, sizeof at);
        if (is_counts(at, shape.bins)) {
            printf("#define COUNTS_OFFSET %zu\n", offset);
            found++;
        }
    }
    dkap_close(&h);
    return found != 1;
}
