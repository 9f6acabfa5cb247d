/*
 * Records the samples of a trace in the library for C: those of the first histogram that has COUNT of them. It prints what
 * redis prints of them: the row of redis-benchmark, in ms of us, or the figures of the server, in us of ns.
 * usage: percentiles benchmark|server TRACE COUNT
 */
#include <inttypes.h>
#include <stdio.h>
#include <stdlib.h>
#include <string.h>

#include "dkap.h"

struct record {
    int64_t histogram, value;
};

static void fail(const char *what)
{
    fprintf(stderr, "percentiles: %s\n", what);
    exit(1);
}

static void ensure(dkap_status status)
{
    if (status != DKAP_OK)
        fail(dkap_strerror(status));
}

/* Reads all records. */
static struct record *read_trace(const char *name, size_t *length)
{
    FILE *file = fopen(name, "rb");
    struct record *records = NULL, record;
    size_t capacity = 0;

    if (file == NULL)
        fail("no trace");
    for (*length = 0; fread(&record, sizeof record, 1, file) == 1; ++*length) {
        if (*length == capacity) {
            capacity = capacity == 0 ? 4096 : 2 * capacity;
            records = realloc(records, capacity * sizeof *records);
            if (records == NULL)
                fail("out of memory");
        }
        records[*length] = record;
    }
    fclose(file);
    return records;
}

static bool has_count(const struct record *records, size_t length, int64_t histogram, uint64_t count)
{
    size_t i;

    for (i = 0; i < length; i++)
        count -= records[i].histogram == histogram;
    return count == 0;
}

/* Records the samples of the first histogram with that many. */
static void record_samples(struct dkap_histogram *h, const struct record *records, size_t length, uint64_t count)
{
    size_t first = 0, i;

    while (first < length && first < 1000 && !has_count(records, length, records[first].histogram, count))
        first++;
    if (first == length || first == 1000)
        fail("no histogram has that many samples");
    for (i = 0; i < length; i++)
        if (records[i].histogram == records[first].histogram)
            ensure(dkap_record(h, (uint64_t)records[i].value));
}

static uint64_t percentile(const struct dkap_histogram *h, uint64_t num, uint64_t den)
{
    uint64_t value = 0;

    ensure(dkap_value_at_percentile(h, num, den, &value));
    return value;
}

static void print_benchmark(const struct dkap_histogram *h)
{
    struct dkap_fraction mean;

    ensure(dkap_mean(h, &mean));
    printf("avg %.3f min %.3f p50 %.3f p95 %.3f p99 %.3f max %.3f\n",
           (double)mean.num_low / (double)mean.den / 1000, (double)dkap_min(h) / 1000, (double)percentile(h, 50, 1) / 1000,
           (double)percentile(h, 95, 1) / 1000, (double)percentile(h, 99, 1) / 1000, (double)dkap_max(h) / 1000);
}

/* The cumulative counts at powers of two, up to that with all samples, where they grow. */
static void print_server(const struct dkap_histogram *h)
{
    uint64_t level, before = 0, count = 0;

    printf("p50 %.3f p99 %.3f p99.9 %.3f calls %" PRIu64 " histogram", (double)percentile(h, 50, 1) / 1000,
           (double)percentile(h, 99, 1) / 1000, (double)percentile(h, 999, 10) / 1000, dkap_len(h));
    for (level = 1024; count < dkap_len(h); level *= 2) {
        count = dkap_count_between(h, 0, level);
        if (count > before)
            printf(" %" PRIu64 " %" PRIu64, dkap_highest_equivalent(h, level) / 1000, count);
        before = count;
    }
    printf("\n");
}

int main(int argc, char **argv)
{
    struct dkap_histogram h = DKAP_CLOSED;
    struct record *records;
    size_t length = 0;
    bool is_server;

    if (argc != 4)
        fail("usage: percentiles benchmark|server TRACE COUNT");
    is_server = strcmp(argv[1], "server") == 0;
    records = read_trace(argv[2], &length);
    ensure(is_server ? dkap_init(&h, 1, 1000000000, 2) : dkap_init(&h, 10, 3000000, 3));
    record_samples(&h, records, length, strtoull(argv[3], NULL, 10));
    if (is_server)
        print_server(&h);
    else
        print_benchmark(&h);
    free(records);
    dkap_close(&h);
    return 0;
}
