/*
 * One operation, over and over, for callgrind: of dkap.h, or of HdrHistogram_c if THEIRS is defined. The histogram has 100,000
 * latencies around 1 ms, at 3 digits up to one hour in microseconds.
 * usage: cost OPERATION TIMES; the status is 2 if there is no such operation
 */
#ifdef THEIRS
#include <hdr/hdr_histogram.h>
#define OURS(ours, theirs) theirs
static struct hdr_histogram *h;
#else
#include "dkap.h"
#define OURS(ours, theirs) ours
static struct dkap_histogram handle, *h = &handle;
#endif
#include <math.h>
#include <stdint.h>
#include <stdlib.h>
#include <string.h>

enum { VALUES = 1 << 14 };

static uint64_t values[VALUES];
static volatile uint64_t sink;

/* Log-normal latencies in microseconds, around 1 ms. */
static void make_values(void)
{
    uint64_t state = 7;
    int i, j;

    for (i = 0; i < VALUES; i++) {
        double sum = 0;

        for (j = 0; j < 12; j++) {
            state = state * 6364136223846793005u + 1442695040888963407u;
            sum += (double)(state >> 11) / 9007199254740992.0;
        }
        values[i] = (uint64_t)exp(6.9 + (sum - 6.0) * 0.8);
    }
}

static void none(uint64_t value)
{
    sink = value;
}

static void record(uint64_t value)
{
    sink = (uint64_t)OURS(dkap_record(h, value), hdr_record_value(h, (int64_t)value));
}

static void record_n(uint64_t value)
{
    sink = (uint64_t)OURS(dkap_record_n(h, value, 3), hdr_record_values(h, (int64_t)value, 3));
}

/* Two samples are missing. */
static void record_corrected(uint64_t value)
{
    sink = (uint64_t)OURS(dkap_record_correct(h, value, 1, value / 3), hdr_record_corrected_value(h, (int64_t)value, (int64_t)(value / 3)));
}

static void len(uint64_t value)
{
    (void)value;
    sink = (uint64_t)OURS(dkap_len(h), h->total_count);
}

static void min(uint64_t value)
{
    (void)value;
    sink = (uint64_t)OURS(dkap_min(h), hdr_min(h));
}

static void max(uint64_t value)
{
    (void)value;
    sink = (uint64_t)OURS(dkap_max(h), hdr_max(h));
}

static void count_at(uint64_t value)
{
    sink = (uint64_t)OURS(dkap_count_at(h, value), hdr_count_at_value(h, (int64_t)value));
}

static void lowest(uint64_t value)
{
    sink = (uint64_t)OURS(dkap_lowest_equivalent(h, value), hdr_lowest_equivalent_value(h, (int64_t)value));
}

static void p99(uint64_t value)
{
    (void)value;
#ifdef THEIRS
    sink = (uint64_t)hdr_value_at_percentile(h, 99.0);
#else
    uint64_t found = 0;

    if (dkap_value_at_quantile(h, 99, 100, &found) == DKAP_OK)
        sink = found;
#endif
}

static void mean(uint64_t value)
{
    (void)value;
#ifdef THEIRS
    sink = (uint64_t)hdr_mean(h);
#else
    struct dkap_fraction found;

    if (dkap_mean(h, &found) == DKAP_OK)
        sink = found.num_low / found.den;
#endif
}

#define OPERATION(name) {#name, name}

static const struct {
    const char *name;
    void (*call)(uint64_t value);
} OPERATIONS[] = {
    OPERATION(none), OPERATION(record), OPERATION(record_n), OPERATION(record_corrected), OPERATION(len), OPERATION(min), OPERATION(max),
    OPERATION(count_at), OPERATION(lowest), OPERATION(p99), OPERATION(mean),
};

int main(int argc, char **argv)
{
    long times = argc > 2 ? strtol(argv[2], NULL, 10) : 1, i;
    size_t operation;
    int status = 2;

    if (OURS(dkap_init(h, 1, 3600000000, 3), hdr_init(1, 3600000000, 3, &h)) != 0)
        return 1;
    make_values();
    for (i = 0; i < 100000; i++)
        record(values[i % VALUES]);
    for (operation = 0; operation < sizeof OPERATIONS / sizeof OPERATIONS[0]; operation++)
        if (argc > 1 && strcmp(OPERATIONS[operation].name, argv[1]) == 0) {
            for (i = 0; i < times; i++)
                OPERATIONS[operation].call(values[i % VALUES]);
            status = 0;
        }
    OURS(dkap_close(h), hdr_close(h));
    return status;
}
