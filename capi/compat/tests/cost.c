/*
 * One operation, over and over, for callgrind: on 100,000 latencies, or recording them.
 * usage: cost OPERATION TIMES
 */
#include <hdr/hdr_histogram.h>
#include <hdr/hdr_histogram_log.h>
#include <math.h>
#include <stdio.h>
#include <stdlib.h>
#include <string.h>

enum { VALUES = 1 << 14 };

static int64_t values[VALUES];
static struct hdr_histogram *h, *other;
static volatile double sink;

/* Log-normal latencies in microseconds, around 1 ms. */
static void make_values(void)
{
    uint64_t state = 7;
    int i, j;

    for (i = 0; i < VALUES; i++) {
        double sum = 0;

        for (j = 0; j < 12; j++) {
            state = state * 6364136223846793005u + 1442695040888963407u;
            sum += (double)(state >> 11) / 9007199254740992.0;
        }
        values[i] = (int64_t)exp(6.9 + (sum - 6.0) * 0.8);
    }
}

static void record(long i)
{
    hdr_record_value(h, values[i % VALUES]);
}

static void record_atomic(long i)
{
    hdr_record_value_atomic(h, values[i % VALUES]);
}

static void record_n(long i)
{
    hdr_record_values(h, values[i % VALUES], 3);
}

static void record_corrected(long i)
{
    hdr_record_corrected_value(h, values[i % VALUES], values[i % VALUES] / 3);
}

static void none(long i)
{
    sink = (double)values[i % VALUES];
}

static void min(long i)
{
    (void)i;
    sink = (double)hdr_min(h);
}

static void max(long i)
{
    (void)i;
    sink = (double)hdr_max(h);
}

static void mean(long i)
{
    (void)i;
    sink = hdr_mean(h);
}

static void stddev(long i)
{
    (void)i;
    sink = hdr_stddev(h);
}

static void p50(long i)
{
    (void)i;
    sink = (double)hdr_value_at_percentile(h, 50.0);
}

static void record_p50(long i)
{
    record(i);
    p50(i);
}

static void records_p50(long i)
{
    long j;

    for (j = 0; j < 1000; j++)
        record(1000 * i + j);
    p50(i);
}

static void p999(long i)
{
    (void)i;
    sink = (double)hdr_value_at_percentile(h, 99.9);
}

static void percentiles(long i)
{
    static const double five[] = {50.0, 90.0, 99.0, 99.9, 99.99};
    int64_t found[5];

    (void)i;
    hdr_value_at_percentiles(h, five, found, 5);
    sink = (double)found[4];
}

static void count_at_value(long i)
{
    sink = (double)hdr_count_at_value(h, values[i % VALUES]);
}

static void count_at_index(long i)
{
    sink = (double)hdr_count_at_index(h, (int32_t)(i % 20000));
}

static void value_at_index(long i)
{
    sink = (double)hdr_value_at_index(h, (int32_t)(i % 20000));
}

static void lowest(long i)
{
    sink = (double)hdr_lowest_equivalent_value(h, values[i % VALUES]);
}

static void range(long i)
{
    sink = (double)hdr_size_of_equivalent_value_range(h, values[i % VALUES]);
}

static void next(long i)
{
    sink = (double)hdr_next_non_equivalent_value(h, values[i % VALUES]);
}

static void median(long i)
{
    sink = (double)hdr_median_equivalent_value(h, values[i % VALUES]);
}

static void are_equivalent(long i)
{
    sink = hdr_values_are_equivalent(h, values[i % VALUES], 1000);
}

static void finish(struct hdr_iter *iter)
{
    while (hdr_iter_next(iter))
        sink = (double)iter->count;
}

static void iter_all(long i)
{
    struct hdr_iter iter;

    (void)i;
    hdr_iter_init(&iter, h);
    finish(&iter);
}

static void iter_recorded(long i)
{
    struct hdr_iter iter;

    (void)i;
    hdr_iter_recorded_init(&iter, h);
    finish(&iter);
}

static void iter_linear(long i)
{
    struct hdr_iter iter;

    (void)i;
    hdr_iter_linear_init(&iter, h, 100);
    finish(&iter);
}

static void iter_log(long i)
{
    struct hdr_iter iter;

    (void)i;
    hdr_iter_log_init(&iter, h, 100, 2.0);
    finish(&iter);
}

static void iter_percentile(long i)
{
    struct hdr_iter iter;

    (void)i;
    hdr_iter_percentile_init(&iter, h, 5);
    finish(&iter);
}

static void reset(long i)
{
    (void)i;
    hdr_reset(other);
}

static void add(long i)
{
    (void)i;
    hdr_add(other, h);
}

static void encode(long i)
{
    char *text = NULL;

    (void)i;
    hdr_log_encode(h, &text);
    free(text);
}

#define OPERATION(name) {#name, name}

static const struct {
    const char *name;
    void (*call)(long i);
} OPERATIONS[] = {
    OPERATION(none), OPERATION(record), OPERATION(record_atomic), OPERATION(record_n), OPERATION(record_corrected),
    OPERATION(min), OPERATION(max), OPERATION(mean), OPERATION(stddev), OPERATION(p50), OPERATION(p999),
    OPERATION(record_p50), OPERATION(records_p50),
    OPERATION(percentiles), OPERATION(count_at_value), OPERATION(count_at_index), OPERATION(value_at_index),
    OPERATION(lowest), OPERATION(range), OPERATION(next), OPERATION(median), OPERATION(are_equivalent),
    OPERATION(iter_all), OPERATION(iter_recorded), OPERATION(iter_linear), OPERATION(iter_log),
    OPERATION(iter_percentile), OPERATION(reset), OPERATION(add), OPERATION(encode),
};

int main(int argc, char **argv)
{
    long times = argc > 2 ? strtol(argv[2], NULL, 10) : 1, i;
    size_t operation;

    if (hdr_init(1, 3600000000, 3, &h) != 0 || hdr_init(1, 3600000000, 3, &other) != 0)
        return 1;
    make_values();
    for (i = 0; i < 100000; i++)
        hdr_record_value(h, values[i % VALUES]);
    sink = (double)hdr_max(h);
    for (operation = 0; operation < sizeof OPERATIONS / sizeof OPERATIONS[0]; operation++)
        if (argc > 1 && strcmp(OPERATIONS[operation].name, argv[1]) == 0)
            for (i = 0; i < times; i++)
                OPERATIONS[operation].call(i);
    hdr_close(h);
    hdr_close(other);
    return 0;
}
