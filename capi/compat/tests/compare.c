/*
 * Random histograms in this library and in HdrHistogram_c, whose names begin with theirs_: fields, counts, classes,
 * statistics, iterations and tables are the same. Percentiles are compared with the exact rank, by the counts.
 * usage: compare HISTOGRAMS SEED
 */
#define _GNU_SOURCE
#include <hdr/hdr_histogram.h>
#include <math.h>
#include <stdlib.h>
#include <string.h>

#include "check.h"

#define THEIRS(name) __typeof__(hdr_##name) theirs_##name
THEIRS(init);
THEIRS(close);
THEIRS(reset);
THEIRS(record_value);
THEIRS(record_values);
THEIRS(record_value_atomic);
THEIRS(record_corrected_values);
THEIRS(add);
THEIRS(add_while_correcting_for_coordinated_omission);
THEIRS(min);
THEIRS(max);
THEIRS(mean);
THEIRS(stddev);
THEIRS(count_at_value);
THEIRS(value_at_index);
THEIRS(values_are_equivalent);
THEIRS(lowest_equivalent_value);
THEIRS(median_equivalent_value);
THEIRS(next_non_equivalent_value);
THEIRS(size_of_equivalent_value_range);
THEIRS(iter_init);
THEIRS(iter_next);
THEIRS(iter_recorded_init);
THEIRS(iter_linear_init);
THEIRS(iter_log_init);
THEIRS(iter_percentile_init);
THEIRS(percentiles_print);
THEIRS(reset_internal_counters);

struct pair {
    struct hdr_histogram *ours, *theirs;
};

static uint64_t state = 1;

static uint64_t next_random(void)
{
    state ^= state << 13;
    state ^= state >> 7;
    state ^= state << 17;
    return state;
}

/* A number of up to `bits` bits, of which the small ones are as frequent as the great ones. */
static int64_t random_of(int bits)
{
    return (int64_t)(next_random() >> (64 - 1 - next_random() % (uint64_t)bits));
}

static bool init_pair(struct pair *p, int64_t low, int64_t high, int figures)
{
    int ours = hdr_init(low, high, figures, &p->ours), theirs = theirs_init(low, high, figures, &p->theirs);

    CHECK(ours == theirs);
    if (ours == 0 && theirs == 0)
        return true;
    if (ours == 0)
        hdr_close(p->ours);
    if (theirs == 0)
        theirs_close(p->theirs);
    return false;
}

static void close_pair(struct pair *p)
{
    hdr_close(p->ours);
    theirs_close(p->theirs);
}

static void record(struct pair *p, int samples)
{
    int i;

    for (i = 0; i < samples; i++) {
        int64_t value = random_of(44), count = 1 + random_of(8), interval = 1 + random_of(40);

        switch (next_random() % 8) {
        case 0:
            CHECK(hdr_record_values(p->ours, value, count) == theirs_record_values(p->theirs, value, count));
            break;
        case 1:
            interval = value / 50 + interval % 1000;
            CHECK(hdr_record_corrected_values(p->ours, value, count, interval) ==
                  theirs_record_corrected_values(p->theirs, value, count, interval));
            break;
        case 2:
            CHECK(!hdr_record_value(p->ours, -1 - value));
            break;
        case 3:
            CHECK(hdr_record_value_atomic(p->ours, value) == theirs_record_value_atomic(p->theirs, value));
            break;
        default:
            CHECK(hdr_record_value(p->ours, value) == theirs_record_value(p->theirs, value));
        }
        CHECK(p->ours->total_count == p->theirs->total_count && p->ours->max_value == p->theirs->max_value);
        CHECK(p->ours->counts[i % p->ours->counts_len] == p->theirs->counts[i % p->ours->counts_len]);
    }
}

static void compare_classes(const struct pair *p)
{
    int i;

    for (i = 0; i < 50; i++) {
        int64_t a = random_of(62), b = a + random_of(20);
        int32_t index = (int32_t)(next_random() % (uint64_t)p->ours->counts_len);

        CHECK(hdr_lowest_equivalent_value(p->ours, a) == theirs_lowest_equivalent_value(p->theirs, a));
        CHECK(hdr_median_equivalent_value(p->ours, a) == theirs_median_equivalent_value(p->theirs, a));
        CHECK(hdr_next_non_equivalent_value(p->ours, a) == theirs_next_non_equivalent_value(p->theirs, a));
        CHECK(hdr_size_of_equivalent_value_range(p->ours, a) == theirs_size_of_equivalent_value_range(p->theirs, a));
        CHECK(hdr_values_are_equivalent(p->ours, a, b) == theirs_values_are_equivalent(p->theirs, a, b));
        a = hdr_value_at_index(p->ours, index);
        CHECK(a == theirs_value_at_index(p->theirs, index));
        CHECK(hdr_count_at_value(p->ours, a) == theirs_count_at_value(p->theirs, a));
        CHECK(hdr_count_at_index(p->ours, index) == p->theirs->counts[index]);
    }
}

static bool is_close(double a, double b)
{
    return (isnan(a) && isnan(b)) || fabs(a - b) <= 1e-9 * fabs(b);
}

static void compare_statistics(const struct pair *p)
{
    struct hdr_histogram *ours = p->ours, *theirs = p->theirs;

    CHECK(hdr_min(ours) == theirs_min(theirs));
    CHECK(hdr_max(ours) == theirs_max(theirs));
    CHECK(is_close(hdr_mean(ours), theirs_mean(theirs)));
    CHECK(is_close(hdr_stddev(ours), theirs_stddev(theirs)) || theirs_stddev(theirs) < 1e-3);
    CHECK(ours->counts_len == theirs->counts_len && ours->unit_magnitude == theirs->unit_magnitude);
    CHECK(ours->sub_bucket_mask == theirs->sub_bucket_mask && ours->bucket_count == theirs->bucket_count);
    CHECK(ours->sub_bucket_half_count_magnitude == theirs->sub_bucket_half_count_magnitude);
    CHECK(ours->sub_bucket_half_count == theirs->sub_bucket_half_count);
    CHECK(ours->sub_bucket_count == theirs->sub_bucket_count && ours->total_count == theirs->total_count);
    CHECK(ours->lowest_discernible_value == theirs->lowest_discernible_value);
    CHECK(ours->highest_trackable_value == theirs->highest_trackable_value);
    CHECK(ours->significant_figures == theirs->significant_figures);
    CHECK(memcmp(ours->counts, theirs->counts, (size_t)ours->counts_len * sizeof *ours->counts) == 0);
}

static void compare_steps(struct hdr_iter *a, struct hdr_iter *b)
{
    bool more;

    do {
        more = hdr_iter_next(a);
        CHECK(more == theirs_iter_next(b));
        if (!more || failures > 20)
            return;
        CHECK(a->counts_index == b->counts_index && a->count == b->count && a->value == b->value);
        CHECK(a->cumulative_count == b->cumulative_count && a->total_count == b->total_count);
        CHECK(a->highest_equivalent_value == b->highest_equivalent_value);
        CHECK(a->value_iterated_from == b->value_iterated_from && a->value_iterated_to == b->value_iterated_to);
    } while (more);
}

static void compare_iterations(const struct pair *p)
{
    int64_t step = 1 + p->ours->max_value / (1 + random_of(10)), first = 1 + random_of(20);
    int32_t ticks = 1 + (int32_t)(next_random() % 10);
    struct hdr_iter a, b;

    hdr_iter_init(&a, p->ours);
    theirs_iter_init(&b, p->theirs);
    compare_steps(&a, &b);
    hdr_iter_recorded_init(&a, p->ours);
    theirs_iter_recorded_init(&b, p->theirs);
    compare_steps(&a, &b);
    hdr_iter_linear_init(&a, p->ours, step);
    theirs_iter_linear_init(&b, p->theirs, step);
    compare_steps(&a, &b);
    hdr_iter_log_init(&a, p->ours, first, 2.0);
    theirs_iter_log_init(&b, p->theirs, first, 2.0);
    compare_steps(&a, &b);
    hdr_iter_percentile_init(&a, p->ours, ticks);
    theirs_iter_percentile_init(&b, p->theirs, ticks);
    compare_steps(&a, &b);
}

static void compare_tables(const struct pair *p)
{
    format_type format = next_random() % 2 == 0 ? CSV : CLASSIC;
    char *a = NULL, *b = NULL;
    size_t a_length = 0, b_length = 0;
    FILE *ours = open_memstream(&a, &a_length), *theirs = open_memstream(&b, &b_length);

    CHECK(hdr_percentiles_print(p->ours, ours, 5, 10.0, format) == 0);
    CHECK(theirs_percentiles_print(p->theirs, theirs, 5, 10.0, format) == 0);
    CHECK(fclose(ours) == 0 && fclose(theirs) == 0);
    CHECK(p->ours->total_count == 0 || (a_length == b_length && memcmp(a, b, a_length) == 0));
    free(a);
    free(b);
}

/* The percentile num/1000, of the sample of rank ceil(num * total / 100000). */
static void compare_percentiles(const struct pair *p)
{
    const struct hdr_histogram *h = p->theirs;
    int i;

    for (i = 0; i < 20 && h->total_count > 0; i++) {
        int64_t num = i == 0 ? 100000 : (int64_t)(1 + next_random() % 100000), sum = 0, value = 0;
        int64_t rank = (num * h->total_count + 99999) / 100000;
        double percentile = (double)num / 1000;
        int32_t index = -1;

        while (sum < rank)
            sum += h->counts[++index];
        value = theirs_next_non_equivalent_value(h, theirs_value_at_index(h, index)) - 1;
        CHECK(hdr_value_at_percentile(p->ours, percentile) == value);
        CHECK(hdr_value_at_percentiles(p->ours, &percentile, &sum, 1) == 0 && sum == value);
    }
}

static void compare_all(const struct pair *p)
{
    compare_statistics(p);
    compare_classes(p);
    compare_iterations(p);
    compare_tables(p);
    compare_percentiles(p);
}

/* Writes to the counts, as a program that reads a format of its own does. */
static void write_counts(struct pair *p)
{
    int i;

    for (i = 0; i < 5; i++) {
        int32_t index = (int32_t)(next_random() % (uint64_t)p->ours->counts_len);

        p->ours->counts[index] += i;
        p->theirs->counts[index] += i;
    }
    hdr_reset_internal_counters(p->ours);
    theirs_reset_internal_counters(p->theirs);
}

static void add(struct pair *p)
{
    struct pair other;
    int64_t interval = random_of(40);

    if (!init_pair(&other, 1 + random_of(5), 1000000, 3))
        return;
    record(&other, 20);
    CHECK(hdr_add(other.ours, p->ours) == theirs_add(other.theirs, p->theirs));
    interval += other.ours->max_value / 50;
    CHECK(hdr_add_while_correcting_for_coordinated_omission(p->ours, other.ours, interval) ==
          theirs_add_while_correcting_for_coordinated_omission(p->theirs, other.theirs, interval));
    compare_statistics(&other);
    close_pair(&other);
}

/* Seldom 4 to 6, whose histograms are long, or 0. */
static int random_digits(void)
{
    uint64_t number = next_random() % 16;

    return number < 14 ? 1 + (int)(number % 3) : number < 15 ? 0 : 4 + (int)(next_random() % 3);
}

static void compare_one(void)
{
    struct pair p;
    int64_t low = next_random() % 3 == 0 ? random_of(30) : 1;
    int64_t high = 2 * low + random_of(45) - (int64_t)(next_random() % 16 == 0);

    if (!init_pair(&p, low, high, random_digits()))
        return;
    compare_all(&p);
    record(&p, (int)random_of(10));
    compare_all(&p);
    add(&p);
    compare_statistics(&p);
    write_counts(&p);
    compare_statistics(&p);
    hdr_reset(p.ours);
    theirs_reset(p.theirs);
    record(&p, 3);
    compare_all(&p);
    close_pair(&p);
}

/* Counts and their sum saturate at the greatest of 64 bits, and percentiles are of all samples up to there. */
static void saturate(void)
{
    struct hdr_histogram *h = NULL;
    int i;

    CHECK(hdr_init(1, 1000, 2, &h) == 0);
    for (i = 0; i < 2; i++)
        CHECK(hdr_record_values(h, 5, INT64_MAX));
    CHECK(h->counts[5] == -2 && hdr_value_at_percentile(h, 100.0) == 5);
    CHECK(hdr_record_value(h, 100) && h->total_count == -1 && hdr_value_at_percentile(h, 100.0) == 100);
    CHECK(hdr_record_value(h, 5) && h->counts[5] == -1 && h->total_count == -1 && hdr_value_at_percentile(h, 100.0) == 5);
    CHECK(hdr_record_value(h, 5) && h->counts[5] == -1 && !hdr_record_values(h, 5, -1));
    hdr_close(h);
}

int main(int argc, char **argv)
{
    long histograms = argc > 1 ? strtol(argv[1], NULL, 10) : 200, i;

    state = argc > 2 ? strtoull(argv[2], NULL, 10) * 2 + 1 : 1;
    for (i = 0; i < histograms && failures < 20; i++)
        compare_one();
    saturate();
    printf("%ld histograms\n", i);
    return checked();
}
