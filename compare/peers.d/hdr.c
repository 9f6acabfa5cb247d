/* The driver of HdrHistogram_c. driver.h has the form of its commands. It is linked with the library's own source. */
#define _POSIX_C_SOURCE 200809L
#include <hdr/hdr_histogram.h>
#include <hdr/hdr_histogram_log.h>
#include <inttypes.h>
#include <stdlib.h>
#include <string.h>

#include "driver.h"

/* Calls that the library has, and its headers do not. */
int hdr_encode_compressed(struct hdr_histogram *source, uint8_t **bytes, size_t *length);
int hdr_decode_compressed(uint8_t *bytes, size_t length, struct hdr_histogram **result);

static struct hdr_histogram *h;

static void replace(struct hdr_histogram *other)
{
    hdr_close(h);
    h = other;
}

/* Takes a new histogram, and prints the status. On error it is an empty one, so that later commands have one. */
static void take(struct hdr_histogram *made, int status)
{
    if (status == 0)
        printf("ok");
    else if (hdr_init(1, 2, 1, &made) == 0)
        printf("error %d", status);
    else
        fail("out of memory");
    replace(made);
}

static void create(char *rest)
{
    int64_t low = (int64_t)next_number(&rest), high = (int64_t)next_number(&rest);
    struct hdr_histogram *made = NULL;
    int status = hdr_init(low, high, (int)next_number(&rest), &made);

    take(made, status);
}

static void fill(char *rest)
{
    uint64_t done = 0;

    while (has_number(&rest)) {
        int64_t value = (int64_t)next_number(&rest), count = (int64_t)next_number(&rest);

        done += hdr_record_values(h, value, count);
    }
    print_number(done);
}

static void fill_corrected(char *rest)
{
    uint64_t done = 0;

    while (has_number(&rest)) {
        int64_t value = (int64_t)next_number(&rest), count = (int64_t)next_number(&rest);

        done += hdr_record_corrected_values(h, value, count, (int64_t)next_number(&rest));
    }
    print_number(done);
}

static void correct(char *rest)
{
    struct hdr_histogram *sum = NULL;
    int64_t interval = (int64_t)next_number(&rest);

    if (hdr_init(h->lowest_discernible_value, h->highest_trackable_value, h->significant_figures, &sum) != 0)
        fail("out of memory");
    printf(hdr_add_while_correcting_for_coordinated_omission(sum, h, interval) == 0 ? "ok" : "error");
    replace(sum);
}

static void print_signed(int64_t number)
{
    printf("%" PRId64, number);
}

static void total(char *rest)
{
    (void)rest;
    print_signed(h->total_count);
}

static void least(char *rest)
{
    (void)rest;
    print_signed(hdr_min(h));
}

static void greatest(char *rest)
{
    (void)rest;
    print_signed(hdr_max(h));
}

static void percentile(char *rest)
{
    double num = (double)next_number(&rest), den = (double)next_number(&rest);

    print_signed(hdr_value_at_percentile(h, num / den));
}

static void mean(char *rest)
{
    (void)rest;
    printf("%.17g", hdr_mean(h));
}

static void deviation(char *rest)
{
    (void)rest;
    printf("%.17g", hdr_stddev(h));
}

static void count_at(char *rest)
{
    print_signed(hdr_count_at_value(h, (int64_t)next_number(&rest)));
}

/* The greatest value of a class has no call: it is printed as "-". */
static void class_of(char *rest)
{
    int64_t value = (int64_t)next_number(&rest);

    printf("%" PRId64 " - %" PRId64, hdr_lowest_equivalent_value(h, value), hdr_median_equivalent_value(h, value));
    printf(" %" PRId64, hdr_next_non_equivalent_value(h, value));
    printf(" %" PRId64, hdr_size_of_equivalent_value_range(h, value));
}

static void print_recorded(const struct hdr_histogram *source)
{
    struct hdr_iter i;
    bool is_first = true;

    for (hdr_iter_recorded_init(&i, source); hdr_iter_next(&i); is_first = false)
        print_pair(is_first, (uint64_t)i.highest_equivalent_value, (uint64_t)i.count);
}

static void recorded(char *rest)
{
    (void)rest;
    print_recorded(h);
}

static void linear(char *rest)
{
    struct hdr_iter i;
    bool is_first = true;

    for (hdr_iter_linear_init(&i, h, (int64_t)next_number(&rest)); hdr_iter_next(&i); is_first = false)
        print_pair(is_first, (uint64_t)i.value_iterated_to,
                   (uint64_t)i.specifics.linear.count_added_in_this_iteration_step);
}

static void logarithmic(char *rest)
{
    struct hdr_iter i;
    int64_t start = (int64_t)next_number(&rest);
    bool is_first = true;

    for (hdr_iter_log_init(&i, h, start, (double)next_number(&rest)); hdr_iter_next(&i); is_first = false)
        print_pair(is_first, (uint64_t)i.value_iterated_to,
                   (uint64_t)i.specifics.log.count_added_in_this_iteration_step);
}

static void ticks(char *rest)
{
    struct hdr_iter i;
    int64_t before = 0;
    bool is_first = true;

    for (hdr_iter_percentile_init(&i, h, (int32_t)next_number(&rest)); hdr_iter_next(&i); is_first = false) {
        print_pair(is_first, (uint64_t)i.highest_equivalent_value, (uint64_t)(i.cumulative_count - before));
        before = i.cumulative_count;
    }
}

static void encode_compressed(char *rest)
{
    uint8_t *bytes = NULL;
    size_t length = 0;
    int status = hdr_encode_compressed(h, &bytes, &length);

    (void)rest;
    if (status != 0)
        printf("error %d", status);
    else
        print_hex(bytes, length);
    free(bytes);
}

static void decode(char *rest)
{
    size_t length = 0;
    uint8_t *bytes = bytes_of_hex(next_word(&rest), &length);
    struct hdr_histogram *made = NULL;
    int status = hdr_decode_compressed(bytes, length, &made);

    free(bytes);
    take(made, status);
}

static int64_t millis(hdr_timespec time)
{
    return (int64_t)time.tv_sec * 1000 + time.tv_nsec / 1000000;
}

/* Prints the intervals of a log. Their starts are as they are written, as a base time is not read. */
static int print_intervals(struct hdr_log_reader *reader, FILE *file)
{
    for (;;) {
        char tag[HDR_LOG_TAG_MAX_BUFFER_LEN] = "";
        struct hdr_log_entry entry;
        struct hdr_histogram *made = NULL;
        int status;

        memset(&entry, 0, sizeof entry);
        entry.tag = tag;
        entry.tag_len = sizeof tag;
        status = hdr_log_read_entry(reader, file, &entry, &made);
        if (status != 0)
            return status;
        printf(" ;%s,%" PRId64 ",%" PRId64 ",", tag, millis(entry.start_timestamp), millis(entry.interval));
        print_recorded(made);
        hdr_close(made);
    }
}

static void read_log(char *rest)
{
    FILE *file = fopen(next_word(&rest), "r");
    struct hdr_log_reader reader;
    int status;

    if (file == NULL || hdr_log_reader_init(&reader) != 0)
        fail("no log");
    status = hdr_log_read_header(&reader, file);
    if (status == 0) {
        if (reader.start_timestamp.tv_sec != 0)
            print_signed(millis(reader.start_timestamp));
        status = print_intervals(&reader, file);
    }
    if (status == EOF)
        printf(" ;end");
    else
        printf(" ;error %d", status);
    fclose(file);
}

const struct command commands[] = {
    {"new", create}, {"fill", fill}, {"omit", fill_corrected}, {"correct", correct}, {"total", total}, {"min", least},
    {"max", greatest}, {"q", percentile}, {"mean", mean}, {"sd", deviation}, {"at", count_at}, {"class", class_of},
    {"recorded", recorded}, {"linear", linear}, {"log", logarithmic}, {"ticks", ticks},
    {"compress", encode_compressed}, {"decode", decode}, {"read", read_log}, {NULL, NULL},
};
