/* The driver of the library for C of this repository. driver.h has the form of its commands. */
#include <inttypes.h>
#include <stdlib.h>
#include <string.h>

#include "dkap.h"
#include "driver.h"

enum { STEPS = 1 << 16 };

static struct dkap_histogram h;
static uint64_t values[STEPS], counts[STEPS];
static FILE *log_file;

/* Whether a call succeeded. Otherwise it prints its error. */
static bool succeeds(dkap_status status)
{
    if (status != DKAP_OK)
        printf("error %" PRIu32, status);
    return status == DKAP_OK;
}

static void create(char *rest)
{
    uint64_t low = next_number(&rest), high = next_number(&rest), sigfig = next_number(&rest);

    if (succeeds(dkap_init(&h, low, high, (uint8_t)sigfig)))
        printf("ok");
}

/* Records pairs of a value and a count, and prints how many were recorded. */
static void fill(char *rest)
{
    uint64_t done = 0;

    while (has_number(&rest)) {
        uint64_t value = next_number(&rest), count = next_number(&rest);

        done += dkap_record_n(&h, value, count) == DKAP_OK;
    }
    print_number(done);
}

/* Records values, counts and expected intervals, and prints how many were recorded. */
static void fill_corrected(char *rest)
{
    uint64_t done = 0;

    while (has_number(&rest)) {
        uint64_t value = next_number(&rest), count = next_number(&rest), interval = next_number(&rest);

        done += dkap_record_correct(&h, value, count, interval) == DKAP_OK;
    }
    print_number(done);
}

/* Replaces the histogram by one that has its samples corrected for an expected interval. */
static void correct(char *rest)
{
    struct dkap_histogram sum = DKAP_CLOSED;
    uint64_t interval = next_number(&rest);

    if (succeeds(dkap_copy(&sum, &h)) && succeeds(dkap_reset(&sum)) && succeeds(dkap_add_correct(&sum, &h, interval)) &&
        succeeds(dkap_copy(&h, &sum)))
        printf("ok");
    dkap_close(&sum);
}

static void total(char *rest)
{
    (void)rest;
    print_number(dkap_len(&h));
}

static void least(char *rest)
{
    (void)rest;
    print_number(dkap_min(&h));
}

static void greatest(char *rest)
{
    (void)rest;
    print_number(dkap_max(&h));
}

static void percentile(char *rest)
{
    uint64_t num = next_number(&rest), den = next_number(&rest), value = 0;

    if (succeeds(dkap_value_at_percentile(&h, num, den, &value)))
        print_number(value);
}

/* Prints the two halves of the numerator, and the denominator. */
static void print_fraction(dkap_status status, const struct dkap_fraction *f)
{
    if (!succeeds(status))
        return;
    print_number(f->num_low);
    printf(" %" PRIu64 " %" PRIu64, f->num_high, f->den);
}

static void mean(char *rest)
{
    struct dkap_fraction f = {0, 0, 0};

    (void)rest;
    print_fraction(dkap_mean(&h, &f), &f);
}

static void deviation(char *rest)
{
    struct dkap_fraction f = {0, 0, 0};

    (void)rest;
    print_fraction(dkap_standard_deviation(&h, &f), &f);
}

static void count_at(char *rest)
{
    print_number(dkap_count_at(&h, next_number(&rest)));
}

static void count_between(char *rest)
{
    uint64_t low = next_number(&rest), high = next_number(&rest);

    print_number(dkap_count_between(&h, low, high));
}

static void percentile_below(char *rest)
{
    struct dkap_fraction f = {0, 0, 0};
    dkap_status status = dkap_percentile_below(&h, next_number(&rest), &f);

    print_fraction(status, &f);
}

/* The lowest, greatest and middle value of a class, the lowest of the next, and the number of values in it. */
static void class_of(char *rest)
{
    uint64_t value = next_number(&rest);

    print_number(dkap_lowest_equivalent(&h, value));
    printf(" %" PRIu64 " %" PRIu64, dkap_highest_equivalent(&h, value), dkap_median_equivalent(&h, value));
    printf(" %" PRIu64 " %" PRIu64, dkap_next_non_equivalent(&h, value), dkap_equivalent_range(&h, value));
}

static void recorded(char *rest)
{
    struct dkap_class c = {0};
    bool is_first = true;

    for (; dkap_next_class(&h, &c); is_first = false)
        print_pair(is_first, c.highest, c.count);
    (void)rest;
}

static void print_steps(dkap_status status, size_t done)
{
    size_t i;

    for (i = 0; succeeds(status) && i < done; i++)
        print_pair(i == 0, values[i], counts[i]);
}

static void linear(char *rest)
{
    uint64_t step = next_number(&rest);
    size_t done = 0;
    dkap_status status = dkap_linear_steps(&h, step, values, STEPS, counts, STEPS, &done);

    print_steps(status, done);
}

static void logarithmic(char *rest)
{
    uint64_t start = next_number(&rest), base = next_number(&rest);
    size_t done = 0;
    dkap_status status = dkap_log_steps(&h, start, base, values, STEPS, counts, STEPS, &done);

    print_steps(status, done);
}

static void ticks(char *rest)
{
    uint32_t number = (uint32_t)next_number(&rest);
    size_t done = 0;
    dkap_status status = dkap_quantile_steps(&h, number, values, STEPS, counts, STEPS, &done);

    print_steps(status, done);
}

/* Calls that put bytes into a buffer, first to ask for its length. */
typedef dkap_status encoder(const struct dkap_histogram *DKAP_RESTRICT source, uint8_t *DKAP_RESTRICT buf,
                            size_t length, size_t *DKAP_RESTRICT needed);

static void print_encoded(encoder *encode)
{
    size_t needed = 0;
    uint8_t none = 0, *bytes;
    dkap_status status = encode(&h, &none, 0, &needed);

    if (status != DKAP_E_BUFFER_TOO_SMALL) {
        (void)succeeds(status);
        return;
    }
    bytes = malloc(needed);
    if (bytes == NULL)
        fail("out of memory");
    if (succeeds(encode(&h, bytes, needed, &needed)))
        print_hex(bytes, needed);
    free(bytes);
}

static void encode_plain(char *rest)
{
    (void)rest;
    print_encoded(dkap_encode);
}

static void encode_compressed(char *rest)
{
    (void)rest;
    print_encoded(dkap_encode_compressed);
}

static void decode(char *rest)
{
    size_t length = 0, taken = 0;
    uint8_t *bytes = bytes_of_hex(next_word(&rest), &length);

    if (succeeds(dkap_decode(&h, bytes, length, DKAP_NO_LIMIT, &taken)))
        printf(taken == length ? "ok" : "error: bytes are left");
    free(bytes);
}

static uint64_t millis(struct dkap_time time)
{
    return time.seconds * 1000 + time.nanos / 1000000;
}

static uint8_t *read_file(const char *path, size_t *length)
{
    FILE *file = fopen(path, "rb");
    uint8_t *bytes = NULL;
    long size = 0;

    if (file == NULL || fseek(file, 0, SEEK_END) != 0 || (size = ftell(file)) < 0 || fseek(file, 0, SEEK_SET) != 0)
        fail("no log");
    *length = (size_t)size;
    bytes = malloc(*length + 1);
    if (bytes == NULL || fread(bytes, 1, *length, file) != *length)
        fail("no log");
    fclose(file);
    return bytes;
}

/* Prints an interval: its tag, its start since the epoch, its duration, and its samples. */
static void print_interval(const uint8_t *text, const struct dkap_interval *i)
{
    printf(" ;%.*s,", (int)i->tag_length, (const char *)text + i->tag_at);
    print_number(millis(i->start) + (i->has_base ? millis(i->base) : 0));
    printf(",%" PRIu64 ",", millis(i->duration));
    recorded(NULL);
}

static void read_log(char *rest)
{
    size_t length = 0;
    uint8_t *text = read_file(next_word(&rest), &length);
    struct dkap_log_header header;
    struct dkap_interval i = {0};
    dkap_status status;

    dkap_log_header_of(text, length, &header);
    if (header.has_start_time)
        printf("%" PRIu64, millis(header.start_time));
    while ((status = dkap_log_next(&h, text, length, DKAP_NO_LIMIT, &i)) == DKAP_OK)
        print_interval(text, &i);
    printf(status == DKAP_LOG_END ? " ;end" : " ;error %" PRIu32, status);
    free(text);
}

/* Appends a part of a log that was put into the buffer. */
static void append(dkap_status status, const uint8_t *buf, size_t needed)
{
    if (succeeds(status) && fwrite(buf, 1, needed, log_file) == needed)
        printf("ok");
}

static void begin_log(char *rest)
{
    log_file = fopen(next_word(&rest), "wb");
    printf(log_file == NULL ? "error" : "ok");
}

static void end_log(char *rest)
{
    (void)rest;
    printf(fclose(log_file) == 0 ? "ok" : "error");
}

static void write_comment(char *rest)
{
    static uint8_t buf[4096];
    size_t needed = 0;
    dkap_status status = dkap_log_comment((const uint8_t *)rest, strlen(rest), buf, sizeof buf, &needed);

    append(status, buf, needed);
}

static void write_start_time(char *rest)
{
    uint8_t buf[256];
    uint64_t at = next_number(&rest);
    size_t needed = 0;
    dkap_status status = dkap_log_start_time(at / 1000, (uint32_t)(at % 1000) * 1000000, buf, sizeof buf, &needed);

    append(status, buf, needed);
}

static void write_base_time(char *rest)
{
    uint8_t buf[256];
    uint64_t at = next_number(&rest);
    size_t needed = 0;
    dkap_status status = dkap_log_base_time(at / 1000, (uint32_t)(at % 1000) * 1000000, buf, sizeof buf, &needed);

    append(status, buf, needed);
}

/* Writes the line of the histogram: start and duration in milliseconds, whether it is compressed, and the tag. */
static void write_line(char *rest)
{
    static uint8_t buf[1 << 20];
    uint64_t start = next_number(&rest), duration = next_number(&rest);
    bool is_compressed = next_number(&rest) == 1;
    const char *tag = next_word(&rest);
    size_t needed = 0;
    dkap_status status = (is_compressed ? dkap_log_line_compressed : dkap_log_line)(
        &h, start / 1000, (uint32_t)(start % 1000) * 1000000, duration / 1000, (uint32_t)(duration % 1000) * 1000000,
        (const uint8_t *)tag, strlen(tag), buf, sizeof buf, &needed);

    append(status, buf, needed);
}

const struct command commands[] = {
    {"new", create}, {"fill", fill}, {"omit", fill_corrected}, {"correct", correct}, {"total", total}, {"min", least},
    {"max", greatest}, {"q", percentile}, {"mean", mean}, {"sd", deviation}, {"at", count_at},
    {"between", count_between}, {"below", percentile_below}, {"class", class_of}, {"recorded", recorded},
    {"linear", linear}, {"log", logarithmic}, {"ticks", ticks}, {"encode", encode_plain},
    {"compress", encode_compressed}, {"decode", decode}, {"read", read_log}, {"begin", begin_log},
    {"comment", write_comment}, {"start", write_start_time}, {"base", write_base_time}, {"line", write_line},
    {"end", end_log}, {NULL, NULL},
};
