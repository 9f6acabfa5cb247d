/*
 * High dynamic range (HDR) histograms for C, and for languages that call C.
 *
 * Samples are counted in classes: ranges of values whose width grows with the value. `sigfig` is the number of
 * significant digits that are kept, 0 to 5. Values are integers in any unit.
 *
 *     struct dkap_histogram h = DKAP_CLOSED;
 *     uint64_t p99 = 0;
 *     dkap_status status = dkap_init(&h, 1, 3600000000, 3);
 *     if (status == DKAP_OK)
 *         status = dkap_record(&h, 1190);
 *     if (status == DKAP_OK)
 *         status = dkap_value_at_quantile(&h, 99, 100, &p99);
 *     if (status != DKAP_OK)
 *         fprintf(stderr, "%s\n", dkap_strerror(status));
 *     dkap_close(&h);
 *
 * A `struct dkap_histogram` is a handle. It is closed, or it owns a histogram. It is DKAP_CLOSED to begin with.
 *
 * A call returns DKAP_OK, or the status of an error. The histogram is unchanged on error; only `dkap_record_all` keeps
 * the values before the one in error. A closed handle may be passed to each call. Calls that create its histogram do
 * so; others return an error (DKAP_E_CLOSED, unless another applies too), 0 or false. So a second `dkap_close` does
 * nothing, and a handle may be closed after an error of `dkap_init`. Any number is a valid argument.
 *
 * The code behind these calls is proved for a caller that ensures the following. Nothing checks it, except DKAP_CHECK:
 *
 *   - No pointer is null, even if the length beside it is 0. It is aligned, and valid for its type and length.
 *   - A handle is DKAP_CLOSED to begin with, and is never copied or written by the caller. A copy of the struct would
 *     own the same histogram, and closing both would free it twice. `dkap_copy` copies a histogram.
 *   - No two pointers of one call overlap. `dkap_copy`, `dkap_add`, `dkap_add_correct` and `dkap_subtract` may be
 *     given one handle twice, though: the status is then DKAP_E_SAME_HANDLE. So may `dkap_equal`.
 *   - A call that changes a handle is the only one that uses it. Calls that take a `const` handle write nothing in it
 *     or in its histogram: any number of threads may make them at once.
 *   - No call is made in a signal handler, nor in the forked child of a process that has threads.
 *   - A `bool` that is passed is 0 or 1.
 *   - `malloc`, `realloc` and `free` are those of one allocator, which aligns to 16 bytes.
 *
 * If DKAP_CHECK is defined where this header is included, each call first tests its pointers for null and for overlap.
 * On failure it returns DKAP_E_INVALID_ARGUMENT, or 0 or false if it returns no status. If two calls use a handle at
 * once, and one of them changes it, the program ends with a message. A copied handle is not found.
 */
#ifndef DKAP_H
#define DKAP_H

#include <stdbool.h>
#include <stddef.h>
#include <stdint.h>

#ifdef __cplusplus
extern "C" {
#define DKAP_RESTRICT
#else
#define DKAP_RESTRICT restrict
#endif

#if defined(__GNUC__)
#define DKAP_NONNULL __attribute__((nonnull))
#define DKAP_MUST_TEST __attribute__((warn_unused_result))
#else
#define DKAP_NONNULL
#define DKAP_MUST_TEST
#endif
/* No pointer is null, and the status has to be tested. */
#define DKAP_MUST_USE DKAP_NONNULL DKAP_MUST_TEST

/* A handle. Its fields are private. */
struct dkap_histogram {
    bool filled_;
    void *at_;
};

/* A closed handle, to begin with or to assign. A static handle needs none: all bytes zero are a closed handle. */
#ifdef __cplusplus
#define DKAP_CLOSED (dkap_histogram{})
#else
#define DKAP_CLOSED ((struct dkap_histogram){0})
#endif

typedef uint32_t dkap_status;

enum {
    DKAP_OK = 0,
    DKAP_E_CLOSED = 1,                   /* the handle has no histogram */
    DKAP_E_OUT_OF_MEMORY = 2,            /* an allocation failed */
    DKAP_E_OUT_OF_RANGE = 3,             /* a value has no bin, and the histogram does not grow */
    DKAP_E_LOW_IS_ZERO = 4,              /* `low` is 0 */
    DKAP_E_LOW_EXCEEDS_MAX = 5,          /* `low` exceeds UINT64_MAX / 2 */
    DKAP_E_HIGH_LESS_THAN_TWICE_LOW = 6, /* `high` is less than 2 * `low` */
    DKAP_E_SIGFIG_EXCEEDS_MAX = 7,       /* `sigfig` exceeds 5 */
    DKAP_E_SIGFIG_BEYOND_LOW = 8,        /* `low` and `sigfig` need more than 63 bits together */
    DKAP_E_COUNT_TOO_GREAT = 9,          /* a count would be negative */
    DKAP_E_COUNT_NOT_SERIALIZABLE = 10,  /* a count is 2^63 or more */
    DKAP_E_BUFFER_TOO_SMALL = 11,        /* the buffer is shorter than `needed` */
    DKAP_E_ZERO_DENOMINATOR = 12,        /* the denominator of a quantile is 0 */
    DKAP_E_TOO_MANY_SAMPLES = 13,        /* the number of samples has saturated at UINT64_MAX */
    DKAP_E_BYTES_END_EARLY = 14,         /* the input ends within the histogram */
    DKAP_E_INVALID_COOKIE = 15,          /* the first four bytes are those of no format that is decoded */
    DKAP_E_UNSUPPORTED_FEATURE = 16,     /* the encoded histogram is shifted, scaled, or one of floating-point values */
    DKAP_E_INVALID_PARAMETERS = 17,      /* the encoded bounds and digits are invalid */
    DKAP_E_ENCODED_ARRAY_TOO_LONG = 18,  /* an encoded count has no bin */
    DKAP_E_USIZE_TOO_SMALL = 19,         /* the encoded counts have 2^64 bins or more */
    DKAP_E_SAME_HANDLE = 20,             /* both arguments are one handle */
    DKAP_E_TIME_OUT_OF_RANGE = 21,       /* a start or a duration cannot be written, or nanos are 10^9 or more */
    DKAP_E_INVALID_TAG = 22,             /* a tag is not UTF-8, or has a comma, a space or a line break */
    DKAP_LOG_END = 23,                   /* the log has no further interval */
    DKAP_E_INVALID_LINE = 24,            /* a line is not of the form of an interval log */
    DKAP_E_NOT_BASE64 = 25,              /* the histogram of a line is not Base64 */
    DKAP_E_INVALID_ARGUMENT = 26,        /* DKAP_CHECK alone: a pointer is null, or two pointers overlap */
    DKAP_E_TOO_MANY_BINS = 27,           /* the encoded histogram has more bins than the limit */
    DKAP_E_INVALID_STREAM = 28,          /* the compressed bytes are not a complete zlib stream */
    DKAP_E_NOT_UTF8 = 29,                /* a comment is not UTF-8 */
    DKAP_E_INVALID_STEP = 30             /* a step, a start or a number of ticks is 0, or a base less than 2 */
};

/* No limit of bins. A histogram has at most 6291456 of them, of 8 bytes each. */
#define DKAP_NO_LIMIT UINT64_MAX

/* The fraction (num_high * 2^64 + num_low) / den. */
struct dkap_fraction {
    uint64_t num_low;
    uint64_t num_high;
    uint64_t den;
};

/* The bounds and significant digits, the number of bins, of 8 bytes each, and whether the histogram grows. */
struct dkap_shape {
    uint64_t low;
    uint64_t high;
    uint64_t bins;
    uint8_t sigfig;
    bool auto_resize;
};

/* A nonempty class: its values are lowest to highest. `next` is the index of the bin after it, 0 to begin with. */
struct dkap_class {
    size_t next;
    uint64_t lowest;
    uint64_t highest;
    uint64_t count;
};

struct dkap_time {
    uint64_t seconds;
    uint32_t nanos;
};

/*
 * An interval of a log, all zero to begin with. `next` is the offset of the first byte after its line. `start` is
 * relative to `base`, the last base time before it, if there is one. Its tag is the `tag_length` bytes of the log at
 * offset `tag_at`; a length of 0 means no tag.
 */
struct dkap_interval {
    size_t next;
    struct dkap_time start;
    struct dkap_time duration;
    struct dkap_time base;
    bool has_base;
    size_t tag_at;
    size_t tag_length;
};

/*
 * What the headers of a log have: its first start time, if `has_start_time`; how many of a value's digits are decimals;
 * and the number of nanoseconds of its unit. These are 0 if no comment such as "#[Values have 2 decimals]" (18
 * at most) or "#[Values are in us]" has them. With both, the value 1250 is 12.50 us.
 */
struct dkap_log_header {
    struct dkap_time start_time;
    bool has_start_time;
    uint8_t decimals;
    uint64_t unit_nanos;
};

/* Returns a static English text for a status, without a line break; also for a number that is not a status. */
const char *dkap_strerror(dkap_status status);

/* Returns the version of the library, such as "3.0.0". */
const char *dkap_version(void);

/* Creating, copying and freeing. On DKAP_OK the histogram that `h` had before is freed. */

/*
 * Creates a histogram for values from 0 to at least `high` that does not grow. It keeps `sigfig` significant digits,
 * 0 to 5, but may count values that differ by less than `low` together. `low` is 1 to UINT64_MAX / 2, and `high` at
 * least 2 * `low`. Errors: 2, 4 to 8.
 */
dkap_status dkap_init(struct dkap_histogram *h, uint64_t low, uint64_t high, uint8_t sigfig) DKAP_MUST_USE;

/* Creates a histogram that grows with the values recorded. Errors: 2, 7. */
dkap_status dkap_init_auto(struct dkap_histogram *h, uint8_t sigfig) DKAP_MUST_USE;

/* Copies the histogram of `source`. Errors: 1, 2, 20. */
dkap_status dkap_copy(struct dkap_histogram *h, const struct dkap_histogram *source) DKAP_MUST_USE;

/* Frees the histogram, and closes the handle. */
void dkap_close(struct dkap_histogram *h) DKAP_NONNULL;

/* Sets whether the histogram grows. Error: 1. */
dkap_status dkap_auto_resize(struct dkap_histogram *h, bool enabled) DKAP_MUST_USE;

/* Clears the samples, and the minimum and maximum. Error: 1. */
dkap_status dkap_reset(struct dkap_histogram *h) DKAP_MUST_USE;

/* Clears the samples, and keeps dkap_max and dkap_min_nz. dkap_min is 0 until a value is recorded. Error: 1. */
dkap_status dkap_clear(struct dkap_histogram *h) DKAP_MUST_USE;

/* Recording. Counts saturate at UINT64_MAX. */

/* Records `value` once. Errors: 1, 2, 3. */
dkap_status dkap_record(struct dkap_histogram *h, uint64_t value) DKAP_MUST_USE;

/* Records `value` `count` times. Errors: 1, 2, 3. */
dkap_status dkap_record_n(struct dkap_histogram *h, uint64_t value, uint64_t count) DKAP_MUST_USE;

/*
 * Records `value` `count` times, and the samples that are missing if a client should have sent one every `interval`,
 * but waited for a response (coordinated omission): value - interval, value - 2 * interval, and so on, while they are
 * at least `interval`. An `interval` of 0 adds none. Errors: 1, 2, 3.
 */
dkap_status dkap_record_correct(struct dkap_histogram *h, uint64_t value, uint64_t count, uint64_t interval)
                                DKAP_MUST_USE;

/* Records `value` `count` times, or `high` if `value` has no bin. The histogram never grows. Error: 1. */
dkap_status dkap_record_saturating(struct dkap_histogram *h, uint64_t value, uint64_t count) DKAP_MUST_USE;

/* Records `length` values, each once, up to the first error. `done` is the number recorded. Errors: 1, 2, 3. */
dkap_status dkap_record_all(struct dkap_histogram *DKAP_RESTRICT h, const uint64_t *DKAP_RESTRICT values, size_t length,
                          size_t *DKAP_RESTRICT done) DKAP_MUST_USE;

/* Merging and comparing. The second histogram is unchanged. */

/* Adds the counts of `source`. Errors: 1, 2, 3, 20. */
dkap_status dkap_add(struct dkap_histogram *h, const struct dkap_histogram *source) DKAP_MUST_USE;

/* Adds the counts of `source`, each value as `dkap_record_correct` records it. Errors: 1, 2, 3, 20. */
dkap_status dkap_add_correct(struct dkap_histogram *h, const struct dkap_histogram *source, uint64_t interval)
                             DKAP_MUST_USE;

/* Subtracts the counts of `other`. Errors: 1, 3, 9, 20. */
dkap_status dkap_subtract(struct dkap_histogram *h, const struct dkap_histogram *other) DKAP_MUST_USE;

/* Whether two histograms are equal. A handle equals itself if it is open. */
bool dkap_equal(const struct dkap_histogram *h, const struct dkap_histogram *other) DKAP_NONNULL;

/* Reading. */

/* Returns the number of samples, UINT64_MAX if it is greater. */
uint64_t dkap_len(const struct dkap_histogram *h) DKAP_NONNULL;

/* Returns the lowest value of the first class recorded, 0 if there are no samples. */
uint64_t dkap_min(const struct dkap_histogram *h) DKAP_NONNULL;

/* Returns the lowest value recorded past the class of 0, UINT64_MAX if there is none. */
uint64_t dkap_min_nz(const struct dkap_histogram *h) DKAP_NONNULL;

/* Returns the greatest value of the last class recorded, 0 if there is none. */
uint64_t dkap_max(const struct dkap_histogram *h) DKAP_NONNULL;

/* Stores the mean, each sample taken as the middle of its class; 0 without samples. Errors: 1, 13. */
dkap_status dkap_mean(const struct dkap_histogram *DKAP_RESTRICT h, struct dkap_fraction *DKAP_RESTRICT mean)
                      DKAP_MUST_USE;

/* Stores the standard deviation, each sample taken as the middle of its class, with the root rounded down to a fraction over the
 * number of samples; 0 without samples. Errors: 1, 13. */
dkap_status dkap_standard_deviation(const struct dkap_histogram *DKAP_RESTRICT h, struct dkap_fraction *DKAP_RESTRICT deviation)
                                    DKAP_MUST_USE;

/*
 * Stores the value at the quantile num/den: the greatest value of the class of the sample of rank
 * ceil(num * len / den), in ascending order from 1. A quantile above 1 counts as 1. For num 0 it is the lowest value of
 * the first sample's class, and without samples 0. Errors: 1, 12.
 */
dkap_status dkap_value_at_quantile(const struct dkap_histogram *DKAP_RESTRICT h, uint64_t num, uint64_t den,
                                 uint64_t *DKAP_RESTRICT value) DKAP_MUST_USE;

/*
 * Stores the value at each quantile nums[i]/den, as dkap_value_at_quantile, in any order. Those after them are
 * unchanged. Errors: 1, 11, 12.
 */
dkap_status dkap_values_at_quantiles(const struct dkap_histogram *DKAP_RESTRICT h, const uint64_t *DKAP_RESTRICT nums,
                                     size_t length, uint64_t den, uint64_t *DKAP_RESTRICT values,
                                     size_t values_length) DKAP_MUST_USE;

/* Stores the value at the percentile num/den: 999/10 is 99.9 %. Errors: 1, 12. */
dkap_status dkap_value_at_percentile(const struct dkap_histogram *DKAP_RESTRICT h, uint64_t num, uint64_t den,
                                     uint64_t *DKAP_RESTRICT value) DKAP_MUST_USE;

/* Stores the fraction of samples in the class of `value` or below it; 1 without samples. Error: 1. */
dkap_status dkap_quantile_below(const struct dkap_histogram *DKAP_RESTRICT h, uint64_t value,
                              struct dkap_fraction *DKAP_RESTRICT fraction) DKAP_MUST_USE;

/* Stores the same in percent. Error: 1. */
dkap_status dkap_percentile_below(const struct dkap_histogram *DKAP_RESTRICT h, uint64_t value,
                                  struct dkap_fraction *DKAP_RESTRICT fraction) DKAP_MUST_USE;

/* Returns the count of the class of `value`; of the last class if `value` has no bin. */
uint64_t dkap_count_at(const struct dkap_histogram *h, uint64_t value) DKAP_NONNULL;

/*
 * Returns the sum of the counts from the class of `low` to that of `high`, UINT64_MAX if it is greater. Returns 0 if
 * the class of `low` is later.
 */
uint64_t dkap_count_between(const struct dkap_histogram *h, uint64_t low, uint64_t high) DKAP_NONNULL;

/* Stores the bounds, the number of bins, and whether the histogram grows. Error: 1. */
dkap_status dkap_shape_of(const struct dkap_histogram *DKAP_RESTRICT h, struct dkap_shape *DKAP_RESTRICT shape)
                          DKAP_MUST_USE;

/*
 * Stores the next nonempty class, in ascending order. Returns false if there is none; `c` is then unchanged.
 *     for (struct dkap_class c = {0}; dkap_next_class(&h, &c);)
 */
bool dkap_next_class(const struct dkap_histogram *DKAP_RESTRICT h, struct dkap_class *DKAP_RESTRICT c) DKAP_NONNULL;

/*
 * Iterations in steps. Step i goes up to values[i], and counts[i] samples lie in the classes from that after the step
 * before up to its own. `done` steps are stored: all of them, or as many as fit both arrays. Errors: 1, 30.
 */

/* The steps have `step` values each: they go to step - 1, 2 * step - 1, .. past the greatest sample. */
dkap_status dkap_linear_steps(const struct dkap_histogram *DKAP_RESTRICT h, uint64_t step,
                              uint64_t *DKAP_RESTRICT values, size_t length, uint64_t *DKAP_RESTRICT counts,
                              size_t counts_length, size_t *DKAP_RESTRICT done) DKAP_MUST_USE;

/* They go to start - 1, start * base - 1, start * base^2 - 1, .. past the greatest sample. */
dkap_status dkap_log_steps(const struct dkap_histogram *DKAP_RESTRICT h, uint64_t start, uint64_t base,
                           uint64_t *DKAP_RESTRICT values, size_t length, uint64_t *DKAP_RESTRICT counts,
                           size_t counts_length, size_t *DKAP_RESTRICT done) DKAP_MUST_USE;

/*
 * They go to the values at quantiles that approach 1: `ticks` of them in the first half, as many in half of the rest,
 * and so on, and then 1.
 */
dkap_status dkap_quantile_steps(const struct dkap_histogram *DKAP_RESTRICT h, uint32_t ticks,
                                uint64_t *DKAP_RESTRICT values, size_t length, uint64_t *DKAP_RESTRICT counts,
                                size_t counts_length, size_t *DKAP_RESTRICT done) DKAP_MUST_USE;

/* Classes of values, which hold for values without a bin too. A closed handle has none: the result is 0 or false. */

/* Returns the lowest value of the class of `value`. */
uint64_t dkap_lowest_equivalent(const struct dkap_histogram *h, uint64_t value) DKAP_NONNULL;

/* Returns the greatest value of the class of `value`. */
uint64_t dkap_highest_equivalent(const struct dkap_histogram *h, uint64_t value) DKAP_NONNULL;

/* Returns the value in the middle of the class of `value`: half its width above the lowest. */
uint64_t dkap_median_equivalent(const struct dkap_histogram *h, uint64_t value) DKAP_NONNULL;

/* Returns the lowest value of the next class, UINT64_MAX if there is none. */
uint64_t dkap_next_non_equivalent(const struct dkap_histogram *h, uint64_t value) DKAP_NONNULL;

/* Returns the number of values in the class of `value`. */
uint64_t dkap_equivalent_range(const struct dkap_histogram *h, uint64_t value) DKAP_NONNULL;

/* Whether two values have one class. */
bool dkap_equivalent(const struct dkap_histogram *h, uint64_t a, uint64_t b) DKAP_NONNULL;

/* V2 bytes, the uncompressed binary format of HdrHistogram in Java, C, Rust and other languages. */

/*
 * Encodes at the start of `buf`. `needed` is the number of bytes, also with DKAP_E_BUFFER_TOO_SMALL, and 0 on other
 * errors.
 * Errors: 1, 2, 10, 11.
 */
dkap_status dkap_encode(const struct dkap_histogram *DKAP_RESTRICT h, uint8_t *DKAP_RESTRICT buf, size_t length,
                      size_t *DKAP_RESTRICT needed) DKAP_MUST_USE;

/*
 * Encodes as dkap_encode, with the V2 bytes compressed by zlib: the form in which the other libraries write logs.
 * Errors: 1, 2, 10, 11.
 */
dkap_status dkap_encode_compressed(const struct dkap_histogram *DKAP_RESTRICT h, uint8_t *DKAP_RESTRICT buf,
                                   size_t length, size_t *DKAP_RESTRICT needed) DKAP_MUST_USE;

/*
 * Decodes the histogram at the start of `bytes`, which replaces that of `h`. It does not grow, and has at most `limit`
 * bins, such as DKAP_NO_LIMIT. The bytes may be of any version, 0 to 2, and compressed or not. `taken` is the number of
 * bytes consumed, 0 on error; in another form than V2 bytes all are consumed. Compressed bytes take up to 57 MB more
 * while they are decoded. Errors: 2, 14 to 19, 27, 28.
 */
dkap_status dkap_decode(struct dkap_histogram *DKAP_RESTRICT h, const uint8_t *DKAP_RESTRICT bytes, size_t length,
                        uint64_t limit, size_t *DKAP_RESTRICT taken) DKAP_MUST_USE;

/*
 * Interval logs: text, with a line for each interval. Its histogram is in Base64.
 *
 * The calls that write a part of a log put it at the start of `buf`. `needed` is its length, also with
 * DKAP_E_BUFFER_TOO_SMALL, and 0 on other errors. Nanoseconds are less than 1000000000; times are rounded to
 * milliseconds.
 */

/*
 * Writes a comment, each of its lines as one after `#`. HdrHistogram_c asks for a first line with
 * "[Histogram log format version 1.3]". A unit such as microseconds is "[Values are in us]", and ns, ms and s others.
 * Errors: 2, 11, 29.
 */
dkap_status dkap_log_comment(const uint8_t *DKAP_RESTRICT comment, size_t comment_length, uint8_t *DKAP_RESTRICT buf,
                             size_t length, size_t *DKAP_RESTRICT needed) DKAP_MUST_USE;

/* Writes the header of the log's start time, since the epoch. Errors: 2, 11, 21. */
dkap_status dkap_log_start_time(uint64_t seconds, uint32_t nanos, uint8_t *DKAP_RESTRICT buf, size_t length,
                                size_t *DKAP_RESTRICT needed) DKAP_MUST_USE;

/* Writes the header of a base time, since the epoch, to which later starts are relative. Errors: 2, 11, 21. */
dkap_status dkap_log_base_time(uint64_t seconds, uint32_t nanos, uint8_t *DKAP_RESTRICT buf, size_t length,
                               size_t *DKAP_RESTRICT needed) DKAP_MUST_USE;

/*
 * Writes the line of one interval, with its line feed. Its histogram is V2 bytes, not compressed. A `tag_length` of 0
 * means no tag. Errors: 1, 2, 10, 11, 21, 22.
 */
dkap_status dkap_log_line(const struct dkap_histogram *DKAP_RESTRICT h, uint64_t start_seconds, uint32_t start_nanos,
                        uint64_t duration_seconds, uint32_t duration_nanos, const uint8_t *DKAP_RESTRICT tag,
                        size_t tag_length, uint8_t *DKAP_RESTRICT buf, size_t length,
                        size_t *DKAP_RESTRICT needed) DKAP_MUST_USE;

/* Writes the same, with the histogram compressed, as the other libraries write and read it. */
dkap_status dkap_log_line_compressed(const struct dkap_histogram *DKAP_RESTRICT h, uint64_t start_seconds,
                                     uint32_t start_nanos, uint64_t duration_seconds, uint32_t duration_nanos,
                                     const uint8_t *DKAP_RESTRICT tag, size_t tag_length, uint8_t *DKAP_RESTRICT buf,
                                     size_t length, size_t *DKAP_RESTRICT needed) DKAP_MUST_USE;

/* Stores the first start time, decimals and unit that the complete lines of a log have. */
void dkap_log_header_of(const uint8_t *DKAP_RESTRICT log, size_t length,
                        struct dkap_log_header *DKAP_RESTRICT header) DKAP_NONNULL;

/*
 * Reads the next interval of a log, from the offset `interval->next` on. Its histogram replaces that of `h`, and is as
 * of dkap_decode, with at most `limit` bins. After the last interval the status is DKAP_LOG_END, and the interval is
 * unchanged, so that a log that grows can be read on. With DKAP_E_INVALID_LINE `next` alone is set, to the offset of
 * the line. A last line without a line feed is one. To read it once it is complete, pass the interval as it was before
 * this call: base times before the line are not stored. A line of whitespace is skipped. On other errors the interval
 * is stored without its histogram, and the next call continues after it.
 * Errors: 2, 14 to 19, 24, 25, 27, 28.
 *     for (struct dkap_interval i = {0}; dkap_log_next(&h, log, length, DKAP_NO_LIMIT, &i) == DKAP_OK;)
 */
dkap_status dkap_log_next(struct dkap_histogram *DKAP_RESTRICT h, const uint8_t *DKAP_RESTRICT log, size_t length,
                          uint64_t limit, struct dkap_interval *DKAP_RESTRICT interval) DKAP_MUST_USE;

/*
 * For DKAP_CHECK: begins a use of a handle by a call of this name, and ends it. Ends the program if another use
 * excludes it.
 */
void dkap_check_begin(const struct dkap_histogram *h, bool writes, const char *name) DKAP_NONNULL;
void dkap_check_end(const struct dkap_histogram *h, bool writes) DKAP_NONNULL;

#ifdef __cplusplus
}
#endif

#ifdef DKAP_CHECK
#include "dkap_check.h"
#endif

#endif
