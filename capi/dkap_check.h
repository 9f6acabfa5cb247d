/*
 * The tests of DKAP_CHECK, which dkap.h includes: each call is replaced by one that first tests its pointers for null
 * and for overlap, and ends the program if another call uses its handle. Include dkap.h, and not this file, which
 * tools/checks has made.
 */
#ifndef DKAP_CHECK_H
#define DKAP_CHECK_H

/* Whether two arrays of bytes are not null, end within the address space, and do not overlap. */
static inline bool dkap_check_apart(const void *a, size_t a_length, const void *b, size_t b_length)
{
    uintptr_t first = (uintptr_t)a, second = (uintptr_t)b;

    if (a == NULL || b == NULL || a_length > UINTPTR_MAX - first || b_length > UINTPTR_MAX - second)
        return false;
    return a_length == 0 || b_length == 0 || first + a_length <= second || second + b_length <= first;
}

/* Whether an array of `length` items has a size. */
static inline bool dkap_check_length(size_t length, size_t size)
{
    return length <= SIZE_MAX / size;
}

DKAP_MUST_TEST static inline dkap_status dkap_init_checked(struct dkap_histogram *h, uint64_t low, uint64_t high,
                                                           uint8_t sigfig)
{
    dkap_status result;

    if (h == NULL)
        return DKAP_E_INVALID_ARGUMENT;
    dkap_check_begin(h, true, "dkap_init");
    result = (dkap_init)(h, low, high, sigfig);
    dkap_check_end(h, true);
    return result;
}

DKAP_MUST_TEST static inline dkap_status dkap_init_auto_checked(struct dkap_histogram *h, uint8_t sigfig)
{
    dkap_status result;

    if (h == NULL)
        return DKAP_E_INVALID_ARGUMENT;
    dkap_check_begin(h, true, "dkap_init_auto");
    result = (dkap_init_auto)(h, sigfig);
    dkap_check_end(h, true);
    return result;
}

DKAP_MUST_TEST static inline dkap_status dkap_copy_checked(struct dkap_histogram *h, const struct dkap_histogram
                                                           *source)
{
    dkap_status result;

    if (h == NULL ||
        (h != source && !dkap_check_apart(h, sizeof *h, source, sizeof *source)))
        return DKAP_E_INVALID_ARGUMENT;
    dkap_check_begin(h, true, "dkap_copy");
    if (source != h)
        dkap_check_begin(source, false, "dkap_copy");
    result = (dkap_copy)(h, source);
    if (source != h)
        dkap_check_end(source, false);
    dkap_check_end(h, true);
    return result;
}

static inline void dkap_close_checked(struct dkap_histogram *h)
{
    if (h == NULL)
        return;
    dkap_check_begin(h, true, "dkap_close");
    (dkap_close)(h);
    dkap_check_end(h, true);
}

DKAP_MUST_TEST static inline dkap_status dkap_auto_resize_checked(struct dkap_histogram *h, bool enabled)
{
    dkap_status result;

    if (h == NULL)
        return DKAP_E_INVALID_ARGUMENT;
    dkap_check_begin(h, true, "dkap_auto_resize");
    result = (dkap_auto_resize)(h, enabled);
    dkap_check_end(h, true);
    return result;
}

DKAP_MUST_TEST static inline dkap_status dkap_reset_checked(struct dkap_histogram *h)
{
    dkap_status result;

    if (h == NULL)
        return DKAP_E_INVALID_ARGUMENT;
    dkap_check_begin(h, true, "dkap_reset");
    result = (dkap_reset)(h);
    dkap_check_end(h, true);
    return result;
}

DKAP_MUST_TEST static inline dkap_status dkap_clear_checked(struct dkap_histogram *h)
{
    dkap_status result;

    if (h == NULL)
        return DKAP_E_INVALID_ARGUMENT;
    dkap_check_begin(h, true, "dkap_clear");
    result = (dkap_clear)(h);
    dkap_check_end(h, true);
    return result;
}

DKAP_MUST_TEST static inline dkap_status dkap_record_checked(struct dkap_histogram *h, uint64_t value)
{
    dkap_status result;

    if (h == NULL)
        return DKAP_E_INVALID_ARGUMENT;
    dkap_check_begin(h, true, "dkap_record");
    result = (dkap_record)(h, value);
    dkap_check_end(h, true);
    return result;
}

DKAP_MUST_TEST static inline dkap_status dkap_record_n_checked(struct dkap_histogram *h, uint64_t value, uint64_t count)
{
    dkap_status result;

    if (h == NULL)
        return DKAP_E_INVALID_ARGUMENT;
    dkap_check_begin(h, true, "dkap_record_n");
    result = (dkap_record_n)(h, value, count);
    dkap_check_end(h, true);
    return result;
}

DKAP_MUST_TEST static inline dkap_status dkap_record_correct_checked(struct dkap_histogram *h, uint64_t value, uint64_t
                                                                     count, uint64_t interval)
{
    dkap_status result;

    if (h == NULL)
        return DKAP_E_INVALID_ARGUMENT;
    dkap_check_begin(h, true, "dkap_record_correct");
    result = (dkap_record_correct)(h, value, count, interval);
    dkap_check_end(h, true);
    return result;
}

DKAP_MUST_TEST static inline dkap_status dkap_record_saturating_checked(struct dkap_histogram *h, uint64_t value,
                                                                        uint64_t count)
{
    dkap_status result;

    if (h == NULL)
        return DKAP_E_INVALID_ARGUMENT;
    dkap_check_begin(h, true, "dkap_record_saturating");
    result = (dkap_record_saturating)(h, value, count);
    dkap_check_end(h, true);
    return result;
}

DKAP_MUST_TEST static inline dkap_status dkap_record_all_checked(struct dkap_histogram *h, const uint64_t *values,
                                                                 size_t length, size_t *done)
{
    dkap_status result;

    if (!dkap_check_length(length, sizeof *values) ||
        !dkap_check_apart(h, sizeof *h, values, length * sizeof *values) ||
        !dkap_check_apart(h, sizeof *h, done, sizeof *done) ||
        !dkap_check_apart(values, length * sizeof *values, done, sizeof *done))
        return DKAP_E_INVALID_ARGUMENT;
    dkap_check_begin(h, true, "dkap_record_all");
    result = (dkap_record_all)(h, values, length, done);
    dkap_check_end(h, true);
    return result;
}

DKAP_MUST_TEST static inline dkap_status dkap_add_checked(struct dkap_histogram *h, const struct dkap_histogram *source)
{
    dkap_status result;

    if (h == NULL ||
        (h != source && !dkap_check_apart(h, sizeof *h, source, sizeof *source)))
        return DKAP_E_INVALID_ARGUMENT;
    dkap_check_begin(h, true, "dkap_add");
    if (source != h)
        dkap_check_begin(source, false, "dkap_add");
    result = (dkap_add)(h, source);
    if (source != h)
        dkap_check_end(source, false);
    dkap_check_end(h, true);
    return result;
}

DKAP_MUST_TEST static inline dkap_status dkap_add_correct_checked(struct dkap_histogram *h, const struct dkap_histogram
                                                                  *source, uint64_t interval)
{
    dkap_status result;

    if (h == NULL ||
        (h != source && !dkap_check_apart(h, sizeof *h, source, sizeof *source)))
        return DKAP_E_INVALID_ARGUMENT;
    dkap_check_begin(h, true, "dkap_add_correct");
    if (source != h)
        dkap_check_begin(source, false, "dkap_add_correct");
    result = (dkap_add_correct)(h, source, interval);
    if (source != h)
        dkap_check_end(source, false);
    dkap_check_end(h, true);
    return result;
}

DKAP_MUST_TEST static inline dkap_status dkap_subtract_checked(struct dkap_histogram *h, const struct dkap_histogram
                                                               *other)
{
    dkap_status result;

    if (h == NULL ||
        (h != other && !dkap_check_apart(h, sizeof *h, other, sizeof *other)))
        return DKAP_E_INVALID_ARGUMENT;
    dkap_check_begin(h, true, "dkap_subtract");
    if (other != h)
        dkap_check_begin(other, false, "dkap_subtract");
    result = (dkap_subtract)(h, other);
    if (other != h)
        dkap_check_end(other, false);
    dkap_check_end(h, true);
    return result;
}

static inline bool dkap_equal_checked(const struct dkap_histogram *h, const struct dkap_histogram *other)
{
    bool result;

    if (h == NULL ||
        (h != other && !dkap_check_apart(h, sizeof *h, other, sizeof *other)))
        return false;
    dkap_check_begin(h, false, "dkap_equal");
    if (other != h)
        dkap_check_begin(other, false, "dkap_equal");
    result = (dkap_equal)(h, other);
    if (other != h)
        dkap_check_end(other, false);
    dkap_check_end(h, false);
    return result;
}

static inline uint64_t dkap_len_checked(const struct dkap_histogram *h)
{
    uint64_t result;

    if (h == NULL)
        return 0;
    dkap_check_begin(h, false, "dkap_len");
    result = (dkap_len)(h);
    dkap_check_end(h, false);
    return result;
}

static inline uint64_t dkap_min_checked(const struct dkap_histogram *h)
{
    uint64_t result;

    if (h == NULL)
        return 0;
    dkap_check_begin(h, false, "dkap_min");
    result = (dkap_min)(h);
    dkap_check_end(h, false);
    return result;
}

static inline uint64_t dkap_min_nz_checked(const struct dkap_histogram *h)
{
    uint64_t result;

    if (h == NULL)
        return 0;
    dkap_check_begin(h, false, "dkap_min_nz");
    result = (dkap_min_nz)(h);
    dkap_check_end(h, false);
    return result;
}

static inline uint64_t dkap_max_checked(const struct dkap_histogram *h)
{
    uint64_t result;

    if (h == NULL)
        return 0;
    dkap_check_begin(h, false, "dkap_max");
    result = (dkap_max)(h);
    dkap_check_end(h, false);
    return result;
}

DKAP_MUST_TEST static inline dkap_status dkap_mean_checked(const struct dkap_histogram *h, struct dkap_fraction *mean)
{
    dkap_status result;

    if (!dkap_check_apart(h, sizeof *h, mean, sizeof *mean))
        return DKAP_E_INVALID_ARGUMENT;
    dkap_check_begin(h, false, "dkap_mean");
    result = (dkap_mean)(h, mean);
    dkap_check_end(h, false);
    return result;
}

DKAP_MUST_TEST static inline dkap_status dkap_standard_deviation_checked(const struct dkap_histogram *h, struct
                                                                         dkap_fraction *deviation)
{
    dkap_status result;

    if (!dkap_check_apart(h, sizeof *h, deviation, sizeof *deviation))
        return DKAP_E_INVALID_ARGUMENT;
    dkap_check_begin(h, false, "dkap_standard_deviation");
    result = (dkap_standard_deviation)(h, deviation);
    dkap_check_end(h, false);
    return result;
}

DKAP_MUST_TEST static inline dkap_status dkap_value_at_quantile_checked(const struct dkap_histogram *h, uint64_t num,
                                                                        uint64_t den, uint64_t *value)
{
    dkap_status result;

    if (!dkap_check_apart(h, sizeof *h, value, sizeof *value))
        return DKAP_E_INVALID_ARGUMENT;
    dkap_check_begin(h, false, "dkap_value_at_quantile");
    result = (dkap_value_at_quantile)(h, num, den, value);
    dkap_check_end(h, false);
    return result;
}

DKAP_MUST_TEST static inline dkap_status dkap_values_at_quantiles_checked(const struct dkap_histogram *h, const uint64_t
                                                                          *nums, size_t length, uint64_t den, uint64_t
                                                                          *values, size_t values_length)
{
    dkap_status result;

    if (!dkap_check_length(length, sizeof *nums) ||
        !dkap_check_length(values_length, sizeof *values) ||
        !dkap_check_apart(h, sizeof *h, nums, length * sizeof *nums) ||
        !dkap_check_apart(h, sizeof *h, values, values_length * sizeof *values) ||
        !dkap_check_apart(nums, length * sizeof *nums, values, values_length * sizeof *values))
        return DKAP_E_INVALID_ARGUMENT;
    dkap_check_begin(h, false, "dkap_values_at_quantiles");
    result = (dkap_values_at_quantiles)(h, nums, length, den, values, values_length);
    dkap_check_end(h, false);
    return result;
}

DKAP_MUST_TEST static inline dkap_status dkap_value_at_percentile_checked(const struct dkap_histogram *h, uint64_t num,
                                                                          uint64_t den, uint64_t *value)
{
    dkap_status result;

    if (!dkap_check_apart(h, sizeof *h, value, sizeof *value))
        return DKAP_E_INVALID_ARGUMENT;
    dkap_check_begin(h, false, "dkap_value_at_percentile");
    result = (dkap_value_at_percentile)(h, num, den, value);
    dkap_check_end(h, false);
    return result;
}

DKAP_MUST_TEST static inline dkap_status dkap_quantile_below_checked(const struct dkap_histogram *h, uint64_t value,
                                                                     struct dkap_fraction *fraction)
{
    dkap_status result;

    if (!dkap_check_apart(h, sizeof *h, fraction, sizeof *fraction))
        return DKAP_E_INVALID_ARGUMENT;
    dkap_check_begin(h, false, "dkap_quantile_below");
    result = (dkap_quantile_below)(h, value, fraction);
    dkap_check_end(h, false);
    return result;
}

DKAP_MUST_TEST static inline dkap_status dkap_percentile_below_checked(const struct dkap_histogram *h, uint64_t value,
                                                                       struct dkap_fraction *fraction)
{
    dkap_status result;

    if (!dkap_check_apart(h, sizeof *h, fraction, sizeof *fraction))
        return DKAP_E_INVALID_ARGUMENT;
    dkap_check_begin(h, false, "dkap_percentile_below");
    result = (dkap_percentile_below)(h, value, fraction);
    dkap_check_end(h, false);
    return result;
}

static inline uint64_t dkap_count_at_checked(const struct dkap_histogram *h, uint64_t value)
{
    uint64_t result;

    if (h == NULL)
        return 0;
    dkap_check_begin(h, false, "dkap_count_at");
    result = (dkap_count_at)(h, value);
    dkap_check_end(h, false);
    return result;
}

static inline uint64_t dkap_count_between_checked(const struct dkap_histogram *h, uint64_t low, uint64_t high)
{
    uint64_t result;

    if (h == NULL)
        return 0;
    dkap_check_begin(h, false, "dkap_count_between");
    result = (dkap_count_between)(h, low, high);
    dkap_check_end(h, false);
    return result;
}

DKAP_MUST_TEST static inline dkap_status dkap_shape_of_checked(const struct dkap_histogram *h, struct dkap_shape *shape)
{
    dkap_status result;

    if (!dkap_check_apart(h, sizeof *h, shape, sizeof *shape))
        return DKAP_E_INVALID_ARGUMENT;
    dkap_check_begin(h, false, "dkap_shape_of");
    result = (dkap_shape_of)(h, shape);
    dkap_check_end(h, false);
    return result;
}

static inline bool dkap_next_class_checked(const struct dkap_histogram *h, struct dkap_class *c)
{
    bool result;

    if (!dkap_check_apart(h, sizeof *h, c, sizeof *c))
        return false;
    dkap_check_begin(h, false, "dkap_next_class");
    result = (dkap_next_class)(h, c);
    dkap_check_end(h, false);
    return result;
}

DKAP_MUST_TEST static inline dkap_status dkap_linear_steps_checked(const struct dkap_histogram *h, uint64_t step,
                                                                   uint64_t *values, size_t length, uint64_t *counts,
                                                                   size_t counts_length, size_t *done)
{
    dkap_status result;

    if (!dkap_check_length(length, sizeof *values) ||
        !dkap_check_length(counts_length, sizeof *counts) ||
        !dkap_check_apart(h, sizeof *h, values, length * sizeof *values) ||
        !dkap_check_apart(h, sizeof *h, counts, counts_length * sizeof *counts) ||
        !dkap_check_apart(h, sizeof *h, done, sizeof *done) ||
        !dkap_check_apart(values, length * sizeof *values, counts, counts_length * sizeof *counts) ||
        !dkap_check_apart(values, length * sizeof *values, done, sizeof *done) ||
        !dkap_check_apart(counts, counts_length * sizeof *counts, done, sizeof *done))
        return DKAP_E_INVALID_ARGUMENT;
    dkap_check_begin(h, false, "dkap_linear_steps");
    result = (dkap_linear_steps)(h, step, values, length, counts, counts_length, done);
    dkap_check_end(h, false);
    return result;
}

DKAP_MUST_TEST static inline dkap_status dkap_log_steps_checked(const struct dkap_histogram *h, uint64_t start, uint64_t
                                                                base, uint64_t *values, size_t length, uint64_t *counts,
                                                                size_t counts_length, size_t *done)
{
    dkap_status result;

    if (!dkap_check_length(length, sizeof *values) ||
        !dkap_check_length(counts_length, sizeof *counts) ||
        !dkap_check_apart(h, sizeof *h, values, length * sizeof *values) ||
        !dkap_check_apart(h, sizeof *h, counts, counts_length * sizeof *counts) ||
        !dkap_check_apart(h, sizeof *h, done, sizeof *done) ||
        !dkap_check_apart(values, length * sizeof *values, counts, counts_length * sizeof *counts) ||
        !dkap_check_apart(values, length * sizeof *values, done, sizeof *done) ||
        !dkap_check_apart(counts, counts_length * sizeof *counts, done, sizeof *done))
        return DKAP_E_INVALID_ARGUMENT;
    dkap_check_begin(h, false, "dkap_log_steps");
    result = (dkap_log_steps)(h, start, base, values, length, counts, counts_length, done);
    dkap_check_end(h, false);
    return result;
}

DKAP_MUST_TEST static inline dkap_status dkap_quantile_steps_checked(const struct dkap_histogram *h, uint32_t ticks,
                                                                     uint64_t *values, size_t length, uint64_t *counts,
                                                                     size_t counts_length, size_t *done)
{
    dkap_status result;

    if (!dkap_check_length(length, sizeof *values) ||
        !dkap_check_length(counts_length, sizeof *counts) ||
        !dkap_check_apart(h, sizeof *h, values, length * sizeof *values) ||
        !dkap_check_apart(h, sizeof *h, counts, counts_length * sizeof *counts) ||
        !dkap_check_apart(h, sizeof *h, done, sizeof *done) ||
        !dkap_check_apart(values, length * sizeof *values, counts, counts_length * sizeof *counts) ||
        !dkap_check_apart(values, length * sizeof *values, done, sizeof *done) ||
        !dkap_check_apart(counts, counts_length * sizeof *counts, done, sizeof *done))
        return DKAP_E_INVALID_ARGUMENT;
    dkap_check_begin(h, false, "dkap_quantile_steps");
    result = (dkap_quantile_steps)(h, ticks, values, length, counts, counts_length, done);
    dkap_check_end(h, false);
    return result;
}

static inline uint64_t dkap_lowest_equivalent_checked(const struct dkap_histogram *h, uint64_t value)
{
    uint64_t result;

    if (h == NULL)
        return 0;
    dkap_check_begin(h, false, "dkap_lowest_equivalent");
    result = (dkap_lowest_equivalent)(h, value);
    dkap_check_end(h, false);
    return result;
}

static inline uint64_t dkap_highest_equivalent_checked(const struct dkap_histogram *h, uint64_t value)
{
    uint64_t result;

    if (h == NULL)
        return 0;
    dkap_check_begin(h, false, "dkap_highest_equivalent");
    result = (dkap_highest_equivalent)(h, value);
    dkap_check_end(h, false);
    return result;
}

static inline uint64_t dkap_median_equivalent_checked(const struct dkap_histogram *h, uint64_t value)
{
    uint64_t result;

    if (h == NULL)
        return 0;
    dkap_check_begin(h, false, "dkap_median_equivalent");
    result = (dkap_median_equivalent)(h, value);
    dkap_check_end(h, false);
    return result;
}

static inline uint64_t dkap_next_non_equivalent_checked(const struct dkap_histogram *h, uint64_t value)
{
    uint64_t result;

    if (h == NULL)
        return 0;
    dkap_check_begin(h, false, "dkap_next_non_equivalent");
    result = (dkap_next_non_equivalent)(h, value);
    dkap_check_end(h, false);
    return result;
}

static inline uint64_t dkap_equivalent_range_checked(const struct dkap_histogram *h, uint64_t value)
{
    uint64_t result;

    if (h == NULL)
        return 0;
    dkap_check_begin(h, false, "dkap_equivalent_range");
    result = (dkap_equivalent_range)(h, value);
    dkap_check_end(h, false);
    return result;
}

static inline bool dkap_equivalent_checked(const struct dkap_histogram *h, uint64_t a, uint64_t b)
{
    bool result;

    if (h == NULL)
        return false;
    dkap_check_begin(h, false, "dkap_equivalent");
    result = (dkap_equivalent)(h, a, b);
    dkap_check_end(h, false);
    return result;
}

DKAP_MUST_TEST static inline dkap_status dkap_encode_checked(const struct dkap_histogram *h, uint8_t *buf, size_t
                                                             length, size_t *needed)
{
    dkap_status result;

    if (!dkap_check_apart(h, sizeof *h, buf, length) ||
        !dkap_check_apart(h, sizeof *h, needed, sizeof *needed) ||
        !dkap_check_apart(buf, length, needed, sizeof *needed))
        return DKAP_E_INVALID_ARGUMENT;
    dkap_check_begin(h, false, "dkap_encode");
    result = (dkap_encode)(h, buf, length, needed);
    dkap_check_end(h, false);
    return result;
}

DKAP_MUST_TEST static inline dkap_status dkap_encode_compressed_checked(const struct dkap_histogram *h, uint8_t *buf,
                                                                        size_t length, size_t *needed)
{
    dkap_status result;

    if (!dkap_check_apart(h, sizeof *h, buf, length) ||
        !dkap_check_apart(h, sizeof *h, needed, sizeof *needed) ||
        !dkap_check_apart(buf, length, needed, sizeof *needed))
        return DKAP_E_INVALID_ARGUMENT;
    dkap_check_begin(h, false, "dkap_encode_compressed");
    result = (dkap_encode_compressed)(h, buf, length, needed);
    dkap_check_end(h, false);
    return result;
}

DKAP_MUST_TEST static inline dkap_status dkap_decode_checked(struct dkap_histogram *h, const uint8_t *bytes, size_t
                                                             length, uint64_t limit, size_t *taken)
{
    dkap_status result;

    if (!dkap_check_apart(h, sizeof *h, bytes, length) ||
        !dkap_check_apart(h, sizeof *h, taken, sizeof *taken) ||
        !dkap_check_apart(bytes, length, taken, sizeof *taken))
        return DKAP_E_INVALID_ARGUMENT;
    dkap_check_begin(h, true, "dkap_decode");
    result = (dkap_decode)(h, bytes, length, limit, taken);
    dkap_check_end(h, true);
    return result;
}

DKAP_MUST_TEST static inline dkap_status dkap_log_comment_checked(const uint8_t *comment, size_t comment_length, uint8_t
                                                                  *buf, size_t length, size_t *needed)
{
    dkap_status result;

    if (!dkap_check_apart(comment, comment_length, buf, length) ||
        !dkap_check_apart(comment, comment_length, needed, sizeof *needed) ||
        !dkap_check_apart(buf, length, needed, sizeof *needed))
        return DKAP_E_INVALID_ARGUMENT;
    result = (dkap_log_comment)(comment, comment_length, buf, length, needed);
    return result;
}

DKAP_MUST_TEST static inline dkap_status dkap_log_start_time_checked(uint64_t seconds, uint32_t nanos, uint8_t *buf,
                                                                     size_t length, size_t *needed)
{
    dkap_status result;

    if (!dkap_check_apart(buf, length, needed, sizeof *needed))
        return DKAP_E_INVALID_ARGUMENT;
    result = (dkap_log_start_time)(seconds, nanos, buf, length, needed);
    return result;
}

DKAP_MUST_TEST static inline dkap_status dkap_log_base_time_checked(uint64_t seconds, uint32_t nanos, uint8_t *buf,
                                                                    size_t length, size_t *needed)
{
    dkap_status result;

    if (!dkap_check_apart(buf, length, needed, sizeof *needed))
        return DKAP_E_INVALID_ARGUMENT;
    result = (dkap_log_base_time)(seconds, nanos, buf, length, needed);
    return result;
}

DKAP_MUST_TEST static inline dkap_status dkap_log_line_checked(const struct dkap_histogram *h, uint64_t start_seconds,
                                                               uint32_t start_nanos, uint64_t duration_seconds, uint32_t
                                                               duration_nanos, const uint8_t *tag, size_t tag_length,
                                                               uint8_t *buf, size_t length, size_t *needed)
{
    dkap_status result;

    if (!dkap_check_apart(h, sizeof *h, tag, tag_length) ||
        !dkap_check_apart(h, sizeof *h, buf, length) ||
        !dkap_check_apart(h, sizeof *h, needed, sizeof *needed) ||
        !dkap_check_apart(tag, tag_length, buf, length) ||
        !dkap_check_apart(tag, tag_length, needed, sizeof *needed) ||
        !dkap_check_apart(buf, length, needed, sizeof *needed))
        return DKAP_E_INVALID_ARGUMENT;
    dkap_check_begin(h, false, "dkap_log_line");
    result = (dkap_log_line)(h, start_seconds, start_nanos, duration_seconds, duration_nanos, tag, tag_length, buf,
                             length, needed);
    dkap_check_end(h, false);
    return result;
}

DKAP_MUST_TEST static inline dkap_status dkap_log_line_compressed_checked(const struct dkap_histogram *h, uint64_t
                                                                          start_seconds, uint32_t start_nanos, uint64_t
                                                                          duration_seconds, uint32_t duration_nanos,
                                                                          const uint8_t *tag, size_t tag_length, uint8_t
                                                                          *buf, size_t length, size_t *needed)
{
    dkap_status result;

    if (!dkap_check_apart(h, sizeof *h, tag, tag_length) ||
        !dkap_check_apart(h, sizeof *h, buf, length) ||
        !dkap_check_apart(h, sizeof *h, needed, sizeof *needed) ||
        !dkap_check_apart(tag, tag_length, buf, length) ||
        !dkap_check_apart(tag, tag_length, needed, sizeof *needed) ||
        !dkap_check_apart(buf, length, needed, sizeof *needed))
        return DKAP_E_INVALID_ARGUMENT;
    dkap_check_begin(h, false, "dkap_log_line_compressed");
    result = (dkap_log_line_compressed)(h, start_seconds, start_nanos, duration_seconds, duration_nanos, tag,
                                        tag_length, buf, length, needed);
    dkap_check_end(h, false);
    return result;
}

static inline void dkap_log_header_of_checked(const uint8_t *log, size_t length, struct dkap_log_header *header)
{
    if (!dkap_check_apart(log, length, header, sizeof *header))
        return;
    (dkap_log_header_of)(log, length, header);
}

DKAP_MUST_TEST static inline dkap_status dkap_log_next_checked(struct dkap_histogram *h, const uint8_t *log, size_t
                                                               length, uint64_t limit, struct dkap_interval *interval)
{
    dkap_status result;

    if (!dkap_check_apart(h, sizeof *h, log, length) ||
        !dkap_check_apart(h, sizeof *h, interval, sizeof *interval) ||
        !dkap_check_apart(log, length, interval, sizeof *interval))
        return DKAP_E_INVALID_ARGUMENT;
    dkap_check_begin(h, true, "dkap_log_next");
    result = (dkap_log_next)(h, log, length, limit, interval);
    dkap_check_end(h, true);
    return result;
}

#define dkap_init(h, low, high, sigfig) dkap_init_checked(h, low, high, sigfig)
#define dkap_init_auto(h, sigfig) dkap_init_auto_checked(h, sigfig)
#define dkap_copy(h, source) dkap_copy_checked(h, source)
#define dkap_close(h) dkap_close_checked(h)
#define dkap_auto_resize(h, enabled) dkap_auto_resize_checked(h, enabled)
#define dkap_reset(h) dkap_reset_checked(h)
#define dkap_clear(h) dkap_clear_checked(h)
#define dkap_record(h, value) dkap_record_checked(h, value)
#define dkap_record_n(h, value, count) dkap_record_n_checked(h, value, count)
#define dkap_record_correct(h, value, count, interval) dkap_record_correct_checked(h, value, count, interval)
#define dkap_record_saturating(h, value, count) dkap_record_saturating_checked(h, value, count)
#define dkap_record_all(h, values, length, done) dkap_record_all_checked(h, values, length, done)
#define dkap_add(h, source) dkap_add_checked(h, source)
#define dkap_add_correct(h, source, interval) dkap_add_correct_checked(h, source, interval)
#define dkap_subtract(h, other) dkap_subtract_checked(h, other)
#define dkap_equal(h, other) dkap_equal_checked(h, other)
#define dkap_len(h) dkap_len_checked(h)
#define dkap_min(h) dkap_min_checked(h)
#define dkap_min_nz(h) dkap_min_nz_checked(h)
#define dkap_max(h) dkap_max_checked(h)
#define dkap_mean(h, mean) dkap_mean_checked(h, mean)
#define dkap_standard_deviation(h, deviation) dkap_standard_deviation_checked(h, deviation)
#define dkap_value_at_quantile(h, num, den, value) dkap_value_at_quantile_checked(h, num, den, value)
#define dkap_values_at_quantiles(h, nums, length, den, values, values_length) dkap_values_at_quantiles_checked(h, \
        nums, length, den, values, values_length)
#define dkap_value_at_percentile(h, num, den, value) dkap_value_at_percentile_checked(h, num, den, value)
#define dkap_quantile_below(h, value, fraction) dkap_quantile_below_checked(h, value, fraction)
#define dkap_percentile_below(h, value, fraction) dkap_percentile_below_checked(h, value, fraction)
#define dkap_count_at(h, value) dkap_count_at_checked(h, value)
#define dkap_count_between(h, low, high) dkap_count_between_checked(h, low, high)
#define dkap_shape_of(h, shape) dkap_shape_of_checked(h, shape)
#define dkap_next_class(h, c) dkap_next_class_checked(h, c)
#define dkap_linear_steps(h, step, values, length, counts, counts_length, done) dkap_linear_steps_checked(h, step, \
        values, length, counts, counts_length, done)
#define dkap_log_steps(h, start, base, values, length, counts, counts_length, done) dkap_log_steps_checked(h, start, \
        base, values, length, counts, counts_length, done)
#define dkap_quantile_steps(h, ticks, values, length, counts, counts_length, done) dkap_quantile_steps_checked(h, \
        ticks, values, length, counts, counts_length, done)
#define dkap_lowest_equivalent(h, value) dkap_lowest_equivalent_checked(h, value)
#define dkap_highest_equivalent(h, value) dkap_highest_equivalent_checked(h, value)
#define dkap_median_equivalent(h, value) dkap_median_equivalent_checked(h, value)
#define dkap_next_non_equivalent(h, value) dkap_next_non_equivalent_checked(h, value)
#define dkap_equivalent_range(h, value) dkap_equivalent_range_checked(h, value)
#define dkap_equivalent(h, a, b) dkap_equivalent_checked(h, a, b)
#define dkap_encode(h, buf, length, needed) dkap_encode_checked(h, buf, length, needed)
#define dkap_encode_compressed(h, buf, length, needed) dkap_encode_compressed_checked(h, buf, length, needed)
#define dkap_decode(h, bytes, length, limit, taken) dkap_decode_checked(h, bytes, length, limit, taken)
#define dkap_log_comment(comment, comment_length, buf, length, needed) dkap_log_comment_checked(comment, \
        comment_length, buf, length, needed)
#define dkap_log_start_time(seconds, nanos, buf, length, needed) dkap_log_start_time_checked(seconds, nanos, buf, \
        length, needed)
#define dkap_log_base_time(seconds, nanos, buf, length, needed) dkap_log_base_time_checked(seconds, nanos, buf, \
        length, needed)
#define dkap_log_line(h, start_seconds, start_nanos, duration_seconds, duration_nanos, tag, tag_length, buf, length, \
        needed) dkap_log_line_checked(h, start_seconds, start_nanos, duration_seconds, duration_nanos, tag, \
        tag_length, buf, length, needed)
#define dkap_log_line_compressed(h, start_seconds, start_nanos, duration_seconds, duration_nanos, tag, tag_length, \
        buf, length, needed) dkap_log_line_compressed_checked(h, start_seconds, start_nanos, duration_seconds, \
        duration_nanos, tag, tag_length, buf, length, needed)
#define dkap_log_header_of(log, length, header) dkap_log_header_of_checked(log, length, header)
#define dkap_log_next(h, log, length, limit, interval) dkap_log_next_checked(h, log, length, limit, interval)

#endif
