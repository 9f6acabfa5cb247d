/* The bounds of classes, and what is counted in one. */
#include "classes.h"

#include "compat.h"

/* The digits of the first power of two that is at least twice 10^figures. */
static int32_t half_magnitude_of(int figures)
{
    int64_t units = 2;
    int32_t magnitude = 0;

    for (; figures > 0; figures--)
        units *= 10;
    while (INT64_C(1) << (magnitude + 1) < units)
        magnitude++;
    return magnitude;
}

/* The number of buckets up to a value. */
static int32_t buckets_to(int64_t value, int64_t first_end)
{
    int32_t buckets = 1;

    for (; first_end <= value; first_end *= 2) {
        buckets++;
        if (first_end > INT64_MAX / 2)
            break;
    }
    return buckets;
}

int hdr_calculate_bucket_config(int64_t lowest_discernible_value, int64_t highest_trackable_value,
                                int significant_figures, struct hdr_histogram_bucket_config *config)
{
    int32_t unit, half;

    if (lowest_discernible_value < 1 || significant_figures < 1 || significant_figures > 5 ||
        lowest_discernible_value > highest_trackable_value / 2)
        return EINVAL;
    unit = 63 - __builtin_clzll((uint64_t)lowest_discernible_value);
    half = half_magnitude_of(significant_figures);
    if (unit + half > 61)
        return EINVAL;
    config->lowest_discernible_value = lowest_discernible_value;
    config->highest_trackable_value = highest_trackable_value;
    config->unit_magnitude = unit;
    config->significant_figures = significant_figures;
    config->sub_bucket_half_count_magnitude = half;
    config->sub_bucket_half_count = 1 << half;
    config->sub_bucket_count = 2 << half;
    config->sub_bucket_mask = (int64_t)(config->sub_bucket_count - 1) << unit;
    config->bucket_count = buckets_to(highest_trackable_value, (int64_t)config->sub_bucket_count << unit);
    config->counts_len = (config->bucket_count + 1) * config->sub_bucket_half_count;
    return 0;
}

int64_t hdr_lowest_equivalent_value(const struct hdr_histogram *h, int64_t value)
{
    return lowest_of(h, value);
}

int64_t hdr_size_of_equivalent_value_range(const struct hdr_histogram *h, int64_t value)
{
    return INT64_C(1) << width_of(h, value);
}

int64_t hdr_next_non_equivalent_value(const struct hdr_histogram *h, int64_t value)
{
    return (int64_t)((uint64_t)highest_of(h, value) + 1);
}

int64_t hdr_median_equivalent_value(const struct hdr_histogram *h, int64_t value)
{
    return lowest_of(h, value) + (INT64_C(1) << width_of(h, value) >> 1);
}

/* Values that differ below the width of one's class alone are both in it. */
bool hdr_values_are_equivalent(const struct hdr_histogram *h, int64_t a, int64_t b)
{
    return (uint64_t)(a ^ b) >> width_of(h, a) == 0;
}

int64_t hdr_value_at_index(const struct hdr_histogram *h, int32_t index)
{
    return value_at(h, index, width_at(h, index));
}

static inline int64_t count_at(const struct hdr_histogram *h, uint32_t index)
{
    return index < (uint32_t)h->counts_len ? h->counts[index] : 0;
}

int64_t hdr_count_at_index(const struct hdr_histogram *h, int32_t index)
{
    return count_at(h, (uint32_t)index);
}

int64_t hdr_count_at_value(const struct hdr_histogram *h, int64_t value)
{
    return count_at(h, index_of(h, value));
}
