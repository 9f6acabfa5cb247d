/* Classes of values, from the fields of the struct alone. */
#ifndef CLASSES_H
#define CLASSES_H

#include <hdr/hdr_histogram.h>

/* The binary exponent of the width of the class of a value. */
static inline int width_of(const struct hdr_histogram *h, int64_t value)
{
    return 63 - __builtin_clzll((uint64_t)(value | h->sub_bucket_mask)) - h->sub_bucket_half_count_magnitude;
}

static inline int64_t lowest_of(const struct hdr_histogram *h, int64_t value)
{
    int width = width_of(h, value);

    return (int64_t)((uint64_t)value >> width << width);
}

static inline int64_t highest_of(const struct hdr_histogram *h, int64_t value)
{
    return (int64_t)((uint64_t)value | ((UINT64_C(1) << width_of(h, value)) - 1));
}

/* The binary exponent of the width of the class at an index. */
static inline int width_at(const struct hdr_histogram *h, int32_t index)
{
    int bucket = (index >> h->sub_bucket_half_count_magnitude) - 1;

    return h->unit_magnitude + (bucket < 0 ? 0 : bucket);
}

/* The lowest value of the class at an index. */
static inline int64_t value_at(const struct hdr_histogram *h, int32_t index, int width)
{
    int64_t above = (int64_t)(width - h->unit_magnitude) << h->sub_bucket_half_count_magnitude;

    return (int64_t)((uint64_t)(index - above) << width);
}

/* The index of a value without a class, or of a negative one, is at least `counts_len`. */
static inline uint32_t index_of(const struct hdr_histogram *h, int64_t value)
{
    int width = width_of(h, value), bucket = width - h->unit_magnitude;

    return (uint32_t)((uint64_t)value >> width) + ((uint32_t)bucket << h->sub_bucket_half_count_magnitude);
}

/* The least value above 0 and the greatest one include a value. */
static inline void widen(struct hdr_histogram *h, int64_t value)
{
    if (value < h->min_value && value != 0)
        h->min_value = value;
    if (value > h->max_value)
        h->max_value = value;
}

#endif
