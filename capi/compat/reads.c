/* Statistics and percentiles. */
#include <math.h>

#include "classes.h"
#include "compat.h"

int64_t hdr_max(const struct hdr_histogram *h)
{
    return h->max_value == 0 ? 0 : highest_of(h, h->max_value);
}

int64_t hdr_min(const struct hdr_histogram *h)
{
    if (h->counts[0] > 0)
        return 0;
    return h->min_value == INT64_MAX ? INT64_MAX : lowest_of(h, h->min_value);
}

/* A percentile as a fraction: the decimal number with the fewest digits that is this double. */
struct percentile {
    uint64_t num, den;
};

static struct percentile percentile_of(double number)
{
    uint64_t den;

    if (!(number < 100.0))
        return (struct percentile){100, 1};
    for (den = 1; den < UINT64_C(1000000000000000); den *= 10) {
        uint64_t num = (uint64_t)(number * (double)den + 0.5);

        if ((double)num / (double)den == number)
            return (struct percentile){num, den};
    }
    return (struct percentile){(uint64_t)(number * (double)den + 0.5), den};
}

/* Below the lock. A percentile of 0 or less is that of the first sample. */
static int64_t value_at_percentile(const struct histogram *own, double number)
{
    struct percentile p = {0, 1};
    uint64_t value = 0;

    if (!(number <= 0.0))
        p = percentile_of(number);
    if (p.num == 0)
        p = (struct percentile){1, UINT64_MAX};
    ensure(dkap_value_at_percentile(&own->handle, p.num, p.den, &value));
    return (int64_t)value;
}

int64_t hdr_value_at_percentile(const struct hdr_histogram *h, double percentile)
{
    struct histogram *own;
    int64_t value;

    if (!is_own(h))
        return 0;
    own = enter(h);
    value = value_at_percentile(own, percentile);
    unlock(own);
    return percentile == 0.0 ? lowest_of(h, value) : value;
}

int hdr_value_at_percentiles(const struct hdr_histogram *h, const double *percentiles, int64_t *values, size_t length)
{
    struct histogram *own;
    size_t i;

    if (percentiles == NULL || values == NULL || !is_own(h))
        return EINVAL;
    own = enter(h);
    for (i = 0; i < length; i++)
        values[i] = value_at_percentile(own, percentiles[i]);
    unlock(own);
    return 0;
}

/* Below the lock. It is not a number without samples. */
static double mean_of(const struct histogram *own)
{
    struct dkap_fraction mean = {0, 0, 1};

    if (dkap_len(&own->handle) == 0 || dkap_mean(&own->handle, &mean) != DKAP_OK)
        return NAN;
    return ((double)mean.num_high * 18446744073709551616.0 + (double)mean.num_low) / (double)mean.den;
}

double hdr_mean(const struct hdr_histogram *h)
{
    struct histogram *own;
    double mean;

    if (!is_own(h))
        return NAN;
    own = enter(h);
    mean = mean_of(own);
    unlock(own);
    return mean;
}

double hdr_stddev(const struct hdr_histogram *h)
{
    struct histogram *own;
    double mean, squares = 0;
    uint64_t samples;

    if (!is_own(h))
        return NAN;
    own = enter(h);
    mean = mean_of(own);
    samples = dkap_len(&own->handle);
    for (struct dkap_class c = {0}; dkap_next_class(&own->handle, &c);) {
        double distance = (double)(c.lowest + (c.highest - c.lowest + 1) / 2) - mean;

        squares += distance * distance * (double)c.count;
    }
    unlock(own);
    return sqrt(squares / (double)samples);
}
