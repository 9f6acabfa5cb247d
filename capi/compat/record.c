/* Recording: in the counts of the struct. */
#include <stdatomic.h>

#include "classes.h"
#include "compat.h"

/* Missing values are counted one by one if there are at most two to this power. */
enum { FEW_BITS = 10 };

/* Counts samples of a value, whose class has this index. The sum saturates, as a count does. */
static inline void count(struct hdr_histogram *h, uint32_t index, int64_t value, uint64_t samples)
{
    uint64_t sum, total;

    if (__builtin_expect(__builtin_add_overflow((uint64_t)h->counts[index], samples, &sum), false))
        sum = UINT64_MAX;
    h->counts[index] = (int64_t)sum;
    ((uint8_t *)own_of(h)->touched)[index >> SECTION_BITS] = 1;
    widen(h, value);
    if (__builtin_expect(__builtin_add_overflow((uint64_t)h->total_count, samples, &total), false)) {
        total = UINT64_MAX;
        own_of(h)->seen = 0;
    }
    atomic_signal_fence(memory_order_seq_cst);
    h->total_count = (int64_t)total;
}

/* Whether a value can be recorded: it has a class with a count, in a struct of hdr_init. */
static inline bool has_count(const struct hdr_histogram *h, uint32_t index)
{
    return __builtin_expect(index < (uint32_t)h->counts_len, true) && __builtin_expect(is_own(h), true);
}

/* A thread that reads meanwhile sees the number of samples after their counts. No other thread may record without a lock. */
bool hdr_record_value(struct hdr_histogram *h, int64_t value)
{
    uint32_t index = index_of(h, value);

    if (!has_count(h, index))
        return false;
    count(h, index, value, 1);
    return true;
}

static bool __attribute__((noinline, cold)) wait_and_record(struct hdr_histogram *h, int64_t value)
{
    lock(own_of(h));
    count(h, index_of(h, value), value, 1);
    unlock(own_of(h));
    return true;
}

bool hdr_record_value_atomic(struct hdr_histogram *h, int64_t value)
{
    uint32_t index = index_of(h, value);

    if (!has_count(h, index))
        return false;
    if (__builtin_expect(!try_lock(h), false))
        return wait_and_record(h, value);
    count(h, index, value, 1);
    unlock(own_of(h));
    return true;
}

bool hdr_record_values(struct hdr_histogram *h, int64_t value, int64_t samples)
{
    uint32_t index = index_of(h, value);

    if (!has_count(h, index) || samples < 0)
        return false;
    count(h, index, value, (uint64_t)samples);
    return true;
}

bool hdr_record_values_atomic(struct hdr_histogram *h, int64_t value, int64_t samples)
{
    bool recorded;

    if (!is_own(h))
        return false;
    lock(own_of(h));
    recorded = hdr_record_values(h, value, samples);
    unlock(own_of(h));
    return recorded;
}

/* Whether values are missing, and few: they are counted one by one. */
static inline bool are_few(int64_t value, int64_t interval)
{
    return interval <= 0 || value >> FEW_BITS < interval;
}

static void count_missing(struct hdr_histogram *h, int64_t value, int64_t samples, int64_t interval)
{
    if (interval <= 0 || value <= interval)
        return;
    for (value -= interval; value >= interval; value -= interval)
        count(h, index_of(h, value), value, (uint64_t)samples);
}

/* The same in bounded time. */
static bool record_with_missing(struct hdr_histogram *h, int64_t value, int64_t samples, int64_t interval)
{
    if (!has_count(h, index_of(h, value)) || samples < 0)
        return false;
    ensure(dkap_record_correct(&enter(h)->handle, (uint64_t)value, (uint64_t)samples, (uint64_t)interval));
    widen(h, value);
    widen(h, interval + value % interval);
    follow(own_of(h));
    unlock(own_of(h));
    return true;
}

bool hdr_record_corrected_value(struct hdr_histogram *h, int64_t value, int64_t expected_interval)
{
    return hdr_record_corrected_values(h, value, 1, expected_interval);
}

bool hdr_record_corrected_values(struct hdr_histogram *h, int64_t value, int64_t samples, int64_t expected_interval)
{
    if (!are_few(value, expected_interval))
        return record_with_missing(h, value, samples, expected_interval);
    if (!hdr_record_values(h, value, samples))
        return false;
    count_missing(h, value, samples, expected_interval);
    return true;
}

bool hdr_record_corrected_value_atomic(struct hdr_histogram *h, int64_t value, int64_t expected_interval)
{
    return hdr_record_corrected_values_atomic(h, value, 1, expected_interval);
}

bool hdr_record_corrected_values_atomic(struct hdr_histogram *h, int64_t value, int64_t samples,
                                        int64_t expected_interval)
{
    bool recorded;

    if (!are_few(value, expected_interval))
        return record_with_missing(h, value, samples, expected_interval);
    if (!is_own(h))
        return false;
    lock(own_of(h));
    recorded = hdr_record_corrected_values(h, value, samples, expected_interval);
    unlock(own_of(h));
    return recorded;
}
