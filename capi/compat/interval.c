/* The interval recorder. */
#include <hdr/hdr_interval_recorder.h>

#include "compat.h"

static struct hdr_histogram *active_of(struct hdr_interval_recorder *r)
{
    return __atomic_load_n(&r->active, __ATOMIC_ACQUIRE);
}

int hdr_interval_recorder_init(struct hdr_interval_recorder *r)
{
    r->active = r->inactive = NULL;
    return hdr_writer_reader_phaser_init(&r->phaser);
}

int hdr_interval_recorder_init_all(struct hdr_interval_recorder *r, int64_t lowest_trackable_value,
                                   int64_t highest_trackable_value, int significant_figures)
{
    int error = hdr_interval_recorder_init(r);

    if (error != 0)
        return error;
    error = hdr_init(lowest_trackable_value, highest_trackable_value, significant_figures, &r->active);
    if (error != 0)
        hdr_writer_reader_phaser_destroy(&r->phaser);
    return error;
}

void hdr_interval_recorder_destroy(struct hdr_interval_recorder *r)
{
    hdr_writer_reader_phaser_destroy(&r->phaser);
    hdr_close(r->active);
    hdr_close(r->inactive);
}

/* Exchanges the active histogram for an empty one, and waits for the writers of that. */
static struct hdr_histogram *exchange(struct hdr_interval_recorder *r, struct hdr_histogram *empty)
{
    struct hdr_histogram *sampled = __atomic_exchange_n(&r->active, empty, __ATOMIC_ACQ_REL);

    hdr_phaser_flip_phase(&r->phaser, 0);
    return sampled;
}

/* Makes `*empty` an empty histogram: resets it, or creates one that has the bounds of the active one. */
static bool make_empty(struct hdr_interval_recorder *r, struct hdr_histogram **empty)
{
    const struct hdr_histogram *active = active_of(r);

    if (*empty == NULL)
        return hdr_init(active->lowest_discernible_value, active->highest_trackable_value, active->significant_figures,
                        empty) == 0;
    hdr_reset(*empty);
    return true;
}

struct hdr_histogram *hdr_interval_recorder_sample_and_recycle(struct hdr_interval_recorder *r,
                                                               struct hdr_histogram *histogram_to_recycle)
{
    struct hdr_histogram *empty = histogram_to_recycle, *sampled = NULL;

    hdr_phaser_reader_lock(&r->phaser);
    if (make_empty(r, &empty))
        sampled = exchange(r, empty);
    hdr_phaser_reader_unlock(&r->phaser);
    return sampled;
}

struct hdr_histogram *hdr_interval_recorder_sample(struct hdr_interval_recorder *r)
{
    r->inactive = hdr_interval_recorder_sample_and_recycle(r, r->inactive);
    return r->inactive;
}

/* A call of a recorder: that of a histogram, on the active one, between the calls of the phaser. */
#define RECORD(name, arguments, call)                                               \
    int64_t hdr_interval_recorder_##name arguments                                  \
    {                                                                               \
        int64_t entered = hdr_phaser_writer_enter(&r->phaser);                      \
        bool recorded = call;                                                       \
                                                                                    \
        hdr_phaser_writer_exit(&r->phaser, entered);                                \
        return recorded;                                                            \
    }

RECORD(record_value, (struct hdr_interval_recorder *r, int64_t value), hdr_record_value(active_of(r), value))
RECORD(record_values, (struct hdr_interval_recorder *r, int64_t value, int64_t count),
       hdr_record_values(active_of(r), value, count))
RECORD(record_corrected_value, (struct hdr_interval_recorder *r, int64_t value, int64_t expected_interval),
       hdr_record_corrected_value(active_of(r), value, expected_interval))
RECORD(record_corrected_values,
       (struct hdr_interval_recorder *r, int64_t value, int64_t count, int64_t expected_interval),
       hdr_record_corrected_values(active_of(r), value, count, expected_interval))
RECORD(record_value_atomic, (struct hdr_interval_recorder *r, int64_t value),
       hdr_record_value_atomic(active_of(r), value))
RECORD(record_values_atomic, (struct hdr_interval_recorder *r, int64_t value, int64_t count),
       hdr_record_values_atomic(active_of(r), value, count))
RECORD(record_corrected_value_atomic, (struct hdr_interval_recorder *r, int64_t value, int64_t expected_interval),
       hdr_record_corrected_value_atomic(active_of(r), value, expected_interval))
RECORD(record_corrected_values_atomic,
       (struct hdr_interval_recorder *r, int64_t value, int64_t count, int64_t expected_interval),
       hdr_record_corrected_values_atomic(active_of(r), value, count, expected_interval))
