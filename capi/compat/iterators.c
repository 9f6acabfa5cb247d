/* Iterators. They read the counts of the struct. */
#include <math.h>

#include "classes.h"
#include "compat.h"

static bool has_samples(const struct hdr_iter *iter)
{
    return iter->cumulative_count < iter->total_count;
}

/* Moves to the next class. Returns false if there is none. */
static bool move(struct hdr_iter *iter)
{
    const struct hdr_histogram *h = iter->h;
    int width;

    iter->counts_index++;
    if (iter->counts_index >= h->counts_len)
        return false;
    width = width_at(h, iter->counts_index);
    iter->count = h->counts[iter->counts_index];
    iter->cumulative_count += iter->count;
    iter->value = value_at(h, iter->counts_index, width);
    iter->lowest_equivalent_value = iter->value;
    iter->highest_equivalent_value = iter->value + ((INT64_C(1) << width) - 1);
    iter->median_equivalent_value = iter->value + (INT64_C(1) << width >> 1);
    return true;
}

/* Moves to the next class that is not empty. Returns false if no samples are left. */
static bool move_to_samples(struct hdr_iter *iter)
{
    const struct hdr_histogram *h = iter->h;

    if (!has_samples(iter))
        return false;
    while (iter->counts_index + 1 < h->counts_len && h->counts[iter->counts_index + 1] == 0)
        iter->counts_index++;
    return move(iter);
}

static void iterate_to(struct hdr_iter *iter, int64_t value)
{
    iter->value_iterated_from = iter->value_iterated_to;
    iter->value_iterated_to = value;
}

static bool next_class(struct hdr_iter *iter)
{
    if (!move(iter))
        return false;
    iterate_to(iter, iter->value);
    return true;
}

void hdr_iter_init(struct hdr_iter *iter, const struct hdr_histogram *h)
{
    *iter = (struct hdr_iter){.h = h, .counts_index = -1, .total_count = h->total_count, ._next_fp = next_class};
}

bool hdr_iter_next(struct hdr_iter *iter)
{
    return iter->_next_fp(iter);
}

static bool next_recorded(struct hdr_iter *iter)
{
    if (!move_to_samples(iter))
        return false;
    iterate_to(iter, iter->value);
    iter->specifics.recorded.count_added_in_this_iteration_step = iter->count;
    return true;
}

void hdr_iter_recorded_init(struct hdr_iter *iter, const struct hdr_histogram *h)
{
    hdr_iter_init(iter, h);
    iter->_next_fp = next_recorded;
}

/* The distance to the next percentile: so many in half of what is left up to 100. */
static double percentile_step(const struct hdr_iter_percentiles *p)
{
    int64_t halves = (int64_t)(log(100 / (100.0 - p->percentile_to_iterate_to)) / log(2)) + 1;

    return 100.0 / (double)(p->ticks_per_half_distance * (int64_t)pow(2, (double)halves));
}

static bool next_percentile(struct hdr_iter *iter)
{
    struct hdr_iter_percentiles *p = &iter->specifics.percentiles;

    if (!has_samples(iter)) {
        bool ends = p->seen_last_value;

        p->seen_last_value = true;
        p->percentile = ends ? p->percentile : 100.0;
        return !ends;
    }
    if (iter->counts_index == -1 && !move_to_samples(iter))
        return false;
    do {
        double reached = 100.0 * (double)iter->cumulative_count / (double)iter->h->total_count;

        if (iter->count != 0 && p->percentile_to_iterate_to <= reached) {
            iterate_to(iter, iter->highest_equivalent_value);
            p->percentile = p->percentile_to_iterate_to;
            p->percentile_to_iterate_to += percentile_step(p);
            return true;
        }
    } while (move_to_samples(iter));
    return true;
}

void hdr_iter_percentile_init(struct hdr_iter *iter, const struct hdr_histogram *h, int32_t ticks_per_half_distance)
{
    hdr_iter_init(iter, h);
    iter->specifics.percentiles.ticks_per_half_distance = ticks_per_half_distance;
    iter->_next_fp = next_percentile;
}

/*
 * Moves to the class of a level, and adds the counts up to there. `reached` is false if the bins end before. Returns
 * false if no samples are left, and the next class does not begin after that of the level.
 */
static bool move_to_level(struct hdr_iter *iter, int64_t lowest, int64_t *added, bool *reached)
{
    const struct hdr_histogram *h = iter->h;

    *added = 0;
    *reached = false;
    if (!has_samples(iter) &&
        (iter->counts_index >= h->counts_len || hdr_value_at_index(h, iter->counts_index + 1) <= lowest))
        return false;
    while (iter->value < lowest) {
        if (!move(iter))
            return true;
        *added += iter->count;
    }
    *reached = true;
    return true;
}

static bool next_linear(struct hdr_iter *iter)
{
    struct hdr_iter_linear *l = &iter->specifics.linear;
    bool reached;

    if (!move_to_level(iter, l->next_value_reporting_level_lowest_equivalent, &l->count_added_in_this_iteration_step,
                       &reached))
        return false;
    if (reached) {
        iterate_to(iter, l->next_value_reporting_level);
        l->next_value_reporting_level += l->value_units_per_bucket;
        l->next_value_reporting_level_lowest_equivalent = lowest_of(iter->h, l->next_value_reporting_level);
    }
    return true;
}

void hdr_iter_linear_init(struct hdr_iter *iter, const struct hdr_histogram *h, int64_t value_units_per_bucket)
{
    hdr_iter_init(iter, h);
    iter->specifics.linear.value_units_per_bucket = value_units_per_bucket;
    iter->specifics.linear.next_value_reporting_level = value_units_per_bucket;
    iter->specifics.linear.next_value_reporting_level_lowest_equivalent = lowest_of(h, value_units_per_bucket);
    iter->_next_fp = next_linear;
}

/* Of the version within redis. */
void hdr_iter_linear_set_value_units_per_bucket(struct hdr_iter *iter, int64_t value_units_per_bucket);

void hdr_iter_linear_set_value_units_per_bucket(struct hdr_iter *iter, int64_t value_units_per_bucket)
{
    iter->specifics.linear.value_units_per_bucket = value_units_per_bucket;
}

static bool next_log(struct hdr_iter *iter)
{
    struct hdr_iter_log *l = &iter->specifics.log;
    bool reached;

    if (!move_to_level(iter, l->next_value_reporting_level_lowest_equivalent, &l->count_added_in_this_iteration_step,
                       &reached))
        return false;
    if (reached) {
        iterate_to(iter, l->next_value_reporting_level);
        l->next_value_reporting_level *= (int64_t)l->log_base;
        l->next_value_reporting_level_lowest_equivalent = lowest_of(iter->h, l->next_value_reporting_level);
    }
    return true;
}

void hdr_iter_log_init(struct hdr_iter *iter, const struct hdr_histogram *h, int64_t value_units_first_bucket,
                       double log_base)
{
    hdr_iter_init(iter, h);
    iter->specifics.log.log_base = log_base;
    iter->specifics.log.next_value_reporting_level = value_units_first_bucket;
    iter->specifics.log.next_value_reporting_level_lowest_equivalent = lowest_of(h, value_units_first_bucket);
    iter->_next_fp = next_log;
}
