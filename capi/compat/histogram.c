/* Creation, resetting and adding, and what the proved histogram has of the counts. */
#include "classes.h"
#include "compat.h"

#include <string.h>

/* Offsets in the proved histogram, which the build finds: layout.c. */
#include "layout.h"

/* The counts that the proved histogram has: an array as long as `counts` of the struct. */
static const int64_t *recorded_of(const struct histogram *own)
{
    const int64_t *counts = NULL;

    memcpy(&counts, (const char *)own->handle.at_ + COUNTS_OFFSET, sizeof counts);
    return counts;
}

static int error_of(dkap_status status)
{
    return status == DKAP_OK ? 0 : status == DKAP_E_OUT_OF_MEMORY ? ENOMEM : EINVAL;
}

/* The words that have the bytes of all sections. */
static size_t words_of(int32_t counts_len)
{
    return ((size_t)counts_len + 8 * SECTION - 1) / (8 * SECTION);
}

static size_t size_of(int32_t counts_len)
{
    return sizeof(struct histogram) + words_of(counts_len) * sizeof(uint64_t) + (size_t)counts_len * sizeof(int64_t);
}

static int fill(struct histogram *own, const struct hdr_histogram_bucket_config *config)
{
    dkap_status status = dkap_init(&own->handle, (uint64_t)config->lowest_discernible_value,
                                   (uint64_t)config->highest_trackable_value, (uint8_t)config->significant_figures);
    struct dkap_shape shape;

    if (status == DKAP_OK)
        status = dkap_shape_of(&own->handle, &shape);
    if (status != DKAP_OK)
        return error_of(status);
    if (shape.bins != (uint64_t)config->counts_len)
        return EINVAL;
    own->shown.counts = (int64_t *)(own->touched + words_of(config->counts_len));
    *mark_of(&own->shown) = (uint32_t)(uintptr_t)own;
    return 0;
}

int hdr_init(int64_t lowest_discernible_value, int64_t highest_trackable_value, int significant_figures,
             struct hdr_histogram **result)
{
    struct hdr_histogram_bucket_config config;
    int error = hdr_calculate_bucket_config(lowest_discernible_value, highest_trackable_value, significant_figures,
                                            &config);
    struct histogram *own = error == 0 ? calloc(1, size_of(config.counts_len)) : NULL;

    if (error != 0 || own == NULL)
        return error != 0 ? error : ENOMEM;
    hdr_init_preallocated(&own->shown, &config);
    error = fill(own, &config);
    if (error != 0) {
        dkap_close(&own->handle);
        free(own);
        return error;
    }
    *result = &own->shown;
    return 0;
}

int hdr_alloc(int64_t highest_trackable_value, int significant_figures, struct hdr_histogram **result)
{
    return hdr_init(1, highest_trackable_value, significant_figures, result);
}

/* The struct is not one of hdr_init: nothing is recorded in it. */
void hdr_init_preallocated(struct hdr_histogram *h, struct hdr_histogram_bucket_config *config)
{
    h->lowest_discernible_value = config->lowest_discernible_value;
    h->highest_trackable_value = config->highest_trackable_value;
    h->unit_magnitude = (int32_t)config->unit_magnitude;
    h->significant_figures = (int32_t)config->significant_figures;
    h->sub_bucket_half_count_magnitude = config->sub_bucket_half_count_magnitude;
    h->sub_bucket_half_count = config->sub_bucket_half_count;
    h->sub_bucket_mask = config->sub_bucket_mask;
    h->sub_bucket_count = config->sub_bucket_count;
    h->bucket_count = config->bucket_count;
    h->counts_len = config->counts_len;
    h->min_value = INT64_MAX;
    h->max_value = 0;
    h->total_count = 0;
    h->normalizing_index_offset = 0;
    h->conversion_ratio = 1.0;
    *lock_of(h) = 0;
    *mark_of(h) = ~(uint32_t)(uintptr_t)h;
}

void hdr_close(struct hdr_histogram *h)
{
    if (h == NULL || !is_own(h))
        return;
    dkap_close(&own_of(h)->handle);
    free(h);
}

/* Values that are recorded once each, together. */
struct batch {
    size_t length;
    uint64_t values[256];
};

static void record_batch(struct histogram *own, struct batch *batch)
{
    size_t done;

    ensure(dkap_record_all(&own->handle, batch->values, batch->length, &done));
    batch->length = 0;
}

/* Records samples of a value: a single one with others. */
static inline void record_more(struct histogram *own, struct batch *batch, uint64_t value, uint64_t samples)
{
    if (samples > 1) {
        ensure(dkap_record_n(&own->handle, value, samples));
        return;
    }
    batch->values[batch->length++] = value;
    if (batch->length == sizeof batch->values / sizeof batch->values[0])
        record_batch(own, batch);
}

/* Records in the proved histogram what it lacks of a section. Returns false if a count has become less. */
static bool record_section(struct histogram *own, struct batch *batch, int32_t first)
{
    const int64_t *counts = own->shown.counts + first, *recorded = recorded_of(own) + first;
    int width = width_at(&own->shown, first), i;
    uint64_t lowest = (uint64_t)value_at(&own->shown, first, width);

    for (i = 0; i < SECTION; i++) {
        uint64_t count = (uint64_t)counts[i], before = (uint64_t)recorded[i];

        if (count == before)
            continue;
        if (count < before)
            return false;
        record_more(own, batch, lowest + ((uint64_t)i << width), count - before);
    }
    return true;
}

/* The bytes of sections are cleared before their counts are read, as a thread may record meanwhile. */
static bool record_touched(struct histogram *own)
{
    int32_t words = (int32_t)words_of(own->shown.counts_len), word, section;
    struct batch batch;

    batch.length = 0;
    for (word = 0; word < words; word++) {
        uint64_t bits = own->touched[word] != 0 ? __atomic_exchange_n(own->touched + word, 0, __ATOMIC_SEQ_CST) : 0;
        uint8_t bytes[sizeof bits];

        memcpy(bytes, &bits, sizeof bits);
        for (section = 0; bits != 0 && section < 8; section++)
            if (bytes[section] != 0 && !record_section(own, &batch, (8 * word + section) * SECTION))
                return false;
    }
    record_batch(own, &batch);
    return true;
}

/* Records all counts anew: a program has written to them. */
static void record_all(struct histogram *own)
{
    ensure(dkap_reset(&own->handle));
    memset(own->touched, 1, (size_t)own->shown.counts_len / SECTION);
    record_touched(own);
}

struct histogram *enter(const struct hdr_histogram *h)
{
    struct histogram *own = own_of(h);
    int64_t total;

    lock(own);
    total = __atomic_load_n(&h->total_count, __ATOMIC_ACQUIRE);
    if (total == own->seen)
        return own;
    if (!record_touched(own))
        record_all(own);
    own->seen = total;
    return own;
}

void follow(struct histogram *own)
{
    struct hdr_histogram *h = &own->shown;
    uint64_t min = dkap_min_nz(&own->handle);

    memcpy(h->counts, recorded_of(own), (size_t)h->counts_len * sizeof *h->counts);
    widen(h, lowest_of(h, (int64_t)dkap_max(&own->handle)));
    if (min <= INT64_MAX)
        widen(h, lowest_of(h, (int64_t)min));
    h->total_count = own->seen = (int64_t)dkap_len(&own->handle);
}

static void clear_fields(struct hdr_histogram *h)
{
    h->min_value = INT64_MAX;
    h->max_value = 0;
    h->total_count = 0;
}

void hdr_reset(struct hdr_histogram *h)
{
    struct histogram *own = own_of(h);

    if (!is_own(h))
        return;
    lock(own);
    clear_fields(h);
    memset(h->counts, 0, (size_t)h->counts_len * sizeof *h->counts);
    memset(own->touched, 0, words_of(h->counts_len) * sizeof own->touched[0]);
    ensure(dkap_reset(&own->handle));
    own->seen = 0;
    unlock(own);
}

size_t hdr_get_memory_size(struct hdr_histogram *h)
{
    return size_of(h->counts_len) + (size_t)h->counts_len * sizeof *h->counts;
}

int64_t add_classes(struct histogram *own, const struct dkap_histogram *from, uint64_t interval)
{
    struct hdr_histogram *h = &own->shown;
    uint64_t dropped = 0;

    for (struct dkap_class c = {0}; dkap_next_class(from, &c);) {
        if (index_of(h, (int64_t)c.lowest) >= (uint32_t)h->counts_len ||
            dkap_record_correct(&own->handle, c.lowest, c.count, interval) != DKAP_OK) {
            dropped += c.count;
        } else {
            widen(h, (int64_t)c.lowest);
            widen(h, interval > 0 && c.lowest > interval ? (int64_t)(interval + c.lowest % interval) : 0);
        }
    }
    follow(own);
    return (int64_t)dropped;
}

static bool has_same_classes(const struct hdr_histogram *h, const struct hdr_histogram *other)
{
    return h->unit_magnitude == other->unit_magnitude && h->sub_bucket_count == other->sub_bucket_count;
}

/* Adds the counts of a histogram with the same classes. */
static int64_t add_same(struct histogram *own, const struct dkap_histogram *from)
{
    if (dkap_add(&own->handle, from) != DKAP_OK)
        return add_classes(own, from, 0);
    follow(own);
    return 0;
}

/* Adds a copy, so that both histograms may be one, and two threads that add in both directions don't wait forever. */
static int64_t add(struct hdr_histogram *h, const struct hdr_histogram *from, uint64_t interval)
{
    struct dkap_histogram copy = DKAP_CLOSED;
    int64_t dropped = from->total_count;
    dkap_status status;

    if (!is_own(h) || !is_own(from))
        return dropped;
    status = dkap_copy(&copy, &enter(from)->handle);
    unlock(own_of(from));
    if (status == DKAP_OK) {
        enter(h);
        dropped = has_same_classes(h, from) && interval == 0 ? add_same(own_of(h), &copy)
                                                             : add_classes(own_of(h), &copy, interval);
        unlock(own_of(h));
    }
    dkap_close(&copy);
    return dropped;
}

int64_t hdr_add(struct hdr_histogram *h, const struct hdr_histogram *from)
{
    return add(h, from, 0);
}

int64_t hdr_add_while_correcting_for_coordinated_omission(struct hdr_histogram *h, struct hdr_histogram *from,
                                                          int64_t expected_interval)
{
    return add(h, from, expected_interval > 0 ? (uint64_t)expected_interval : 0);
}

void hdr_reset_internal_counters(struct hdr_histogram *h)
{
    struct histogram *own = own_of(h);
    int32_t index;

    if (!is_own(h))
        return;
    lock(own);
    clear_fields(h);
    for (index = 0; index < h->counts_len; index++)
        if (h->counts[index] > 0) {
            widen(h, hdr_value_at_index(h, index));
            h->max_value = highest_of(h, hdr_value_at_index(h, index));
        } else {
            h->counts[index] = 0;
        }
    record_all(own);
    h->total_count = own->seen = (int64_t)dkap_len(&own->handle);
    unlock(own);
}
