/*
 * What the files of this library have in common. The struct and the calls are those of the installed header of
 * HdrHistogram_c; behind the struct each histogram of hdr_init has a handle of the proved library.
 */
#ifndef COMPAT_H
#define COMPAT_H

#include <errno.h>
#include <sched.h>
#include <stddef.h>
#include <stdlib.h>

#include <hdr/hdr_histogram.h>

#include "dkap.h"

/* So many classes are a section: they have one byte of `touched`, and one width, as halves of buckets have at least 16. */
enum { SECTION_BITS = 4, SECTION = 1 << SECTION_BITS };

/*
 * A histogram of hdr_init. `shown` is all that a program knows of, and its fields and `counts` hold after each call.
 *
 * A recording call counts in `counts`, and sets the byte of the section in `touched`. The proved histogram has the counts
 * of all sections whose byte is 0. A call that reads it records the others there, if `total_count` is not `seen`, the
 * number of samples when that was done last.
 */
struct histogram {
    struct hdr_histogram shown;
    struct dkap_histogram handle;
    int64_t seen;
    uint64_t touched[];
};

/*
 * In two parts of the struct, of 4 bytes each, no field lies. One has the lock of the histogram, which excludes all but
 * the single thread that records without it. The other has the low bits of the struct's address: so a copy of the struct,
 * or one that a program made, is not taken for one of hdr_init.
 */
enum {
    LOCK = offsetof(struct hdr_histogram, normalizing_index_offset) + sizeof(int32_t),
    MARK = offsetof(struct hdr_histogram, counts_len) + sizeof(int32_t)
};
_Static_assert(LOCK + sizeof(uint32_t) == offsetof(struct hdr_histogram, conversion_ratio), "4 bytes without a field");
_Static_assert(MARK + sizeof(uint32_t) == offsetof(struct hdr_histogram, total_count), "4 bytes without a field");

static inline uint8_t *lock_of(const struct hdr_histogram *h)
{
    return (uint8_t *)(uintptr_t)h + LOCK;
}

static inline uint32_t *mark_of(const struct hdr_histogram *h)
{
    return (uint32_t *)((char *)(uintptr_t)h + MARK);
}

/* The histogram of a struct of hdr_init. Calls that read are given a const struct, and lock it. */
static inline struct histogram *own_of(const struct hdr_histogram *h)
{
    return (struct histogram *)(uintptr_t)h;
}

static inline bool is_own(const struct hdr_histogram *h)
{
    return *mark_of(h) == (uint32_t)(uintptr_t)h;
}

static inline bool try_lock(struct hdr_histogram *h)
{
    return __atomic_exchange_n(lock_of(h), 1, __ATOMIC_ACQUIRE) == 0;
}

static inline void lock(struct histogram *own)
{
    while (!try_lock(&own->shown))
        while (__atomic_load_n(lock_of(&own->shown), __ATOMIC_RELAXED) != 0)
            sched_yield();
}

static inline void unlock(struct histogram *own)
{
    __atomic_store_n(lock_of(&own->shown), 0, __ATOMIC_RELEASE);
}

/* The status of a call that succeeds: each value has a bin, and the histogram does not grow. */
static inline void ensure(dkap_status status)
{
    if (status != DKAP_OK)
        abort();
}

/* Locks a struct of hdr_init, and records in the proved histogram what that lacks. Returns with the lock. */
struct histogram *enter(const struct hdr_histogram *h);

/* Below the lock: the proved histogram has changed, and the struct follows. */
void follow(struct histogram *own);

/* Below the lock: adds the counts of a histogram, and returns how many have no bin. */
int64_t add_classes(struct histogram *own, const struct dkap_histogram *from, uint64_t interval);

#endif
