/*
 * The histogram that a thread records in, which a swap exchanges for an empty one. It is behind the atomic pointer
 * `active`. A recording call takes it by an exchange with null, and stores it again after it has recorded. A swap
 * exchanges a histogram that is not taken for an empty one. If it is taken, the swap offers the empty one: the call that
 * has it takes that at its end, and returns the other to the swap. So at each time a histogram has one user: a call, or
 * the swap. A store releases what the user has written, and an exchange acquires that.
 */
#ifndef DKAP_RECORDER_SLOT_H
#define DKAP_RECORDER_SLOT_H

#include <sched.h>
#include <stdatomic.h>

#include "dkap.h"

/* For helgrind, which does not know atomic operations. */
#ifdef DKAP_ANNOTATE
#include <valgrind/helgrind.h>
#define HAPPENS_BEFORE(at) ANNOTATE_HAPPENS_BEFORE(at)
#define HAPPENS_AFTER(at) ANNOTATE_HAPPENS_AFTER(at)
#define ATOMIC(object) VALGRIND_HG_DISABLE_CHECKING(&(object), sizeof(object))
#else
#define HAPPENS_BEFORE(at) ((void)(at))
#define HAPPENS_AFTER(at) ((void)(at))
#define ATOMIC(object) ((void)&(object))
#endif

struct slot {
    _Atomic(struct dkap_histogram *) active, offered, returned;
};

static inline void init_slot(struct slot *s, struct dkap_histogram *h)
{
    atomic_init(&s->active, h);
    atomic_init(&s->offered, NULL);
    atomic_init(&s->returned, NULL);
    ATOMIC(*s);
}

/* Takes the histogram, in the one thread that records. */
static inline struct dkap_histogram *take(struct slot *s)
{
    struct dkap_histogram *h = atomic_exchange_explicit(&s->active, NULL, memory_order_acquire);

    HAPPENS_AFTER(h);
    return h;
}

/* Takes the empty histogram that a swap has offered, if it is still there, in exchange for the one that was taken. */
static inline struct dkap_histogram *hand_over(struct slot *s, struct dkap_histogram *h)
{
    struct dkap_histogram *empty = atomic_exchange_explicit(&s->offered, NULL, memory_order_acquire);

    if (empty == NULL)
        return h;
    HAPPENS_AFTER(empty);
    HAPPENS_BEFORE(h);
    atomic_store_explicit(&s->returned, h, memory_order_release);
    return empty;
}

/* Ends a recording call. */
static inline void release(struct slot *s, struct dkap_histogram *h)
{
    if (atomic_load_explicit(&s->offered, memory_order_relaxed) != NULL)
        h = hand_over(s, h);
    HAPPENS_BEFORE(h);
    atomic_store_explicit(&s->active, h, memory_order_release);
}

/* Exchanges the histogram for an empty one if it is not taken. Returns null if it is. */
static inline struct dkap_histogram *try_exchange(struct slot *s, struct dkap_histogram *empty)
{
    struct dkap_histogram *h = atomic_load_explicit(&s->active, memory_order_relaxed);

    if (h != NULL && atomic_compare_exchange_strong_explicit(&s->active, &h, empty, memory_order_acq_rel,
                                                             memory_order_relaxed))
        return h;
    return NULL;
}

/* Exchanges the histogram for an empty one, at the latest when the recording call that has it ends. */
static inline struct dkap_histogram *exchange(struct slot *s, struct dkap_histogram *empty)
{
    struct dkap_histogram *h;

    HAPPENS_BEFORE(empty);
    while ((h = try_exchange(s, empty)) == NULL) {
        atomic_store_explicit(&s->offered, empty, memory_order_release);
        sched_yield();
        if (atomic_exchange_explicit(&s->offered, NULL, memory_order_acquire) == NULL) {
            while ((h = atomic_exchange_explicit(&s->returned, NULL, memory_order_acquire)) == NULL)
                sched_yield();
            break;
        }
    }
    HAPPENS_AFTER(h);
    return h;
}

#endif
