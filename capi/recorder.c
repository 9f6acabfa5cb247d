/*
 * The recorder of recorder.h, in C11 over the calls of dkap.h.
 *
 * Each thread records in the histogram of the slot of its writer, and a swap exchanges that for an empty one. A writer is
 * freed when its recorder is closed and its thread has ended, by the later of the two.
 */
#include "recorder.h"

#include <pthread.h>
#include <stdlib.h>

#include "recorder_slot.h"

/* Writers are on cache lines of their own. Values of dkap_recorder_record_all are recorded in pieces. */
enum { LINE = 64, PIECE = 1024 };

/* The uses of a writer: by a thread, and by an open recorder. */
enum { OWNED = 1, OPEN = 2 };

/* What one thread at a time records in. `recorder` is null if that is closed. */
struct writer {
    _Alignas(LINE) struct slot slot;
    _Atomic(struct dkap_recorder *) recorder;
    atomic_uint uses;
    struct writer *next, *next_of_thread;
    struct dkap_histogram own;
};

/*
 * Histograms pass from writer to writer by swaps: there is one for each writer, and `spare`. That is empty, unless
 * memory ran out when it was added to `interval`. `interval` is empty, unless it could not be added to a caller's.
 */
struct dkap_recorder {
    _Atomic(struct writer *) writers;
    pthread_mutex_t swapping;
    struct dkap_histogram own, interval;
    struct dkap_histogram *spare;
    uint64_t low, high;
    uint8_t sigfig;
    bool grows;
};

/* The writers that the calling thread owns, and the key whose destructor runs when a thread ends. */
static _Thread_local struct writer *mine = NULL;
static pthread_once_t once = PTHREAD_ONCE_INIT;
static pthread_key_t key;
static bool has_key = false;

static dkap_status new_histogram(const struct dkap_recorder *r, struct dkap_histogram *h)
{
    return r->grows ? dkap_init_auto(h, r->sigfig) : dkap_init(h, r->low, r->high, r->sigfig);
}

/* Ends one use of a writer, and frees it if that was the last. */
static void end_use(struct writer *w, unsigned use)
{
    HAPPENS_BEFORE(&w->uses);
    if (atomic_fetch_and_explicit(&w->uses, ~use, memory_order_acq_rel) == use) {
        HAPPENS_AFTER(&w->uses);
        free(w);
    }
}

/* Removes the writers of a recorder from those of the calling thread; of closed ones, if it is null. */
static void leave(const struct dkap_recorder *r)
{
    struct writer **at = &mine;

    while (*at != NULL) {
        struct writer *w = *at;

        if (atomic_load_explicit(&w->recorder, memory_order_relaxed) == r) {
            *at = w->next_of_thread;
            end_use(w, OWNED);
        } else {
            at = &w->next_of_thread;
        }
    }
}

/* When a thread ends, its writers and their samples remain in the recorders that are open. */
static void leave_all(void *unused)
{
    (void)unused;
    while (mine != NULL) {
        struct writer *w = mine;

        mine = w->next_of_thread;
        end_use(w, OWNED);
    }
}

static void make_key(void)
{
    has_key = pthread_key_create(&key, leave_all) == 0;
}

/* Makes leave_all run when the calling thread ends. */
static bool will_leave(void)
{
    return pthread_once(&once, make_key) == 0 && has_key && pthread_setspecific(key, &mine) == 0;
}

/* Returns a writer whose thread has ended, which the calling thread owns now, or null. */
static struct writer *claim(struct dkap_recorder *r)
{
    struct writer *w = atomic_load_explicit(&r->writers, memory_order_acquire);
    unsigned unowned = OPEN;

    HAPPENS_AFTER(&r->writers);
    while (w != NULL && !atomic_compare_exchange_strong_explicit(&w->uses, &unowned, OPEN | OWNED, memory_order_acquire,
                                                                 memory_order_relaxed)) {
        w = w->next;
        unowned = OPEN;
    }
    if (w != NULL)
        HAPPENS_AFTER(&w->uses);
    return w;
}

/* Adds a writer to the list of the recorder. */
static dkap_status add_writer(struct dkap_recorder *r, struct writer **added)
{
    struct writer *w = aligned_alloc(LINE, sizeof *w);
    dkap_status status;

    if (w == NULL)
        return DKAP_E_OUT_OF_MEMORY;
    w->own = DKAP_CLOSED;
    status = new_histogram(r, &w->own);
    if (status != DKAP_OK) {
        free(w);
        return status;
    }
    init_slot(&w->slot, &w->own);
    atomic_init(&w->recorder, r);
    atomic_init(&w->uses, OPEN | OWNED);
    ATOMIC(w->recorder);
    ATOMIC(w->uses);
    w->next = atomic_load_explicit(&r->writers, memory_order_relaxed);
    HAPPENS_BEFORE(&r->writers);
    while (!atomic_compare_exchange_weak_explicit(&r->writers, &w->next, w, memory_order_release,
                                                  memory_order_relaxed)) {
    }
    *added = w;
    return DKAP_OK;
}

/* Finds a writer for a thread that has none. */
static dkap_status own_writer(struct dkap_recorder *r, struct writer **owned)
{
    struct writer *w = NULL;
    dkap_status status = DKAP_OK;

    leave(NULL);
    if (!will_leave())
        return DKAP_E_OUT_OF_MEMORY;
    w = claim(r);
    if (w == NULL)
        status = add_writer(r, &w);
    if (status != DKAP_OK)
        return status;
    w->next_of_thread = mine;
    mine = w;
    *owned = w;
    return DKAP_OK;
}

static dkap_status writer_of(struct dkap_recorder *r, struct writer **found)
{
    struct writer *w = mine;

    while (w != NULL && atomic_load_explicit(&w->recorder, memory_order_relaxed) != r)
        w = w->next_of_thread;
    *found = w;
    return w != NULL ? (dkap_status)DKAP_OK : own_writer(r, found);
}

static dkap_status open_with(struct dkap_recorder **opened, struct dkap_recorder with)
{
    struct dkap_recorder *r = malloc(sizeof *r);
    dkap_status status;

    if (r == NULL)
        return DKAP_E_OUT_OF_MEMORY;
    *r = with;
    atomic_init(&r->writers, NULL);
    ATOMIC(r->writers);
    r->spare = &r->own;
    status = new_histogram(r, &r->own);
    if (status == DKAP_OK)
        status = new_histogram(r, &r->interval);
    if (status == DKAP_OK && pthread_mutex_init(&r->swapping, NULL) != 0)
        status = DKAP_E_OUT_OF_MEMORY;
    if (status != DKAP_OK) {
        dkap_close(&r->own);
        dkap_close(&r->interval);
        free(r);
        return status;
    }
    *opened = r;
    return DKAP_OK;
}

dkap_status dkap_recorder_open(struct dkap_recorder **r, uint64_t low, uint64_t high, uint8_t sigfig)
{
    return open_with(r, (struct dkap_recorder){.low = low, .high = high, .sigfig = sigfig});
}

dkap_status dkap_recorder_open_auto(struct dkap_recorder **r, uint8_t sigfig)
{
    return open_with(r, (struct dkap_recorder){.sigfig = sigfig, .grows = true});
}

void dkap_recorder_close(struct dkap_recorder *r)
{
    struct writer *w, *next;

    if (r == NULL)
        return;
    leave(r);
    w = atomic_load_explicit(&r->writers, memory_order_acquire);
    HAPPENS_AFTER(&r->writers);
    for (; w != NULL; w = next) {
        next = w->next;
        dkap_close(&w->own);
        atomic_store_explicit(&w->recorder, NULL, memory_order_relaxed);
        end_use(w, OPEN);
    }
    pthread_mutex_destroy(&r->swapping);
    dkap_close(&r->own);
    dkap_close(&r->interval);
    free(r);
}

dkap_status dkap_recorder_record(struct dkap_recorder *r, uint64_t value)
{
    struct writer *w = NULL;
    dkap_status status = writer_of(r, &w);

    if (status == DKAP_OK) {
        struct dkap_histogram *h = take(&w->slot);

        status = dkap_record(h, value);
        release(&w->slot, h);
    }
    return status;
}

dkap_status dkap_recorder_record_n(struct dkap_recorder *r, uint64_t value, uint64_t count)
{
    struct writer *w = NULL;
    dkap_status status = writer_of(r, &w);

    if (status == DKAP_OK) {
        struct dkap_histogram *h = take(&w->slot);

        status = dkap_record_n(h, value, count);
        release(&w->slot, h);
    }
    return status;
}

dkap_status dkap_recorder_record_correct(struct dkap_recorder *r, uint64_t value, uint64_t count, uint64_t interval)
{
    struct writer *w = NULL;
    dkap_status status = writer_of(r, &w);

    if (status == DKAP_OK) {
        struct dkap_histogram *h = take(&w->slot);

        status = dkap_record_correct(h, value, count, interval);
        release(&w->slot, h);
    }
    return status;
}

dkap_status dkap_recorder_record_saturating(struct dkap_recorder *r, uint64_t value, uint64_t count)
{
    struct writer *w = NULL;
    dkap_status status = writer_of(r, &w);

    if (status == DKAP_OK) {
        struct dkap_histogram *h = take(&w->slot);

        status = dkap_record_saturating(h, value, count);
        release(&w->slot, h);
    }
    return status;
}

dkap_status dkap_recorder_record_all(struct dkap_recorder *restrict r, const uint64_t *restrict values, size_t length,
                                     size_t *restrict done)
{
    struct writer *w = NULL;
    dkap_status status = writer_of(r, &w);

    *done = 0;
    while (status == DKAP_OK && *done < length) {
        struct dkap_histogram *h = take(&w->slot);
        size_t rest = length - *done, recorded = 0;

        status = dkap_record_all(h, values + *done, rest < PIECE ? rest : PIECE, &recorded);
        release(&w->slot, h);
        *done += recorded;
    }
    return status;
}

/* Adds `spare` to the interval, and empties it. */
static dkap_status add_spare(struct dkap_recorder *r)
{
    dkap_status status;

    if (dkap_len(r->spare) == 0)
        return DKAP_OK;
    status = dkap_add(&r->interval, r->spare);
    return status == DKAP_OK ? dkap_reset(r->spare) : status;
}

/* Adds the samples of all writers to the interval. */
static dkap_status gather(struct dkap_recorder *r)
{
    dkap_status status = add_spare(r);
    struct writer *w = atomic_load_explicit(&r->writers, memory_order_acquire);

    HAPPENS_AFTER(&r->writers);
    while (status == DKAP_OK && w != NULL) {
        r->spare = exchange(&w->slot, r->spare);
        status = add_spare(r);
        w = w->next;
    }
    return status;
}

dkap_status dkap_recorder_swap(struct dkap_recorder *restrict r, struct dkap_histogram *restrict h)
{
    dkap_status status;

    pthread_mutex_lock(&r->swapping);
    status = gather(r);
    if (status == DKAP_OK)
        status = dkap_add(h, &r->interval);
    if (status == DKAP_OK)
        status = dkap_reset(&r->interval);
    pthread_mutex_unlock(&r->swapping);
    return status;
}
