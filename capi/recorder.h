/*
 * A recorder: threads record at once without a lock, and any thread takes what was recorded so far, as an interval,
 * without stopping them. Each thread has a histogram of its own. The installed header is <dkap_recorder.h>.
 *
 *     struct dkap_recorder *r = NULL;
 *     dkap_status status = dkap_recorder_open(&r, 1, 3600000000, 3);
 *
 *     status = dkap_recorder_record(r, 1190);      // in any thread
 *
 *     struct dkap_histogram h = DKAP_CLOSED;       // in another, every second
 *     status = dkap_init_auto(&h, 3);
 *     status = dkap_recorder_swap(r, &h);          // h has the samples since the last swap
 *
 * This part is written in C, and tested: it is not proved. The histograms, and each call that changes one, are those of
 * dkap.h, which are proved for a caller that uses a histogram alone. That the recorder is such a caller is tested only.
 *
 * The rules of dkap.h for pointers hold here too. In addition:
 *
 *   - All calls but those that open and close a recorder may be made at once, by any number of threads.
 *   - A thread that ends leaves its samples. The next new thread goes on with its histogram.
 *   - Close a recorder once, when no thread makes a call with it. Threads that have recorded may go on, and end later.
 *   - Make no call in a signal handler, nor in the forked child of a process that has threads. dkap_recorder_swap waits
 *     for each thread that is within a recording call: in the child such a thread never returns from that.
 */
#ifndef DKAP_RECORDER_H
#define DKAP_RECORDER_H

#include "dkap.h"

#ifdef __cplusplus
extern "C" {
#endif

struct dkap_recorder;

/*
 * Opens a recorder whose histograms have these bounds and digits, as those of dkap_init, and do not grow. `r` is
 * unchanged on error. Errors: 2, 4 to 8.
 */
dkap_status dkap_recorder_open(struct dkap_recorder **r, uint64_t low, uint64_t high, uint8_t sigfig) DKAP_MUST_USE;

/* Opens a recorder whose histograms grow, as those of dkap_init_auto. Errors: 2, 7. */
dkap_status dkap_recorder_open_auto(struct dkap_recorder **r, uint8_t sigfig) DKAP_MUST_USE;

/* Frees a recorder with its samples. A null pointer is valid here, and nothing is done. */
void dkap_recorder_close(struct dkap_recorder *r);

/*
 * The calls that record are those of dkap.h, on the histogram of the calling thread. They wait for no other thread. The
 * first call of a thread allocates its histogram, and nothing is recorded if that fails.
 */

/* Records `value` once. Errors: 2, 3. */
dkap_status dkap_recorder_record(struct dkap_recorder *r, uint64_t value) DKAP_MUST_USE;

/* Records `value` `count` times. Errors: 2, 3. */
dkap_status dkap_recorder_record_n(struct dkap_recorder *r, uint64_t value, uint64_t count) DKAP_MUST_USE;

/* Records `value` `count` times, and the missing samples for an expected interval (dkap_record_correct). Errors: 2, 3. */
dkap_status dkap_recorder_record_correct(struct dkap_recorder *r, uint64_t value, uint64_t count, uint64_t interval)
                                         DKAP_MUST_USE;

/* Records `value` `count` times, or `high` if `value` has no bin (dkap_record_saturating). Error: 2. */
dkap_status dkap_recorder_record_saturating(struct dkap_recorder *r, uint64_t value, uint64_t count) DKAP_MUST_USE;

/*
 * Records `length` values, each once, up to the first error. `done` is the number recorded. An interval may end between
 * two of them. Errors: 2, 3.
 */
dkap_status dkap_recorder_record_all(struct dkap_recorder *DKAP_RESTRICT r, const uint64_t *DKAP_RESTRICT values,
                                     size_t length, size_t *DKAP_RESTRICT done) DKAP_MUST_USE;

/*
 * Adds all samples since the last swap to `h`, and removes them from the recorder: each sample is in exactly one
 * interval. A sample is in this one if the call that recorded it returned before. On error `h` is unchanged, and the
 * samples remain for the next swap. Swaps of several threads exclude one another. Errors: 1, 2, 3.
 */
dkap_status dkap_recorder_swap(struct dkap_recorder *DKAP_RESTRICT r, struct dkap_histogram *DKAP_RESTRICT h)
                               DKAP_MUST_USE;

#ifdef __cplusplus
}
#endif

#endif
