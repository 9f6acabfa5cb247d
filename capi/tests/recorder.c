/*
 * The recorder: threads that record while the samples are swapped each millisecond. Each sample is in exactly one
 * interval. There are RECORDS in all, and ROUNDS times 4 threads that end.
 * usage: recorder RECORDS ROUNDS
 */
#define _POSIX_C_SOURCE 200809L
#include "recorder.h"

#include <pthread.h>
#include <stdatomic.h>
#include <time.h>

#include "check.h"
#include "recorder_slot.h"

enum { THREADS = 8, VALUES = 1000, MANY = 2500 };

static const uint64_t HIGH = UINT64_C(1) << 16, WIDE = UINT64_C(1) << 40;

struct job {
    struct dkap_recorder *r;
    uint64_t records, first;
    atomic_uint *running;
};

/* Records VALUES values from `first` on, over and over. */
static void *work(void *argument)
{
    struct job *job = argument;
    uint64_t i;

    for (i = 0; i < job->records; i++)
        CHECK(dkap_recorder_record(job->r, job->first + i % VALUES) == DKAP_OK);
    atomic_fetch_sub(job->running, 1);
    return NULL;
}

static void pause_for_a_millisecond(void)
{
    struct timespec t = {0, 1000000};

    nanosleep(&t, NULL);
}

/* Adds the intervals up to the end of the jobs, and the rest. Returns their number. */
static uint64_t swap_until_done(struct dkap_recorder *r, struct dkap_histogram *sum, atomic_uint *running)
{
    struct dkap_histogram interval = DKAP_CLOSED;
    uint64_t swaps = 0;
    bool done;

    CHECK(dkap_init(&interval, 1, HIGH, 3) == DKAP_OK);
    do {
        pause_for_a_millisecond();
        done = atomic_load(running) == 0;
        CHECK(dkap_recorder_swap(r, &interval) == DKAP_OK);
        CHECK(dkap_add(sum, &interval) == DKAP_OK && dkap_reset(&interval) == DKAP_OK);
        swaps++;
    } while (!done);
    dkap_close(&interval);
    return swaps;
}

/* What the threads record, in one histogram. */
static void expect(struct dkap_histogram *expected, uint64_t records, int threads)
{
    uint64_t thread, value;

    CHECK(dkap_init(expected, 1, HIGH, 3) == DKAP_OK);
    for (thread = 0; thread < (uint64_t)threads; thread++)
        for (value = 0; value < VALUES && value < records; value++)
            CHECK(dkap_record_n(expected, thread * VALUES + value, (records - value + VALUES - 1) / VALUES) == DKAP_OK);
}

static void none_is_lost(uint64_t records)
{
    struct dkap_histogram sum = DKAP_CLOSED, expected = DKAP_CLOSED;
    struct dkap_recorder *r = NULL;
    struct job jobs[THREADS];
    pthread_t ids[THREADS];
    atomic_uint running = THREADS;
    uint64_t i, swaps;

    ATOMIC(running);
    expect(&expected, records / THREADS, THREADS);
    CHECK(dkap_init(&sum, 1, HIGH, 3) == DKAP_OK && dkap_recorder_open(&r, 1, HIGH, 3) == DKAP_OK);
    for (i = 0; i < THREADS; i++) {
        jobs[i] = (struct job){r, records / THREADS, i * VALUES, &running};
        CHECK(pthread_create(&ids[i], NULL, work, &jobs[i]) == 0);
    }
    swaps = swap_until_done(r, &sum, &running);
    for (i = 0; i < THREADS; i++)
        CHECK(pthread_join(ids[i], NULL) == 0);
    CHECK(dkap_len(&sum) == records / THREADS * THREADS && dkap_equal(&sum, &expected));
    printf("%" PRIu64 " records, %" PRIu64 " swaps\n", dkap_len(&sum), swaps);
    dkap_recorder_close(r);
    dkap_close(&sum);
    dkap_close(&expected);
}

struct starter {
    struct dkap_recorder *r;
    uint64_t rounds, first;
    atomic_uint *running;
};

/* Starts threads that record VALUES values each and end, one after another. */
static void *start(void *argument)
{
    struct starter *starter = argument;
    atomic_uint unused = UINT32_MAX;
    uint64_t round;

    for (round = 0; round < starter->rounds; round++) {
        struct job job = {starter->r, VALUES, starter->first, &unused};
        pthread_t id;

        CHECK(pthread_create(&id, NULL, work, &job) == 0);
        CHECK(pthread_join(id, NULL) == 0);
    }
    atomic_fetch_sub(starter->running, 1);
    return NULL;
}

static void threads_end(uint64_t rounds)
{
    struct dkap_histogram sum = DKAP_CLOSED, expected = DKAP_CLOSED;
    struct dkap_recorder *r = NULL;
    struct starter starters[4];
    pthread_t ids[4];
    atomic_uint running = 4;
    uint64_t i;

    ATOMIC(running);
    expect(&expected, rounds * VALUES, 4);
    CHECK(dkap_init(&sum, 1, HIGH, 3) == DKAP_OK && dkap_recorder_open_auto(&r, 3) == DKAP_OK);
    for (i = 0; i < 4; i++) {
        starters[i] = (struct starter){r, rounds, i * VALUES, &running};
        CHECK(pthread_create(&ids[i], NULL, start, &starters[i]) == 0);
    }
    swap_until_done(r, &sum, &running);
    for (i = 0; i < 4; i++)
        CHECK(pthread_join(ids[i], NULL) == 0);
    CHECK(dkap_equal(&sum, &expected));
    dkap_recorder_close(r);
    dkap_close(&sum);
    dkap_close(&expected);
}

/* The thread of a job ends, or waits, after its recorder has been closed. */
static void *outlive(void *argument)
{
    struct job *job = argument;

    CHECK(dkap_recorder_record(job->r, job->first) == DKAP_OK);
    HAPPENS_BEFORE(job->running);
    atomic_fetch_sub(job->running, 1);
    while (atomic_load(job->running) != UINT32_MAX)
        pause_for_a_millisecond();
    return NULL;
}

static void closed_before_threads_end(void)
{
    atomic_uint running = 2;
    struct dkap_recorder *r = NULL, *other = NULL;
    struct job job;
    pthread_t ids[2];
    int i;

    ATOMIC(running);
    CHECK(dkap_recorder_open(&r, 1, HIGH, 2) == DKAP_OK);
    job = (struct job){r, 1, 7, &running};
    for (i = 0; i < 2; i++)
        CHECK(pthread_create(&ids[i], NULL, outlive, &job) == 0);
    while (atomic_load(&running) != 0)
        pause_for_a_millisecond();
    HAPPENS_AFTER(&running);
    CHECK(dkap_recorder_record(r, 8) == DKAP_OK);
    dkap_recorder_close(r);
    CHECK(dkap_recorder_open(&other, 1, HIGH, 2) == DKAP_OK);
    CHECK(dkap_recorder_record(other, 9) == DKAP_OK);
    atomic_store(&running, UINT32_MAX);
    for (i = 0; i < 2; i++)
        CHECK(pthread_join(ids[i], NULL) == 0);
    dkap_recorder_close(other);
    dkap_recorder_close(NULL);
}

/* After an error of a swap the samples are in the next interval. */
static void errors_of_swaps(void)
{
    struct dkap_histogram h = DKAP_CLOSED;
    struct dkap_recorder *r = NULL;
    uint64_t value = 0;

    CHECK(dkap_recorder_open(&r, 0, 10, 3) == DKAP_E_LOW_IS_ZERO);
    CHECK(dkap_recorder_open(&r, 10, 19, 3) == DKAP_E_HIGH_LESS_THAN_TWICE_LOW);
    CHECK(dkap_recorder_open_auto(&r, 6) == DKAP_E_SIGFIG_EXCEEDS_MAX && r == NULL);
    CHECK(dkap_recorder_open_auto(&r, 3) == DKAP_OK);
    CHECK(dkap_recorder_record(r, 123456) == DKAP_OK);
    CHECK(dkap_recorder_swap(r, &h) == DKAP_E_CLOSED);
    CHECK(dkap_init(&h, 1, 1000, 3) == DKAP_OK);
    CHECK(dkap_recorder_record_n(r, 7, 4) == DKAP_OK);
    CHECK(dkap_recorder_swap(r, &h) == DKAP_E_OUT_OF_RANGE && dkap_len(&h) == 0);
    CHECK(dkap_auto_resize(&h, true) == DKAP_OK);
    CHECK(dkap_recorder_swap(r, &h) == DKAP_OK && dkap_len(&h) == 5);
    CHECK(dkap_count_at(&h, 7) == 4 && dkap_count_at(&h, 123456) == 1);
    CHECK(dkap_recorder_swap(r, &h) == DKAP_OK && dkap_len(&h) == 5);
    CHECK(dkap_value_at_quantile(&h, 1, 2, &value) == DKAP_OK && value == 7);
    dkap_recorder_close(r);
    dkap_close(&h);
}

/* Each recording call does what that of its name in dkap.h does. */
static void calls(void)
{
    struct dkap_histogram h = DKAP_CLOSED, same = DKAP_CLOSED;
    struct dkap_recorder *r = NULL;
    uint64_t values[MANY];
    size_t i, done = 1, expected = 0;

    for (i = 0; i < MANY; i++)
        values[i] = i == 2200 ? WIDE * 4 : i * i;
    CHECK(dkap_init(&h, 1, WIDE, 3) == DKAP_OK && dkap_init(&same, 1, WIDE, 3) == DKAP_OK);
    CHECK(dkap_recorder_open(&r, 1, WIDE, 3) == DKAP_OK);
    CHECK(dkap_recorder_record(r, WIDE * 4) == DKAP_E_OUT_OF_RANGE);
    CHECK(dkap_recorder_record_correct(r, 5000, 2, 1000) == DKAP_OK);
    CHECK(dkap_record_correct(&same, 5000, 2, 1000) == DKAP_OK);
    CHECK(dkap_recorder_record_saturating(r, WIDE * 4, 3) == DKAP_OK);
    CHECK(dkap_record_saturating(&same, WIDE * 4, 3) == DKAP_OK);
    CHECK(dkap_recorder_record_all(r, values, 0, &done) == DKAP_OK && done == 0);
    CHECK(dkap_recorder_record_all(r, values, MANY, &done) == DKAP_E_OUT_OF_RANGE && done == 2200);
    CHECK(dkap_recorder_record_all(r, values + 2201, 299, &done) == DKAP_OK && done == 299);
    CHECK(dkap_record_all(&same, values, 2200, &expected) == DKAP_OK);
    CHECK(dkap_record_all(&same, values + 2201, 299, &expected) == DKAP_OK);
    CHECK(dkap_recorder_swap(r, &h) == DKAP_OK);
    CHECK(dkap_len(&h) == 2499 + 10 + 3 && dkap_equal(&h, &same));
    dkap_recorder_close(r);
    dkap_close(&h);
    dkap_close(&same);
}

int main(int argc, char **argv)
{
    uint64_t records = argc > 1 ? strtoull(argv[1], NULL, 10) : 1000000;
    uint64_t rounds = argc > 2 ? strtoull(argv[2], NULL, 10) : 100;

    errors_of_swaps();
    calls();
    closed_before_threads_end();
    threads_end(rounds);
    none_is_lost(records);
    return checked();
}
