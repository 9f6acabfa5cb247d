/*
 * Four threads that record how long they waited, and the main one, which prints the 99th percentile of each interval.
 *     cc -std=c11 recorder.c $(pkg-config --cflags --libs dkap_recorder) -o recorder
 */
#define _POSIX_C_SOURCE 200809L
#include <dkap_recorder.h>
#include <inttypes.h>
#include <pthread.h>
#include <stdio.h>
#include <time.h>

enum { THREADS = 4, RUNS = 100, INTERVALS = 5 };

static uint64_t now(void)
{
    struct timespec t;

    clock_gettime(CLOCK_MONOTONIC, &t);
    return (uint64_t)t.tv_sec * 1000000 + (uint64_t)t.tv_nsec / 1000;
}

static void pause_for(long microseconds)
{
    struct timespec t = {0, microseconds * 1000};

    nanosleep(&t, NULL);
}

static void *work(void *recorder)
{
    dkap_status status = DKAP_OK;
    int run;

    for (run = 0; run < RUNS && status == DKAP_OK; run++) {
        uint64_t start = now();

        pause_for(1000);
        status = dkap_recorder_record(recorder, now() - start);
    }
    if (status != DKAP_OK)
        fprintf(stderr, "recorder: %s\n", dkap_strerror(status));
    return NULL;
}

/* Adds an interval to the total, and prints both. */
static dkap_status print_interval(struct dkap_recorder *r, struct dkap_histogram *interval, struct dkap_histogram *total)
{
    uint64_t p99 = 0;
    dkap_status status = dkap_reset(interval);

    if (status == DKAP_OK)
        status = dkap_recorder_swap(r, interval);
    if (status == DKAP_OK)
        status = dkap_add(total, interval);
    if (status == DKAP_OK)
        status = dkap_value_at_quantile(interval, 99, 100, &p99);
    if (status == DKAP_OK)
        printf("%" PRIu64 " samples, p99 %" PRIu64 ", %" PRIu64 " in all\n", dkap_len(interval), p99, dkap_len(total));
    return status;
}

static dkap_status run(struct dkap_recorder *r, struct dkap_histogram *interval, struct dkap_histogram *total)
{
    pthread_t ids[THREADS];
    dkap_status status = DKAP_OK;
    int i, started = 0;

    while (started < THREADS && pthread_create(&ids[started], NULL, work, r) == 0)
        started++;
    for (i = 0; i < INTERVALS && status == DKAP_OK; i++) {
        pause_for(20000);
        status = print_interval(r, interval, total);
    }
    for (i = 0; i < started; i++)
        pthread_join(ids[i], NULL);
    return status == DKAP_OK ? print_interval(r, interval, total) : status;
}

int main(void)
{
    struct dkap_histogram interval = DKAP_CLOSED, total = DKAP_CLOSED;
    struct dkap_recorder *r = NULL;
    dkap_status status = dkap_recorder_open(&r, 1, 3600000000, 3);

    if (status == DKAP_OK)
        status = dkap_init(&interval, 1, 3600000000, 3);
    if (status == DKAP_OK)
        status = dkap_copy(&total, &interval);
    if (status == DKAP_OK)
        status = run(r, &interval, &total);
    if (status != DKAP_OK)
        fprintf(stderr, "recorder: %s\n", dkap_strerror(status));
    dkap_recorder_close(r);
    dkap_close(&interval);
    dkap_close(&total);
    return status != DKAP_OK;
}
