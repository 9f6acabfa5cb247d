/*
 * Times a function that should run every 2 ms, and prints quantiles in microseconds. The second line includes the runs
 * that are missing since one run was slow (coordinated omission).
 *     cc -std=c99 timing.c $(pkg-config --cflags --libs dkap) -o timing
 */
#define _POSIX_C_SOURCE 200809L
#include <dkap.h>
#include <inttypes.h>
#include <stdio.h>
#include <time.h>

enum { RUNS = 200, INTERVAL = 2000 };

static uint64_t now(void)
{
    struct timespec t;

    clock_gettime(CLOCK_MONOTONIC, &t);
    return (uint64_t)t.tv_sec * 1000000 + (uint64_t)t.tv_nsec / 1000;
}

static void pause_for(uint64_t microseconds)
{
    struct timespec t = {0, (long)microseconds * 1000};

    nanosleep(&t, NULL);
}

/* The function that is timed: it takes 100 microseconds, and once 100 ms. */
static void run(int number)
{
    pause_for(number == 60 ? 100000 : 100);
}

static dkap_status print(const char *name, const struct dkap_histogram *h)
{
    static const uint64_t percentiles[] = {50, 90, 99, 100};
    size_t i;

    printf("%s: %" PRIu64 " samples", name, dkap_len(h));
    for (i = 0; i < sizeof percentiles / sizeof percentiles[0]; i++) {
        uint64_t value = 0;
        dkap_status status = dkap_value_at_quantile(h, percentiles[i], 100, &value);

        if (status != DKAP_OK)
            return status;
        printf(", p%" PRIu64 " %" PRIu64, percentiles[i], value);
    }
    printf("\n");
    return DKAP_OK;
}

int main(void)
{
    struct dkap_histogram measured = DKAP_CLOSED, corrected = DKAP_CLOSED;
    dkap_status status = dkap_init(&measured, 1, 3600000000, 3);
    int number;

    if (status == DKAP_OK)
        status = dkap_copy(&corrected, &measured);
    for (number = 0; number < RUNS && status == DKAP_OK; number++) {
        uint64_t start = now(), duration;

        run(number);
        duration = now() - start;
        status = dkap_record(&measured, duration);
        if (status == DKAP_OK)
            status = dkap_record_correct(&corrected, duration, 1, INTERVAL);
        if (duration < INTERVAL)
            pause_for(INTERVAL - duration);
    }
    if (status == DKAP_OK)
        status = print("measured", &measured);
    if (status == DKAP_OK)
        status = print("corrected", &corrected);
    if (status != DKAP_OK)
        fprintf(stderr, "timing: %s\n", dkap_strerror(status));
    dkap_close(&measured);
    dkap_close(&corrected);
    return status != DKAP_OK;
}
