/*
 * The tests of DKAP_CHECK: null pointers and overlaps are errors, a second use of a handle ends the program, and other
 * calls work as without it.
 */
#define _GNU_SOURCE
#define DKAP_CHECK
#include <pthread.h>
#include <sys/wait.h>
#include <unistd.h>

#include "check.h"

/* Not constants, so that no compiler sees which pointers are null. */
static struct dkap_histogram *volatile no_handle = NULL;
static void *volatile none = NULL;

static void null_pointers(struct dkap_histogram *h)
{
    struct dkap_fraction fraction;
    uint64_t value = 1;
    uint8_t bytes[8] = {0};
    size_t length = 0;

    CHECK(dkap_init(no_handle, 1, 10, 3) == DKAP_E_INVALID_ARGUMENT);
    CHECK(dkap_init_auto(no_handle, 3) == DKAP_E_INVALID_ARGUMENT);
    dkap_close(no_handle);
    CHECK(dkap_auto_resize(no_handle, true) == DKAP_E_INVALID_ARGUMENT);
    CHECK(dkap_reset(no_handle) == DKAP_E_INVALID_ARGUMENT);
    CHECK(dkap_clear(no_handle) == DKAP_E_INVALID_ARGUMENT && dkap_record(no_handle, 1) == DKAP_E_INVALID_ARGUMENT);
    CHECK(dkap_record_n(no_handle, 1, 1) == DKAP_E_INVALID_ARGUMENT);
    CHECK(dkap_record_correct(no_handle, 1, 1, 1) == DKAP_E_INVALID_ARGUMENT);
    CHECK(dkap_record_saturating(no_handle, 1, 1) == DKAP_E_INVALID_ARGUMENT);
    CHECK(dkap_record_all(h, none, 0, &length) == DKAP_E_INVALID_ARGUMENT);
    CHECK(dkap_record_all(h, &value, 1, none) == DKAP_E_INVALID_ARGUMENT);
    CHECK(dkap_copy(h, no_handle) == DKAP_E_INVALID_ARGUMENT && dkap_copy(no_handle, h) == DKAP_E_INVALID_ARGUMENT);
    CHECK(dkap_add(h, no_handle) == DKAP_E_INVALID_ARGUMENT);
    CHECK(dkap_add_correct(no_handle, h, 1) == DKAP_E_INVALID_ARGUMENT);
    CHECK(dkap_subtract(h, no_handle) == DKAP_E_INVALID_ARGUMENT && !dkap_equal(h, no_handle));
    CHECK(dkap_len(no_handle) == 0 && dkap_min(no_handle) == 0 && dkap_min_nz(no_handle) == 0);
    CHECK(dkap_max(no_handle) == 0);
    CHECK(dkap_count_at(no_handle, 1) == 0 && dkap_count_between(no_handle, 1, 2) == 0);
    CHECK(dkap_mean(h, none) == DKAP_E_INVALID_ARGUMENT && dkap_mean(no_handle, &fraction) == DKAP_E_INVALID_ARGUMENT);
    CHECK(dkap_value_at_quantile(h, 1, 2, none) == DKAP_E_INVALID_ARGUMENT);
    CHECK(dkap_quantile_below(h, 1, none) == DKAP_E_INVALID_ARGUMENT);
    CHECK(dkap_shape_of(h, none) == DKAP_E_INVALID_ARGUMENT);
    CHECK(!dkap_next_class(h, none));
    CHECK(dkap_encode(h, none, 0, &length) == DKAP_E_INVALID_ARGUMENT);
    CHECK(dkap_encode(h, bytes, 8, none) == DKAP_E_INVALID_ARGUMENT);
    CHECK(dkap_decode(h, none, 0, DKAP_NO_LIMIT, &length) == DKAP_E_INVALID_ARGUMENT);
    CHECK(dkap_decode(h, bytes, 8, DKAP_NO_LIMIT, none) == DKAP_E_INVALID_ARGUMENT);
}

static void overlaps(struct dkap_histogram *h)
{
    union {
        size_t length;
        uint64_t values[4];
        uint8_t bytes[32];
    } memory = {0};
    size_t done = 0;

    CHECK(dkap_record_all(h, memory.values, 4, &memory.length) == DKAP_E_INVALID_ARGUMENT);
    CHECK(dkap_record_all(h, memory.values, SIZE_MAX, &done) == DKAP_E_INVALID_ARGUMENT);
    CHECK(dkap_record_all(h, memory.values, SIZE_MAX / 8, &done) == DKAP_E_INVALID_ARGUMENT);
    CHECK(dkap_encode(h, memory.bytes, 32, &memory.length) == DKAP_E_INVALID_ARGUMENT);
    CHECK(dkap_encode(h, (uint8_t *)h, sizeof *h, &done) == DKAP_E_INVALID_ARGUMENT);
    CHECK(dkap_decode(h, memory.bytes, 32, DKAP_NO_LIMIT, &memory.length) == DKAP_E_INVALID_ARGUMENT);
    CHECK(dkap_value_at_quantile(h, 1, 2, (uint64_t *)(void *)h) == DKAP_E_INVALID_ARGUMENT);
    CHECK(dkap_add(h, h) == DKAP_E_SAME_HANDLE && dkap_equal(h, h));
    CHECK(dkap_add(h, (struct dkap_histogram *)(void *)((char *)h + 8)) == DKAP_E_INVALID_ARGUMENT);
}

/* Whether the program ends with a message if a use of a handle begins while others are not over. */
static bool ends(const struct dkap_histogram *h, bool first_writes, bool second_writes)
{
    char text[128] = {0};
    int pipes[2], status = 0;
    pid_t child;

    CHECK(pipe(pipes) == 0);
    child = fork();
    if (child == 0) {
        dup2(pipes[1], STDERR_FILENO);
        dkap_check_begin(h, first_writes, "one");
        dkap_check_begin(h, second_writes, "other");
        _exit(0);
    }
    close(pipes[1]);
    CHECK(waitpid(child, &status, 0) == child);
    CHECK(read(pipes[0], text, sizeof text - 1) >= 0);
    close(pipes[0]);
    if (!WIFSIGNALED(status))
        return text[0] != '\0';
    CHECK(WTERMSIG(status) == SIGABRT);
    return strcmp(text, "other: another call uses the handle, and one of the two changes it\n") == 0;
}

static void *read_over(void *h)
{
    int i;

    for (i = 0; i < 100000; i++)
        CHECK(dkap_len(h) == 3);
    return NULL;
}

static void uses(struct dkap_histogram *h)
{
    pthread_t other;

    CHECK(ends(h, true, true) && ends(h, true, false) && ends(h, false, true) && !ends(h, false, false));
    CHECK(pthread_create(&other, NULL, read_over, h) == 0);
    read_over(h);
    CHECK(pthread_join(other, NULL) == 0);
    CHECK(dkap_record(h, 3) == DKAP_OK && dkap_len(h) == 4);
}

int main(void)
{
    struct dkap_histogram h = DKAP_CLOSED;
    uint64_t values[] = {4, 5}, value = 0;
    size_t done = 0;

    CHECK(dkap_init(&h, 1, 1000, 3) == DKAP_OK && dkap_record(&h, 3) == DKAP_OK);
    null_pointers(&h);
    overlaps(&h);
    CHECK(dkap_record_all(&h, values, 2, &done) == DKAP_OK && done == 2 && dkap_len(&h) == 3);
    CHECK(dkap_value_at_quantile(&h, 1, 2, &value) == DKAP_OK && value == 4);
    uses(&h);
    dkap_close(&h);
    return checked();
}
