/*
 * The calls of dkap.h that are written in C: those that test two handles for being one, the texts of statuses, the
 * version, and the uses of handles for DKAP_CHECK. The calls named .._distinct are proved for two handles, and are not
 * visible outside of the library.
 */
#include "dkap.h"

#include <stdio.h>
#include <stdlib.h>

#ifndef DKAP_VERSION
#error "DKAP_VERSION is the version of the crates, as a string; build.sh defines it"
#endif

dkap_status dkap_copy_distinct(struct dkap_histogram *h, const struct dkap_histogram *source);
dkap_status dkap_add_distinct(struct dkap_histogram *h, const struct dkap_histogram *source);
dkap_status dkap_add_correct_distinct(struct dkap_histogram *h, const struct dkap_histogram *source, uint64_t interval);
dkap_status dkap_subtract_distinct(struct dkap_histogram *h, const struct dkap_histogram *other);
bool dkap_equal_distinct(const struct dkap_histogram *h, const struct dkap_histogram *other);

static const char *const TEXTS[] = {
    [DKAP_OK] = "success",
    [DKAP_E_CLOSED] = "the handle is closed",
    [DKAP_E_OUT_OF_MEMORY] = "out of memory",
    [DKAP_E_OUT_OF_RANGE] = "a value is out of range, and the histogram does not grow",
    [DKAP_E_LOW_IS_ZERO] = "the lowest value is 0",
    [DKAP_E_LOW_EXCEEDS_MAX] = "the lowest value exceeds half of the greatest 64-bit integer",
    [DKAP_E_HIGH_LESS_THAN_TWICE_LOW] = "the highest value is less than twice the lowest",
    [DKAP_E_SIGFIG_EXCEEDS_MAX] = "the number of significant digits exceeds 5",
    [DKAP_E_SIGFIG_BEYOND_LOW] = "the lowest value is too great for this number of significant digits",
    [DKAP_E_COUNT_TOO_GREAT] = "a count is out of range",
    [DKAP_E_COUNT_NOT_SERIALIZABLE] = "a count is 2^63 or more, which V2 bytes cannot hold",
    [DKAP_E_BUFFER_TOO_SMALL] = "the buffer is too small",
    [DKAP_E_ZERO_DENOMINATOR] = "the denominator of the quantile is 0",
    [DKAP_E_TOO_MANY_SAMPLES] = "the number of samples has saturated",
    [DKAP_E_BYTES_END_EARLY] = "the input ends within the histogram",
    [DKAP_E_INVALID_COOKIE] = "the input is not a histogram",
    [DKAP_E_UNSUPPORTED_FEATURE] = "the encoded histogram is shifted, scaled, or one of floating-point values",
    [DKAP_E_INVALID_PARAMETERS] = "the encoded bounds or digits are invalid",
    [DKAP_E_ENCODED_ARRAY_TOO_LONG] = "an encoded count has no bin",
    [DKAP_E_USIZE_TOO_SMALL] = "the encoded counts have too many bins",
    [DKAP_E_SAME_HANDLE] = "both arguments are one handle",
    [DKAP_E_TIME_OUT_OF_RANGE] = "the start or the duration is out of range",
    [DKAP_E_INVALID_TAG] = "the tag is not UTF-8, or has a comma, a space or a line break",
    [DKAP_LOG_END] = "the log has no further interval",
    [DKAP_E_INVALID_LINE] = "a line of the log is invalid",
    [DKAP_E_NOT_BASE64] = "the histogram of the line is not Base64",
    [DKAP_E_INVALID_ARGUMENT] = "a pointer is null, or two pointers overlap",
    [DKAP_E_TOO_MANY_BINS] = "the encoded histogram has more bins than the limit",
    [DKAP_E_INVALID_STREAM] = "the compressed bytes are not a complete zlib stream",
    [DKAP_E_NOT_UTF8] = "the comment is not UTF-8",
    [DKAP_E_INVALID_STEP] = "a step, a start or a number of ticks is 0, or a base is less than 2",
};

const char *dkap_strerror(dkap_status status)
{
    return status < sizeof TEXTS / sizeof TEXTS[0] ? TEXTS[status] : "unknown status";
}

const char *dkap_version(void)
{
    return DKAP_VERSION;
}

dkap_status dkap_copy(struct dkap_histogram *h, const struct dkap_histogram *source)
{
    return h == source ? (dkap_status)DKAP_E_SAME_HANDLE : dkap_copy_distinct(h, source);
}

dkap_status dkap_add(struct dkap_histogram *h, const struct dkap_histogram *source)
{
    return h == source ? (dkap_status)DKAP_E_SAME_HANDLE : dkap_add_distinct(h, source);
}

dkap_status dkap_add_correct(struct dkap_histogram *h, const struct dkap_histogram *source, uint64_t interval)
{
    return h == source ? (dkap_status)DKAP_E_SAME_HANDLE : dkap_add_correct_distinct(h, source, interval);
}

dkap_status dkap_subtract(struct dkap_histogram *h, const struct dkap_histogram *other)
{
    return h == other ? (dkap_status)DKAP_E_SAME_HANDLE : dkap_subtract_distinct(h, other);
}

bool dkap_equal(const struct dkap_histogram *h, const struct dkap_histogram *other)
{
    return h == other ? h->filled_ : dkap_equal_distinct(h, other);
}

/* The handles that calls with DKAP_CHECK use now, below a lock. No more than USES are known at once. */
enum { USES = 1024 };

static struct use {
    const struct dkap_histogram *h;
    size_t calls;
    bool writes;
} uses[USES];
static size_t used = 0;
static bool uses_locked = false;

static void lock_uses(void)
{
    while (__atomic_test_and_set(&uses_locked, __ATOMIC_ACQUIRE)) {
    }
}

static void unlock_uses(void)
{
    __atomic_clear(&uses_locked, __ATOMIC_RELEASE);
}

/* Returns the index of the handle in use, or the number of them if it is not in use. */
static size_t find_use(const struct dkap_histogram *h)
{
    size_t at = 0;

    while (at < used && uses[at].h != h)
        at++;
    return at;
}

void dkap_check_begin(const struct dkap_histogram *h, bool writes, const char *name)
{
    size_t at;
    bool excluded;

    lock_uses();
    at = find_use(h);
    excluded = at < used && (writes || uses[at].writes);
    if (at < used)
        uses[at].calls++;
    else if (used < USES)
        uses[used++] = (struct use){h, 1, writes};
    unlock_uses();
    if (excluded) {
        fprintf(stderr, "%s: another call uses the handle, and one of the two changes it\n", name);
        abort();
    }
}

void dkap_check_end(const struct dkap_histogram *h, bool writes)
{
    size_t at;

    lock_uses();
    at = find_use(h);
    if (at < used && uses[at].writes == writes && --uses[at].calls == 0)
        uses[at] = uses[--used];
    unlock_uses();
}
