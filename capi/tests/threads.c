/*
 * Threads that only read one histogram at once, each READS times: each result is that of one thread. Then the handle and
 * all memory of the histogram are read-only while each call with a const handle is made, so that a write would end the
 * program. usage: threads READS
 */
#define _GNU_SOURCE
#include <pthread.h>
#include <sys/mman.h>

#include "check.h"

enum { SAMPLES = 10000, ARENA = 1 << 24 };

/* What a reader finds, in numbers. */
struct found {
    uint64_t len, min, min_nz, max, p50, p99, at, between, sum, below, bins, values[3];
    size_t needed, packed, line, steps;
    bool equal;
};

static struct found read_all(const struct dkap_histogram *h, const struct dkap_histogram *same)
{
    struct found f = {0};
    struct dkap_class c = {0};
    struct dkap_fraction fraction;
    static const uint64_t nums[] = {90, 50, 99};
    uint64_t counts[3];
    struct dkap_shape shape;
    uint8_t buf[16], line[16];

    f.len = dkap_len(h);
    f.min = dkap_min(h);
    f.min_nz = dkap_min_nz(h);
    f.max = dkap_max(h);
    CHECK(dkap_value_at_quantile(h, 1, 2, &f.p50) == DKAP_OK && dkap_value_at_quantile(h, 99, 100, &f.p99) == DKAP_OK);
    f.at = dkap_count_at(h, 77);
    f.between = dkap_count_between(h, 50, 900);
    CHECK(dkap_mean(h, &fraction) == DKAP_OK);
    f.sum = fraction.num_low;
    CHECK(dkap_quantile_below(h, 5000, &fraction) == DKAP_OK);
    f.below = fraction.num_low;
    CHECK(dkap_encode(h, buf, sizeof buf, &f.needed) == DKAP_E_BUFFER_TOO_SMALL);
    CHECK(dkap_encode_compressed(h, buf, sizeof buf, &f.packed) == DKAP_E_BUFFER_TOO_SMALL);
    CHECK(dkap_log_line(h, 1, 0, 1, 0, buf, 0, line, sizeof line, &f.line) == DKAP_E_BUFFER_TOO_SMALL);
    CHECK(dkap_values_at_quantiles(h, nums, 3, 100, f.values, 3) == DKAP_OK && dkap_shape_of(h, &shape) == DKAP_OK);
    CHECK(dkap_linear_steps(h, 1000, f.values, 3, counts, 3, &f.steps) == DKAP_OK);
    CHECK(dkap_quantile_steps(h, 2, f.values, 3, counts, 3, &f.steps) == DKAP_OK);
    CHECK(dkap_log_steps(h, 1000, 2, f.values, 3, counts, 3, &f.steps) == DKAP_OK);
    f.bins = shape.bins + dkap_highest_equivalent(h, 12345) + dkap_median_equivalent(h, 77777);
    while (f.sum % 7 != 0 && dkap_next_class(h, &c))
        f.sum += c.count * c.lowest;
    f.equal = dkap_equal(h, same);
    return f;
}

static bool is_same(const struct found *one, const struct found *other)
{
    return one->len == other->len && one->min == other->min && one->min_nz == other->min_nz && one->max == other->max &&
           one->p50 == other->p50 && one->p99 == other->p99 && one->at == other->at && one->between == other->between &&
           one->sum == other->sum && one->below == other->below && one->needed == other->needed &&
           one->packed == other->packed && one->line == other->line && one->bins == other->bins &&
           memcmp(one->values, other->values, sizeof one->values) == 0 && one->equal == other->equal;
}

struct reader {
    const struct dkap_histogram *h;
    const struct found *expected;
    uint64_t reads, wrong;
};

/* The cheap reads, over and over, and each hundredth time all of them. */
static void *read_over(void *argument)
{
    struct reader *r = argument;
    uint64_t i, value = 0;

    for (i = 0; i < r->reads; i++) {
        r->wrong += dkap_len(r->h) != r->expected->len || dkap_max(r->h) != r->expected->max ||
                    dkap_value_at_quantile(r->h, 99, 100, &value) != DKAP_OK || value != r->expected->p99;
        if (i % 100 == 0) {
            struct found found = read_all(r->h, r->h);

            r->wrong += !is_same(&found, r->expected);
        }
    }
    return NULL;
}

static void share(const struct dkap_histogram *h, int threads, uint64_t reads)
{
    struct found expected = read_all(h, h);
    struct reader readers[8];
    pthread_t ids[8];
    int i;

    for (i = 0; i < threads; i++) {
        readers[i] = (struct reader){h, &expected, reads, 0};
        CHECK(pthread_create(&ids[i], NULL, read_over, &readers[i]) == 0);
    }
    for (i = 0; i < threads; i++) {
        CHECK(pthread_join(ids[i], NULL) == 0);
        CHECK(readers[i].wrong == 0);
    }
    CHECK(dkap_len(h) == SAMPLES && expected.len == SAMPLES && expected.equal);
}

/* Memory that histograms are made in while `arena` is not null; it is never given back. */
static uint8_t *arena = NULL;
static size_t arena_used = 0;

void *__real_malloc(size_t size);
void *__wrap_malloc(size_t size);
void *__real_realloc(void *old, size_t size);
void *__wrap_realloc(void *old, size_t size);
void __real_free(void *at);
void __wrap_free(void *at);

static uint8_t *region = NULL;

static bool is_in_arena(const void *at)
{
    return region != NULL && (const uint8_t *)at >= region && (const uint8_t *)at < region + ARENA;
}

void *__wrap_malloc(size_t size)
{
    uint8_t *at = arena + arena_used;

    if (arena == NULL)
        return __real_malloc(size);
    arena_used += (size + 31) / 16 * 16;
    if (arena_used > ARENA)
        abort();
    memcpy(at, &size, sizeof size);
    return at + 16;
}

void *__wrap_realloc(void *old, size_t size)
{
    size_t before = 0;
    void *at;

    if (!is_in_arena(old) && (arena == NULL || old != NULL))
        return __real_realloc(old, size);
    at = __wrap_malloc(size);
    if (old != NULL) {
        memcpy(&before, (uint8_t *)old - 16, sizeof before);
        memcpy(at, old, before < size ? before : size);
    }
    return at;
}

void __wrap_free(void *at)
{
    if (!is_in_arena(at))
        __real_free(at);
}

/* The handle, its histogram and a second one lie in the arena, which can't be written during the reads. */
static void read_only(void)
{
    struct dkap_histogram *h, *k;
    struct found one, other;
    uint64_t value;

    region = arena = mmap(NULL, ARENA, PROT_READ | PROT_WRITE, MAP_PRIVATE | MAP_ANONYMOUS, -1, 0);
    CHECK(region != MAP_FAILED);
    h = __wrap_malloc(sizeof *h);
    k = __wrap_malloc(sizeof *k);
    *h = DKAP_CLOSED;
    *k = DKAP_CLOSED;
    CHECK(dkap_init_auto(h, 3) == DKAP_OK);
    for (value = 1; value <= SAMPLES; value++)
        CHECK(dkap_record(h, value * value) == DKAP_OK);
    CHECK(dkap_copy(k, h) == DKAP_OK);
    one = read_all(h, k);
    arena = NULL;
    CHECK(mprotect(region, ARENA, PROT_READ) == 0);
    other = read_all(h, k);
    CHECK(is_same(&one, &other) && other.len == SAMPLES && other.equal);
    CHECK(munmap(region, ARENA) == 0);
}

int main(int argc, char **argv)
{
    struct dkap_histogram h = DKAP_CLOSED;
    uint64_t reads = argc > 1 ? strtoull(argv[1], NULL, 10) : 1000000, value;

    CHECK(dkap_init(&h, 1, UINT64_C(1) << 40, 3) == DKAP_OK);
    for (value = 1; value <= SAMPLES; value++)
        CHECK(dkap_record(&h, value) == DKAP_OK);
    share(&h, 2, reads);
    share(&h, 8, reads / 10);
    dkap_close(&h);
    read_only();
    return checked();
}
