/*
 * Each allocation of each call fails once: the status is then DKAP_E_OUT_OF_MEMORY, no histogram has changed, and in the
 * end all memory is freed. Linked with -Wl,--wrap=malloc,--wrap=realloc,--wrap=free.
 */
#include "check.h"

void *__real_malloc(size_t size);
void *__real_realloc(void *old, size_t size);
void __real_free(void *at);
void *__wrap_malloc(size_t size);
void *__wrap_realloc(void *old, size_t size);
void __wrap_free(void *at);

/* The number of allocations that succeed before one fails; no limit if negative. */
static long allowed = -1;
static long live = 0;

static bool is_refused(void)
{
    return allowed >= 0 && allowed-- == 0;
}

void *__wrap_malloc(size_t size)
{
    void *at = is_refused() ? NULL : __real_malloc(size);

    live += at != NULL;
    return at;
}

void *__wrap_realloc(void *old, size_t size)
{
    void *at = is_refused() ? NULL : __real_realloc(old, size);

    live += at != NULL && old == NULL;
    return at;
}

void __wrap_free(void *at)
{
    live -= at != NULL;
    __real_free(at);
}

/* The call under test works on `h`; `k` is another histogram, and `bytes` are those of `k`. */
struct state {
    struct dkap_histogram h;
    struct dkap_histogram k;
    uint8_t *bytes;
    size_t length;
    uint8_t buf[65536];
};

static dkap_status init(struct state *s)
{
    return dkap_init(&s->h, 1, 100000, 3);
}

static dkap_status init_auto(struct state *s)
{
    return dkap_init_auto(&s->h, 2);
}

static dkap_status copy(struct state *s)
{
    return dkap_copy(&s->h, &s->k);
}

static dkap_status record(struct state *s)
{
    return dkap_record(&s->h, UINT64_C(1) << 40);
}

static dkap_status record_n(struct state *s)
{
    return dkap_record_n(&s->h, UINT64_C(1) << 41, 3);
}

static dkap_status record_correct(struct state *s)
{
    return dkap_record_correct(&s->h, UINT64_C(1) << 40, 1, UINT64_C(1) << 37);
}

static dkap_status record_all(struct state *s)
{
    uint64_t values[] = {UINT64_C(1) << 40, 3};
    size_t done = 9;
    dkap_status status = dkap_record_all(&s->h, values, 2, &done);

    CHECK(done == (status == DKAP_OK ? 2 : 0));
    return status;
}

static dkap_status add(struct state *s)
{
    return dkap_add(&s->h, &s->k);
}

static dkap_status add_correct(struct state *s)
{
    return dkap_add_correct(&s->h, &s->k, UINT64_C(1) << 33);
}

static dkap_status encode(struct state *s)
{
    size_t needed;

    return dkap_encode(&s->k, s->buf, sizeof s->buf, &needed);
}

static dkap_status decode(struct state *s)
{
    size_t taken;

    return dkap_decode(&s->h, s->bytes, s->length, DKAP_NO_LIMIT, &taken);
}

static dkap_status log_line(struct state *s)
{
    size_t needed;

    return dkap_log_line(&s->k, 1, 5, 2, 7, (const uint8_t *)"tag", 3, s->buf, sizeof s->buf, &needed);
}

static dkap_status encode_compressed(struct state *s)
{
    size_t needed;

    return dkap_encode_compressed(&s->k, s->buf, sizeof s->buf, &needed);
}

static dkap_status log_line_compressed(struct state *s)
{
    size_t needed;

    return dkap_log_line_compressed(&s->k, 1, 5, 2, 7, (const uint8_t *)"tag", 3, s->buf, sizeof s->buf, &needed);
}

static dkap_status log_comment(struct state *s)
{
    size_t needed;

    return dkap_log_comment((const uint8_t *)"a comment", 9, s->buf, sizeof s->buf, &needed);
}

static dkap_status log_start_time(struct state *s)
{
    size_t needed;

    return dkap_log_start_time(1, 2, s->buf, sizeof s->buf, &needed);
}

static dkap_status log_base_time(struct state *s)
{
    size_t needed;

    return dkap_log_base_time(1, 2, s->buf, sizeof s->buf, &needed);
}

static dkap_status decode_compressed(struct state *s)
{
    long limit = allowed;
    size_t length = 0, taken = 0;
    dkap_status status;

    allowed = -1;
    CHECK(dkap_encode_compressed(&s->k, s->buf, sizeof s->buf, &length) == DKAP_OK);
    allowed = limit;
    status = dkap_decode(&s->h, s->buf, length, DKAP_NO_LIMIT, &taken);
    CHECK(taken == (status == DKAP_OK ? length : 0));
    return status;
}

static dkap_status log_next(struct state *s)
{
    struct dkap_interval interval = {0};
    long limit = allowed;
    size_t length;
    dkap_status status;

    allowed = -1;
    CHECK(dkap_log_line(&s->k, 1, 5, 2, 7, (const uint8_t *)"tag", 3, s->buf, sizeof s->buf, &length) == DKAP_OK);
    allowed = limit;
    status = dkap_log_next(&s->h, s->buf, length, DKAP_NO_LIMIT, &interval);
    CHECK(status != DKAP_OK || interval.next == length);
    return status;
}

static const struct {
    const char *name;
    dkap_status (*call)(struct state *s);
} CALLS[] = {
    {"dkap_init", init},
    {"dkap_init_auto", init_auto},
    {"dkap_copy", copy},
    {"dkap_record", record},
    {"dkap_record_n", record_n},
    {"dkap_record_correct", record_correct},
    {"dkap_record_all", record_all},
    {"dkap_add", add},
    {"dkap_add_correct", add_correct},
    {"dkap_encode", encode},
    {"dkap_decode", decode},
    {"dkap_log_line", log_line},
    {"dkap_log_next", log_next},
    {"dkap_encode_compressed", encode_compressed},
    {"dkap_decode", decode_compressed},
    {"dkap_log_line_compressed", log_line_compressed},
    {"dkap_log_comment", log_comment},
    {"dkap_log_start_time", log_start_time},
    {"dkap_log_base_time", log_base_time},
};

/* Makes the call with the allocation of this index failing. Returns whether it failed. */
static bool fails_at(size_t call, long index)
{
    static struct state s;
    struct dkap_histogram h = DKAP_CLOSED, k = DKAP_CLOSED;
    dkap_status status;

    CHECK(dkap_init_auto(&s.h, 3) == DKAP_OK && dkap_record_n(&s.h, 77, 5) == DKAP_OK);
    CHECK(dkap_init_auto(&s.k, 3) == DKAP_OK && dkap_record(&s.k, UINT64_C(1) << 35) == DKAP_OK);
    CHECK(dkap_copy(&h, &s.h) == DKAP_OK && dkap_copy(&k, &s.k) == DKAP_OK);
    s.bytes = encoded(&s.k, &s.length);

    allowed = index;
    status = CALLS[call].call(&s);
    allowed = -1;
    CHECK(status == DKAP_OK || status == DKAP_E_OUT_OF_MEMORY);
    if (status != DKAP_OK)
        CHECK(dkap_equal(&s.h, &h));
    CHECK(dkap_equal(&s.k, &k));

    dkap_close(&s.h);
    dkap_close(&s.k);
    dkap_close(&h);
    dkap_close(&k);
    free(s.bytes);
    return status != DKAP_OK;
}

int main(void)
{
    size_t call, failed = 0;

    for (call = 0; call < sizeof CALLS / sizeof CALLS[0]; call++) {
        long index = 0, before = live;

        while (fails_at(call, index))
            index++;
        if (index == 0) {
            fprintf(stderr, "%s: no allocation failed\n", CALLS[call].name);
            failures++;
        }
        CHECK(live == before);
        failed += (size_t)index;
    }
    printf("%zu allocations failed in turn\n", failed);
    return checked();
}
