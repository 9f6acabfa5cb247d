/*
 * Each allocation of each call of a recorder fails once: the status is then DKAP_E_OUT_OF_MEMORY, no sample is lost, and
 * in the end all memory is freed. Linked with -Wl,--wrap=malloc,--wrap=realloc,--wrap=aligned_alloc,--wrap=free.
 */
#include "recorder.h"

#include "check.h"

void *__real_malloc(size_t size);
void *__real_realloc(void *old, size_t size);
void *__real_aligned_alloc(size_t alignment, size_t size);
void __real_free(void *at);
void *__wrap_malloc(size_t size);
void *__wrap_realloc(void *old, size_t size);
void *__wrap_aligned_alloc(size_t alignment, size_t size);
void __wrap_free(void *at);

/* The number of allocations that succeed before one fails; no limit if negative. */
static long allowed = -1;
static long live = 0;

static bool fails(void)
{
    return allowed >= 0 && allowed-- == 0;
}

void *__wrap_malloc(size_t size)
{
    void *at = fails() ? NULL : __real_malloc(size);

    live += at != NULL;
    return at;
}

void *__wrap_realloc(void *old, size_t size)
{
    void *at = fails() ? NULL : __real_realloc(old, size);

    live += at != NULL && old == NULL;
    return at;
}

void *__wrap_aligned_alloc(size_t alignment, size_t size)
{
    void *at = fails() ? NULL : __real_aligned_alloc(alignment, size);

    live += at != NULL;
    return at;
}

void __wrap_free(void *at)
{
    live -= at != NULL;
    __real_free(at);
}

/* Makes the calls until one fails, the allocation of this index being the one that does. Returns whether one failed. */
static bool fails_at(long index, bool grows)
{
    struct dkap_histogram h = DKAP_CLOSED;
    struct dkap_recorder *r = NULL;
    uint64_t samples = 0;
    dkap_status status;

    CHECK(dkap_init_auto(&h, 3) == DKAP_OK);
    allowed = index;
    status = grows ? dkap_recorder_open_auto(&r, 3) : dkap_recorder_open(&r, 1, UINT64_C(1) << 41, 3);
    if (status == DKAP_OK) {
        status = dkap_recorder_record(r, UINT64_C(1) << 40);
        samples += status == DKAP_OK;
    }
    if (status == DKAP_OK)
        status = dkap_recorder_swap(r, &h);
    allowed = -1;
    CHECK(status == DKAP_OK || status == DKAP_E_OUT_OF_MEMORY);
    CHECK(status == DKAP_OK || dkap_len(&h) == 0);
    if (r != NULL) {
        CHECK(dkap_recorder_record(r, 5) == DKAP_OK && dkap_recorder_swap(r, &h) == DKAP_OK);
        CHECK(dkap_len(&h) == samples + 1 && dkap_count_at(&h, 5) == 1);
    }
    dkap_recorder_close(r);
    dkap_close(&h);
    return status != DKAP_OK;
}

int main(void)
{
    int grows;

    for (grows = 0; grows < 2; grows++) {
        long index = 0;

        while (fails_at(index, grows != 0))
            index++;
        CHECK(index >= 5);
        printf("%ld allocations failed\n", index);
    }
    CHECK(live == 0);
    return checked();
}
