/*
 * Each record of a program is written to the file that HDR_TRACE names: the address of the histogram and the value, of 8
 * bytes each. In the library that is linked too the two calls begin with real_ in place of hdr_.
 */
#include <hdr/hdr_histogram.h>
#include <pthread.h>
#include <stdlib.h>

bool real_record_value(struct hdr_histogram *h, int64_t value);
bool real_record_value_atomic(struct hdr_histogram *h, int64_t value);

static pthread_once_t once = PTHREAD_ONCE_INIT;
static FILE *file = NULL;

static void open_file(void)
{
    const char *name = getenv("HDR_TRACE");

    file = name != NULL ? fopen(name, "wb") : NULL;
}

static void trace(const struct hdr_histogram *h, int64_t value)
{
    int64_t record[] = {(int64_t)(uintptr_t)h, value};

    pthread_once(&once, open_file);
    if (file != NULL && fwrite(record, sizeof record, 1, file) != 1)
        abort();
}

bool hdr_record_value(struct hdr_histogram *h, int64_t value)
{
    trace(h, value);
    return real_record_value(h, value);
}

bool hdr_record_value_atomic(struct hdr_histogram *h, int64_t value)
{
    trace(h, value);
    return real_record_value_atomic(h, value);
}
