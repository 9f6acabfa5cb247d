/*
 * V2 bytes with random damage, compressed or not, are decoded, or an error has a status of dkap_decode and changes
 * nothing. The same holds for interval logs. usage: damaged NUMBER SEED
 */
#include "check.h"

static uint64_t state;

/* The limit of bins: a damaged header is an error before it takes much memory. */
enum { MOST_BINS = 1 << 16 };

/* A number below `end`, by xorshift64*. */
static uint64_t below(uint64_t end)
{
    state ^= state >> 12;
    state ^= state << 25;
    state ^= state >> 27;
    return (state * UINT64_C(2685821657736338717) >> 11) % end;
}

struct bytes {
    uint8_t at[4096];
    size_t length;
};

/* A random histogram of a few counts; few of them need many bins. */
static void fill(struct dkap_histogram *h)
{
    uint8_t sigfig = (uint8_t)below(3);
    uint64_t low = UINT64_C(1) << below(12), samples = 1 + below(30);

    CHECK(dkap_init(h, low, low << (1 + below(20)), sigfig) == DKAP_OK);
    while (samples-- > 0)
        CHECK(dkap_record_saturating(h, below(UINT64_C(1) << (1 + below(40))), 1 + below(1000)) == DKAP_OK);
}

static void damage_once(struct bytes *b)
{
    size_t at = below(b->length + 1), size = below(9);

    switch (b->length == 0 ? 3 : below(6)) {
    case 0:
        b->at[at % b->length] ^= (uint8_t)(1 << below(8));
        break;
    case 1:
        b->at[at % b->length] = (uint8_t)below(256);
        break;
    case 2:
        b->length = at;
        break;
    case 3:
        if (b->length + size <= sizeof b->at) {
            memmove(b->at + at + size, b->at + at, b->length - at);
            memset(b->at + at, (int)below(256), size);
            b->length += size;
        }
        break;
    case 4:
        size = size < b->length - at ? size : b->length - at;
        memmove(b->at + at, b->at + at + size, b->length - at - size);
        b->length -= size;
        break;
    default:
        size = size < b->length - at ? size : b->length - at;
        memset(b->at + at, (int)below(256), size);
    }
}

static void damage(struct bytes *b)
{
    uint64_t changes = 1 + below(4);

    while (changes-- > 0)
        damage_once(b);
}

static bool is_decode_status(dkap_status status)
{
    return status == DKAP_OK || (status >= DKAP_E_BYTES_END_EARLY && status <= DKAP_E_USIZE_TOO_SMALL) ||
           status == DKAP_E_TOO_MANY_BINS || status == DKAP_E_INVALID_STREAM;
}

static uint64_t seen[DKAP_E_INVALID_STREAM + 1];

/* Decodes damaged bytes, from a block of their length, into a handle with a histogram. */
static void decode_damaged(struct dkap_histogram *kept)
{
    struct dkap_histogram h = DKAP_CLOSED;
    struct bytes damaged;
    size_t taken = 0;
    dkap_status status;
    uint8_t *block_of_bytes;

    fill(&h);
    if (below(2) == 0)
        CHECK(dkap_encode(&h, damaged.at, sizeof damaged.at, &damaged.length) == DKAP_OK);
    else
        CHECK(dkap_encode_compressed(&h, damaged.at, sizeof damaged.at, &damaged.length) == DKAP_OK);
    damage(&damaged);
    block_of_bytes = block(damaged.length);
    memcpy(block_of_bytes, damaged.at, damaged.length);

    CHECK(dkap_copy(&h, kept) == DKAP_OK);
    status = dkap_decode(&h, block_of_bytes, damaged.length, MOST_BINS, &taken);
    CHECK(is_decode_status(status));
    if (status == DKAP_OK)
        CHECK(taken >= 16 && taken <= damaged.length);
    else
        CHECK(taken == 0 && dkap_equal(&h, kept));
    seen[status]++;
    free(block_of_bytes);
    dkap_close(&h);
}

static void append_line(struct bytes *log)
{
    struct dkap_histogram h = DKAP_CLOSED;
    size_t length = 0, tag_length = below(4);
    dkap_status status;

    fill(&h);
    status = dkap_log_line(&h, below(100), (uint32_t)below(1000000000), below(100), (uint32_t)below(1000000000),
                          (const uint8_t *)"abc", tag_length, log->at + log->length, sizeof log->at - log->length,
                          &length);
    CHECK(status == DKAP_OK || status == DKAP_E_BUFFER_TOO_SMALL);
    if (status == DKAP_OK)
        log->length += length;
    dkap_close(&h);
}

/* Reads a damaged log of three lines to its end or its first invalid line, from a block of its length. */
static void read_damaged(struct dkap_histogram *kept)
{
    struct dkap_histogram h = DKAP_CLOSED;
    struct dkap_interval interval = {0};
    struct bytes log = {.length = 0};
    dkap_status status = DKAP_OK;
    uint8_t *block_of_bytes;
    int line;

    for (line = 0; line < 3; line++)
        append_line(&log);
    damage(&log);
    block_of_bytes = block(log.length);
    memcpy(block_of_bytes, log.at, log.length);
    while (status != DKAP_LOG_END && status != DKAP_E_INVALID_LINE) {
        size_t from = interval.next;

        CHECK(dkap_copy(&h, kept) == DKAP_OK);
        status = dkap_log_next(&h, block_of_bytes, log.length, MOST_BINS, &interval);
        CHECK(is_decode_status(status) || (status >= DKAP_LOG_END && status <= DKAP_E_NOT_BASE64));
        CHECK(interval.next <= log.length);
        if (status != DKAP_LOG_END && status != DKAP_E_INVALID_LINE)
            CHECK(interval.next > from && interval.tag_at + interval.tag_length <= interval.next);
        if (status != DKAP_OK)
            CHECK(dkap_equal(&h, kept));
        seen[status]++;
    }
    free(block_of_bytes);
    dkap_close(&h);
}

static void print_seen(const char *what, uint64_t number)
{
    dkap_status status;

    printf("%" PRIu64 " damaged %s:", number, what);
    for (status = 0; status < sizeof seen / sizeof seen[0]; status++)
        if (seen[status] != 0)
            printf(" %" PRIu64 " of status %" PRIu32, seen[status], status);
    printf("\n");
    memset(seen, 0, sizeof seen);
}

int main(int argc, char **argv)
{
    struct dkap_histogram kept = DKAP_CLOSED;
    uint64_t number = argc > 1 ? strtoull(argv[1], NULL, 10) : 1000, i;

    state = argc > 2 ? strtoull(argv[2], NULL, 10) : 1;
    CHECK(dkap_init(&kept, 1, 100, 1) == DKAP_OK && dkap_record(&kept, 7) == DKAP_OK);
    for (i = 0; i < number; i++)
        decode_damaged(&kept);
    print_seen("V2 bytes", number);
    for (i = 0; i < number; i++)
        read_damaged(&kept);
    print_seen("logs", number);
    dkap_close(&kept);
    return checked();
}
