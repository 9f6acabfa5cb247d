/*
 * Without arguments, writes an interval log of three seconds to standard output. With a file name, reads that log, and
 * prints the 99th percentile of each interval.
 *     cc -std=c99 log.c $(pkg-config --cflags --libs dkap) -o log && ./log >intervals && ./log intervals
 */
#include <dkap.h>
#include <inttypes.h>
#include <stdio.h>
#include <stdlib.h>

/* Writes the line of one second. The buffer grows as needed. */
static dkap_status write_interval(const struct dkap_histogram *h, uint64_t second, FILE *file)
{
    static const uint8_t tag[] = "checkout";
    size_t length = 512, needed = 0;
    uint8_t *line = malloc(length);
    dkap_status status = DKAP_E_BUFFER_TOO_SMALL;

    while (line != NULL && status == DKAP_E_BUFFER_TOO_SMALL) {
        status = dkap_log_line(h, second, 0, 1, 0, tag, sizeof tag - 1, line, length, &needed);
        if (status == DKAP_E_BUFFER_TOO_SMALL) {
            free(line);
            length = needed;
            line = malloc(length);
        }
    }
    if (line == NULL)
        return DKAP_E_OUT_OF_MEMORY;
    if (status == DKAP_OK)
        fwrite(line, 1, needed, file);
    free(line);
    return status;
}

static dkap_status write_log(struct dkap_histogram *h)
{
    dkap_status status = dkap_init_auto(h, 3);
    uint64_t second, value;

    for (second = 0; second < 3 && status == DKAP_OK; second++) {
        for (value = 1; value <= 100 && status == DKAP_OK; value++)
            status = dkap_record(h, value * (second + 1));
        if (status == DKAP_OK)
            status = write_interval(h, second, stdout);
        if (status == DKAP_OK)
            status = dkap_reset(h);
    }
    return status;
}

static dkap_status read_log(struct dkap_histogram *h, const uint8_t *log, size_t length)
{
    struct dkap_interval interval = {0};
    dkap_status status;

    while ((status = dkap_log_next(h, log, length, DKAP_NO_LIMIT, &interval)) == DKAP_OK) {
        uint64_t value = 0;

        status = dkap_value_at_quantile(h, 99, 100, &value);
        if (status != DKAP_OK)
            return status;
        printf("%" PRIu64 " s %.*s: p99 %" PRIu64 "\n", interval.start.seconds, (int)interval.tag_length,
               (const char *)log + interval.tag_at, value);
    }
    return status == DKAP_LOG_END ? (dkap_status)DKAP_OK : status;
}

int main(int argc, char **argv)
{
    static uint8_t log[1 << 20];
    struct dkap_histogram h = DKAP_CLOSED;
    dkap_status status;

    if (argc < 2) {
        status = write_log(&h);
    } else {
        FILE *file = fopen(argv[1], "rb");

        if (file == NULL) {
            perror(argv[1]);
            return 1;
        }
        status = read_log(&h, log, fread(log, 1, sizeof log, file));
        fclose(file);
    }
    if (status != DKAP_OK)
        fprintf(stderr, "log: %s\n", dkap_strerror(status));
    dkap_close(&h);
    return status != DKAP_OK;
}
