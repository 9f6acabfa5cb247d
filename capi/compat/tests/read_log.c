// Reads a log with the reader of HdrHistogram_c, and prints its version, its intervals and their samples.
#include <hdr/hdr_histogram.h>
#include <hdr/hdr_histogram_log.h>
#include <inttypes.h>
#include <stdio.h>
#include <stdlib.h>

int main(int count, char **arguments)
{
    FILE *file = count == 2 ? fopen(arguments[1], "r") : NULL;
    struct hdr_log_reader reader;
    if (!file || hdr_log_reader_init(&reader) || hdr_log_read_header(&reader, file)) {
        puts("no header");
        return 1;
    }
    int intervals = 0;
    int64_t samples = 0;
    for (;;) {
        struct hdr_histogram *histogram = NULL;
        hdr_timespec start, length;
        if (hdr_log_read(&reader, file, &histogram, &start, &length))
            break;
        intervals++;
        samples += histogram->total_count;
        free(histogram->counts);
        free(histogram);
    }
    printf("version %d.%d, %d intervals, %" PRId64 " samples\n", reader.major_version, reader.minor_version, intervals, samples);
    return fclose(file);
}
