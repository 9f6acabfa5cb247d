/* Compressed histograms and interval logs, by the calls of the proved library. */
#define _POSIX_C_SOURCE 200809L
#include <string.h>
#include <time.h>

#include <hdr/hdr_histogram_log.h>

#include "classes.h"
#include "compat.h"

/* The first size of a buffer, which most histograms fit. */
enum { FIRST = 65536 };

/* Of the library, but in none of its headers. */
int hdr_encode_compressed(struct hdr_histogram *h, uint8_t **compressed, size_t *length);
int hdr_decode_compressed(uint8_t *buffer, size_t length, struct hdr_histogram **histogram);

static int error_of(dkap_status status)
{
    switch (status) {
    case DKAP_OK:
        return 0;
    case DKAP_E_OUT_OF_MEMORY:
        return ENOMEM;
    case DKAP_E_INVALID_COOKIE:
        return HDR_COMPRESSION_COOKIE_MISMATCH;
    case DKAP_E_INVALID_STREAM:
        return HDR_INFLATE_FAIL;
    case DKAP_E_ENCODED_ARRAY_TOO_LONG:
        return HDR_ENCODED_INPUT_TOO_LONG;
    default:
        return EINVAL;
    }
}

/* What is written: compressed bytes if there is no entry, and otherwise a line of a log. */
static dkap_status write_to(const struct dkap_histogram *h, const struct hdr_log_entry *entry, uint8_t *buffer,
                            size_t length, size_t *needed)
{
    bool has_tag;

    if (entry == NULL)
        return dkap_encode_compressed(h, buffer, length, needed);
    has_tag = entry->tag != NULL && entry->tag_len > 0;
    return dkap_log_line_compressed(h, (uint64_t)entry->start_timestamp.tv_sec,
                                    (uint32_t)entry->start_timestamp.tv_nsec, (uint64_t)entry->interval.tv_sec,
                                    (uint32_t)entry->interval.tv_nsec, has_tag ? (const uint8_t *)entry->tag : (const uint8_t *)"",
                                    has_tag ? entry->tag_len : 0, buffer, length, needed);
}

/* Writes into a new buffer. */
static int written(const struct hdr_histogram *h, const struct hdr_log_entry *entry, uint8_t **buffer, size_t *length)
{
    size_t size = FIRST;
    dkap_status status = DKAP_E_BUFFER_TOO_SMALL;
    uint8_t *bytes = NULL;
    struct histogram *own;

    if (!is_own(h))
        return EINVAL;
    own = enter(h);
    while (status == DKAP_E_BUFFER_TOO_SMALL) {
        free(bytes);
        bytes = malloc(size);
        status = bytes == NULL ? (dkap_status)DKAP_E_OUT_OF_MEMORY : write_to(&own->handle, entry, bytes, size, length);
        size = *length;
    }
    unlock(own);
    if (status == DKAP_OK)
        *buffer = bytes;
    else
        free(bytes);
    return error_of(status);
}

int hdr_encode_compressed(struct hdr_histogram *h, uint8_t **compressed, size_t *length)
{
    return written(h, NULL, compressed, length);
}

/* Returns the Base64 of a line: its last field, without the line feed. */
int hdr_log_encode(struct hdr_histogram *histogram, char **encoded_histogram)
{
    struct hdr_log_entry entry = {.tag = NULL};
    uint8_t *line = NULL;
    size_t length = 0, at;
    int error = written(histogram, &entry, &line, &length);

    if (error != 0)
        return error;
    for (at = length; at > 0 && line[at - 1] != ','; at--) {
    }
    memmove(line, line + at, length - at);
    line[length - at - 1] = '\0';
    *encoded_histogram = (char *)line;
    return 0;
}

/* Adds a decoded histogram to `*histogram`, or creates that. The greatest value of a new one is the end of its class. */
static int add_to(struct hdr_histogram **histogram, const struct dkap_histogram *decoded)
{
    struct dkap_shape shape;
    bool is_new = *histogram == NULL;
    int error = error_of(dkap_shape_of(decoded, &shape));

    if (error == 0 && is_new)
        error = hdr_init((int64_t)shape.low, (int64_t)shape.high, shape.sigfig, histogram);
    if (error != 0 || !is_own(*histogram))
        return error != 0 ? error : EINVAL;
    add_classes(enter(*histogram), decoded, 0);
    if (is_new && (*histogram)->total_count != 0)
        (*histogram)->max_value = highest_of(*histogram, (*histogram)->max_value);
    unlock(own_of(*histogram));
    return 0;
}

int hdr_decode_compressed(uint8_t *buffer, size_t length, struct hdr_histogram **histogram)
{
    struct dkap_histogram decoded = DKAP_CLOSED;
    size_t taken = 0;
    int error = error_of(dkap_decode(&decoded, buffer, length, DKAP_NO_LIMIT, &taken));

    if (error == 0)
        error = add_to(histogram, &decoded);
    dkap_close(&decoded);
    return error;
}

int hdr_log_decode(struct hdr_histogram **histogram, char *base64_histogram, size_t base64_len)
{
    static const char before[] = "0.000,0.000,0.000,";
    struct dkap_histogram decoded = DKAP_CLOSED;
    struct dkap_interval interval = {0};
    size_t start = sizeof before - 1;
    uint8_t *line = malloc(start + base64_len + 1);
    int error;

    if (line == NULL)
        return ENOMEM;
    memcpy(line, before, start);
    memcpy(line + start, base64_histogram, base64_len);
    line[start + base64_len] = '\n';
    error = error_of(dkap_log_next(&decoded, line, start + base64_len + 1, DKAP_NO_LIMIT, &interval));
    if (error == 0)
        error = add_to(histogram, &decoded);
    dkap_close(&decoded);
    free(line);
    return error;
}

int hdr_log_writer_init(struct hdr_log_writer *writer)
{
    (void)writer;
    return 0;
}

int hdr_log_write_header(struct hdr_log_writer *writer, FILE *file, const char *user_prefix, hdr_timespec *timestamp)
{
    char date[64] = "";
    struct tm fields;

    (void)writer;
    if (gmtime_r(&timestamp->tv_sec, &fields) != NULL)
        strftime(date, sizeof date, "%a %b %d %X %Z %Y", &fields);
    return fprintf(file, "#[%s]\n#[Histogram log format version 1.2]\n", user_prefix) >= 0 &&
                   fprintf(file, "#[StartTime: %.3f (seconds since epoch), %s]\n", hdr_timespec_as_double(timestamp),
                           date) >= 0 &&
                   fprintf(file, "\"StartTimestamp\",\"EndTimestamp\",\"Interval_Max\","
                                 "\"Interval_Compressed_Histogram\"\n") >= 0
               ? 0
               : EIO;
}

int hdr_log_write_entry(struct hdr_log_writer *writer, FILE *file, struct hdr_log_entry *entry,
                        struct hdr_histogram *histogram)
{
    uint8_t *line = NULL;
    size_t length = 0;
    int error = written(histogram, entry, &line, &length);

    (void)writer;
    if (error == 0 && fwrite(line, 1, length, file) != length)
        error = EIO;
    free(line);
    return error;
}

int hdr_log_write(struct hdr_log_writer *writer, FILE *file, const hdr_timespec *start_timestamp,
                  const hdr_timespec *end_timestamp, struct hdr_histogram *histogram)
{
    struct hdr_log_entry entry = {.start_timestamp = *start_timestamp, .interval = *end_timestamp};

    return hdr_log_write_entry(writer, file, &entry, histogram);
}

int hdr_log_reader_init(struct hdr_log_reader *reader)
{
    *reader = (struct hdr_log_reader){.major_version = 0};
    return 0;
}

static void read_header_line(struct hdr_log_reader *reader, const char *line)
{
    double seconds;

    sscanf(line, "#[Histogram log format version %d.%d]", &reader->major_version, &reader->minor_version);
    if (sscanf(line, "#[StartTime: %lf", &seconds) == 1)
        hdr_timespec_from_double(&reader->start_timestamp, seconds);
}

/* Reads comments up to the first line that is none, and that with the names of the columns. */
int hdr_log_read_header(struct hdr_log_reader *reader, FILE *file)
{
    char *line = NULL;
    size_t size = 0;
    int first = '#', error = 0;

    while (first == '#' && error == 0) {
        first = ungetc(fgetc(file), file);
        if (first == '#' || first == '"') {
            error = getline(&line, &size, file) < 0 ? EIO : 0;
            if (error == 0 && first == '#')
                read_header_line(reader, line);
        }
    }
    free(line);
    if (error != 0)
        return error;
    return reader->major_version == 1 && reader->minor_version >= 0 && reader->minor_version <= 3
               ? 0
               : HDR_LOG_INVALID_VERSION;
}

static hdr_timespec timespec_of(struct dkap_time time)
{
    return (hdr_timespec){.tv_sec = (time_t)time.seconds, .tv_nsec = (long)time.nanos};
}

/* The third of the fields that are times: the greatest value, in units of the log. */
static hdr_timespec max_of(const char *line, size_t tag_length)
{
    const char *at = tag_length > 0 ? strchr(line, ',') : line - 1;
    hdr_timespec max = {0};
    int field;

    for (field = 0; field < 2 && at != NULL; field++)
        at = strchr(at + 1, ',');
    if (at != NULL)
        hdr_timespec_from_double(&max, strtod(at + 1, NULL));
    return max;
}

static void store_entry(struct hdr_log_entry *entry, const char *line, const struct dkap_interval *interval)
{
    entry->start_timestamp = timespec_of(interval->start);
    entry->interval = timespec_of(interval->duration);
    entry->max = max_of(line, interval->tag_length);
    if (entry->tag != NULL && interval->tag_length > 0) {
        size_t length = interval->tag_length < entry->tag_len ? interval->tag_length : entry->tag_len;

        memcpy(entry->tag, line + interval->tag_at, length);
        if (length < entry->tag_len)
            entry->tag[length] = '\0';
    }
}

/* Errors of the line itself are negative, as those of its histogram are not. */
static int read_line(const char *line, size_t length, struct hdr_log_entry *entry, struct hdr_histogram **histogram)
{
    struct dkap_histogram decoded = DKAP_CLOSED;
    struct dkap_interval interval = {0};
    dkap_status status = dkap_log_next(&decoded, (const uint8_t *)line, length, DKAP_NO_LIMIT, &interval);
    int error;

    if (status == DKAP_E_INVALID_LINE || status == DKAP_E_NOT_BASE64 || status == DKAP_LOG_END) {
        error = -EINVAL;
    } else {
        error = error_of(status);
        store_entry(entry, line, &interval);
    }
    if (error == 0)
        error = add_to(histogram, &decoded);
    dkap_close(&decoded);
    return error;
}

int hdr_log_read_entry(struct hdr_log_reader *reader, FILE *file, struct hdr_log_entry *entry,
                       struct hdr_histogram **histogram)
{
    char *line = NULL;
    size_t size = 0;
    ssize_t length;
    int error = EOF;

    (void)reader;
    if (entry == NULL)
        return -EINVAL;
    do
        length = getline(&line, &size, file);
    while (length > 0 && (line[0] == '\n' || line[0] == '\r'));
    if (length > 0)
        error = read_line(line, (size_t)length, entry, histogram);
    free(line);
    return error;
}

int hdr_log_read(struct hdr_log_reader *reader, FILE *file, struct hdr_histogram **histogram, hdr_timespec *timestamp,
                 hdr_timespec *interval)
{
    struct hdr_log_entry entry = {.tag = NULL};
    int error = hdr_log_read_entry(reader, file, &entry, histogram);

    if (error == 0 && timestamp != NULL)
        *timestamp = entry.start_timestamp;
    if (error == 0 && interval != NULL)
        *interval = entry.interval;
    return error;
}

const char *hdr_strerror(int errnum)
{
    switch (errnum) {
    case HDR_COMPRESSION_COOKIE_MISMATCH:
    case HDR_ENCODING_COOKIE_MISMATCH:
        return "the first bytes are those of no format that is decoded";
    case HDR_DEFLATE_INIT_FAIL:
    case HDR_DEFLATE_FAIL:
        return "compressing failed";
    case HDR_INFLATE_INIT_FAIL:
    case HDR_INFLATE_FAIL:
        return "the compressed bytes are not a complete zlib stream";
    case HDR_LOG_INVALID_VERSION:
        return "the version of the log is not 1.0 to 1.3";
    case HDR_TRAILING_ZEROS_INVALID:
    case HDR_VALUE_TRUNCATED:
    case HDR_ENCODED_INPUT_TOO_LONG:
        return "the encoded counts are invalid";
    default:
        return strerror(errnum < 0 ? -errnum : errnum);
    }
}
