/* Each call of dkap.h: its results, and each status that it can return. */
#include "check.h"

static void creation(void)
{
    struct dkap_histogram h = DKAP_CLOSED;
    struct dkap_shape shape;

    CHECK(dkap_init(&h, 0, 10, 3) == DKAP_E_LOW_IS_ZERO);
    CHECK(dkap_init(&h, UINT64_MAX, UINT64_MAX, 3) == DKAP_E_LOW_EXCEEDS_MAX);
    CHECK(dkap_init(&h, 10, 19, 3) == DKAP_E_HIGH_LESS_THAN_TWICE_LOW);
    CHECK(dkap_init(&h, 1, 2, 6) == DKAP_E_SIGFIG_EXCEEDS_MAX && dkap_init(&h, 1, 2, 255) == DKAP_E_SIGFIG_EXCEEDS_MAX);
    CHECK(dkap_init(&h, UINT64_C(1) << 62, UINT64_MAX, 5) == DKAP_E_SIGFIG_BEYOND_LOW);
    CHECK(dkap_record(&h, 1) == DKAP_E_CLOSED && dkap_len(&h) == 0);
    CHECK(dkap_init(&h, 1, UINT64_MAX, 5) == DKAP_OK && dkap_record(&h, UINT64_MAX) == DKAP_OK);
    CHECK(dkap_init(&h, 1, UINT64_C(3600000000), 3) == DKAP_OK && dkap_len(&h) == 0);
    CHECK(dkap_init(&h, 0, 10, 3) == DKAP_E_LOW_IS_ZERO && dkap_record(&h, 5) == DKAP_OK && dkap_len(&h) == 1);
    CHECK(dkap_shape_of(&h, &shape) == DKAP_OK && shape.low == 1 && shape.high == UINT64_C(3600000000));
    CHECK(shape.sigfig == 3 && !shape.auto_resize && shape.bins == 23552);
    dkap_close(&h);

    CHECK(dkap_init_auto(&h, 7) == DKAP_E_SIGFIG_EXCEEDS_MAX && dkap_init_auto(&h, 2) == DKAP_OK);
    CHECK(dkap_record(&h, UINT64_MAX) == DKAP_OK && dkap_max(&h) == UINT64_MAX);
    CHECK(dkap_shape_of(&h, &shape) == DKAP_OK && shape.auto_resize && shape.bins == 7424);
    CHECK(dkap_init_auto(&h, 2) == DKAP_OK && dkap_auto_resize(&h, false) == DKAP_OK);
    CHECK(dkap_record(&h, UINT64_MAX) == DKAP_E_OUT_OF_RANGE && dkap_auto_resize(&h, true) == DKAP_OK);
    CHECK(dkap_record(&h, 1000) == DKAP_OK && dkap_record(&h, 0) == DKAP_OK);
    CHECK(dkap_clear(&h) == DKAP_OK && dkap_len(&h) == 0 && dkap_max(&h) == 1003);
    CHECK(dkap_reset(&h) == DKAP_OK && dkap_len(&h) == 0 && dkap_max(&h) == 0);
    dkap_close(&h);
}

static void closed(void)
{
    struct dkap_histogram h = DKAP_CLOSED, k = DKAP_CLOSED;
    struct dkap_fraction fraction;
    struct dkap_shape shape;
    struct dkap_class c = {0};
    uint64_t value = 5;
    uint8_t bytes[] = {1, 2, 3};
    size_t length = 9;

    CHECK(dkap_init_auto(&k, 3) == DKAP_OK);
    dkap_close(&h);
    dkap_close(&h);
    CHECK(dkap_reset(&h) == DKAP_E_CLOSED && dkap_clear(&h) == DKAP_E_CLOSED);
    CHECK(dkap_auto_resize(&h, true) == DKAP_E_CLOSED);
    CHECK(dkap_record(&h, 1) == DKAP_E_CLOSED && dkap_record_n(&h, 1, 2) == DKAP_E_CLOSED);
    CHECK(dkap_record_correct(&h, 9, 1, 3) == DKAP_E_CLOSED && dkap_record_saturating(&h, 9, 1) == DKAP_E_CLOSED);
    CHECK(dkap_record_all(&h, &value, 1, &length) == DKAP_E_CLOSED && length == 0);
    CHECK(dkap_copy(&k, &h) == DKAP_E_CLOSED && dkap_add(&k, &h) == DKAP_E_CLOSED && dkap_add(&h, &k) == DKAP_E_CLOSED);
    CHECK(dkap_add_correct(&h, &k, 1) == DKAP_E_CLOSED && dkap_add_correct(&k, &h, 1) == DKAP_E_CLOSED);
    CHECK(dkap_subtract(&h, &k) == DKAP_E_CLOSED && dkap_subtract(&k, &h) == DKAP_E_CLOSED);
    CHECK(!dkap_equal(&h, &k) && !dkap_equal(&k, &h) && !dkap_equal(&h, &h) && dkap_equal(&k, &k));
    CHECK(dkap_len(&h) == 0 && dkap_min(&h) == 0 && dkap_min_nz(&h) == 0 && dkap_max(&h) == 0);
    CHECK(dkap_count_at(&h, 1) == 0 && dkap_count_between(&h, 0, 9) == 0);
    CHECK(dkap_mean(&h, &fraction) == DKAP_E_CLOSED && dkap_quantile_below(&h, 1, &fraction) == DKAP_E_CLOSED);
    CHECK(dkap_standard_deviation(&h, &fraction) == DKAP_E_CLOSED);
    CHECK(dkap_value_at_quantile(&h, 1, 2, &value) == DKAP_E_CLOSED && dkap_shape_of(&h, &shape) == DKAP_E_CLOSED);
    CHECK(!dkap_next_class(&h, &c) && dkap_encode(&h, bytes, 3, &length) == DKAP_E_CLOSED && length == 0);
    CHECK(dkap_decode(&h, bytes, 3, DKAP_NO_LIMIT, &length) == DKAP_E_BYTES_END_EARLY && dkap_len(&h) == 0);
    dkap_close(&k);
}

static void recording(void)
{
    struct dkap_histogram h = DKAP_CLOSED;
    uint64_t values[] = {5, 6, 7, 4000, 8};
    size_t done = 99;

    CHECK(dkap_init(&h, 1, 1000, 3) == DKAP_OK);
    CHECK(dkap_record_all(&h, values, 5, &done) == DKAP_E_OUT_OF_RANGE && done == 3 && dkap_len(&h) == 3);
    CHECK(dkap_record_all(&h, values, 3, &done) == DKAP_OK && done == 3 && dkap_count_at(&h, 6) == 2);
    CHECK(dkap_record_all(&h, values, 0, &done) == DKAP_OK && done == 0);
    CHECK(dkap_record(&h, 2048) == DKAP_E_OUT_OF_RANGE && dkap_record(&h, UINT64_MAX) == DKAP_E_OUT_OF_RANGE);
    CHECK(dkap_record_n(&h, 2048, 0) == DKAP_E_OUT_OF_RANGE);
    CHECK(dkap_record_n(&h, 9, 10) == DKAP_OK && dkap_count_between(&h, 6, 9) == 14);
    CHECK(dkap_count_between(&h, 9, 6) == 0);
    CHECK(dkap_record_correct(&h, 100, 1, 20) == DKAP_OK && dkap_count_at(&h, 80) == 1 && dkap_count_at(&h, 20) == 1);
    CHECK(dkap_record_correct(&h, UINT64_MAX, UINT64_MAX, 1) == DKAP_E_OUT_OF_RANGE);
    CHECK(dkap_record_saturating(&h, UINT64_MAX, 2) == DKAP_OK && dkap_count_at(&h, 1000) == 2);
    CHECK(dkap_record_n(&h, 3, UINT64_MAX) == DKAP_OK && dkap_len(&h) == UINT64_MAX && dkap_record(&h, 3) == DKAP_OK);
    CHECK(dkap_count_at(&h, 3) == UINT64_MAX);
    dkap_close(&h);
}

static void reading(void)
{
    struct dkap_histogram h = DKAP_CLOSED;
    struct dkap_fraction fraction = {9, 9, 9};
    struct dkap_class c = {0};
    uint64_t value = 77, sum = 0, classes = 0;

    CHECK(dkap_init(&h, 1, UINT64_MAX, 3) == DKAP_OK);
    CHECK(dkap_mean(&h, &fraction) == DKAP_OK && fraction.num_low == 0 && fraction.num_high == 0 && fraction.den == 1);
    CHECK(dkap_min(&h) == 0 && dkap_max(&h) == 0 && dkap_min_nz(&h) == UINT64_MAX && !dkap_next_class(&h, &c));
    CHECK(dkap_quantile_below(&h, 5, &fraction) == DKAP_OK && fraction.num_low == 1 && fraction.den == 1);
    for (value = 1; value <= 100; value++)
        CHECK(dkap_record(&h, value) == DKAP_OK);
    CHECK(dkap_value_at_quantile(&h, 99, 100, &value) == DKAP_OK && value == 99);
    CHECK(dkap_value_at_quantile(&h, 1, 0, &value) == DKAP_E_ZERO_DENOMINATOR && value == 99);
    CHECK(dkap_value_at_quantile(&h, UINT64_MAX, 1, &value) == DKAP_OK && value == 100);
    CHECK(dkap_mean(&h, &fraction) == DKAP_OK && fraction.num_low == 5050 && fraction.den == 100);
    CHECK(dkap_standard_deviation(&h, &fraction) == DKAP_OK && fraction.num_low == 2886 && fraction.den == 100);
    CHECK(dkap_quantile_below(&h, 25, &fraction) == DKAP_OK && fraction.num_low == 25 && fraction.den == 100);
    CHECK(dkap_min(&h) == 1 && dkap_min_nz(&h) == 1 && dkap_max(&h) == 100);
    while (dkap_next_class(&h, &c)) {
        CHECK(c.lowest == c.highest);
        sum += c.count * c.lowest;
        classes++;
    }
    CHECK(sum == 5050 && classes == 100 && c.lowest == 100);
    c.next = SIZE_MAX;
    CHECK(!dkap_next_class(&h, &c) && c.next == SIZE_MAX);
    CHECK(dkap_record_n(&h, UINT64_MAX, UINT64_MAX / 2) == DKAP_OK);
    CHECK(dkap_mean(&h, &fraction) == DKAP_OK && fraction.num_high > 0);
    CHECK(dkap_record_n(&h, 1, UINT64_MAX) == DKAP_OK && dkap_mean(&h, &fraction) == DKAP_E_TOO_MANY_SAMPLES);
    CHECK(dkap_standard_deviation(&h, &fraction) == DKAP_E_TOO_MANY_SAMPLES);
    dkap_close(&h);
}

static void merging(void)
{
    struct dkap_histogram h = DKAP_CLOSED, k = DKAP_CLOSED;

    CHECK(dkap_init(&h, 1, 1000, 3) == DKAP_OK && dkap_init_auto(&k, 3) == DKAP_OK && dkap_record(&k, 700) == DKAP_OK);
    CHECK(dkap_add(&h, &k) == DKAP_OK && dkap_len(&h) == 1);
    CHECK(dkap_record(&k, 70000) == DKAP_OK && dkap_add(&h, &k) == DKAP_E_OUT_OF_RANGE && dkap_len(&h) == 1);
    CHECK(dkap_subtract(&h, &k) == DKAP_E_OUT_OF_RANGE && dkap_len(&k) == 2);
    CHECK(dkap_add_correct(&h, &k, 100) == DKAP_E_OUT_OF_RANGE && dkap_add(&k, &h) == DKAP_OK && dkap_len(&k) == 3);
    CHECK(dkap_subtract(&k, &h) == DKAP_OK && dkap_len(&k) == 2 && dkap_count_at(&k, 700) == 1);
    CHECK(dkap_record(&h, 700) == DKAP_OK && dkap_subtract(&k, &h) == DKAP_E_COUNT_TOO_GREAT && dkap_len(&k) == 2);
    CHECK(dkap_copy(&h, &k) == DKAP_OK && dkap_equal(&h, &k) && dkap_len(&h) == 2 && dkap_max(&h) == dkap_max(&k));
    CHECK(dkap_record(&h, 1) == DKAP_OK && !dkap_equal(&h, &k));
    CHECK(dkap_add_correct(&h, &k, 10000) == DKAP_OK && dkap_len(&h) == 3 + 2 + 6);

    CHECK(dkap_copy(&h, &h) == DKAP_E_SAME_HANDLE && dkap_add(&h, &h) == DKAP_E_SAME_HANDLE);
    CHECK(dkap_add_correct(&h, &h, 5) == DKAP_E_SAME_HANDLE && dkap_subtract(&h, &h) == DKAP_E_SAME_HANDLE);
    CHECK(dkap_equal(&h, &h) && dkap_len(&h) == 11);
    dkap_close(&h);
    dkap_close(&k);
}

static void encoding(void)
{
    struct dkap_histogram h = DKAP_CLOSED, k = DKAP_CLOSED;
    uint8_t bytes[4096];
    size_t needed = 1, taken = 1;
    uint64_t v;

    CHECK(dkap_init(&h, 1, UINT64_C(3600000000), 3) == DKAP_OK);
    for (v = 1; v < 4000; v += 7)
        CHECK(dkap_record_n(&h, v * v, v) == DKAP_OK);
    CHECK(dkap_encode(&h, bytes, 0, &needed) == DKAP_E_BUFFER_TOO_SMALL && needed > 40 && needed < sizeof bytes);
    memset(bytes, 0xaa, sizeof bytes);
    CHECK(dkap_encode(&h, bytes, needed - 1, &needed) == DKAP_E_BUFFER_TOO_SMALL && bytes[0] == 0xaa);
    CHECK(dkap_encode(&h, bytes, sizeof bytes, &needed) == DKAP_OK && bytes[needed] == 0xaa);
    CHECK(dkap_decode(&k, bytes, sizeof bytes, DKAP_NO_LIMIT, &taken) == DKAP_OK && taken == needed);
    CHECK(dkap_equal(&h, &k));
    CHECK(dkap_record_n(&h, 1, UINT64_C(1) << 63) == DKAP_OK);
    CHECK(dkap_encode(&h, bytes, sizeof bytes, &needed) == DKAP_E_COUNT_NOT_SERIALIZABLE && needed == 0);
    dkap_close(&h);
    dkap_close(&k);
}

/* The bytes of a histogram of 2 bins with a count of 1 in bin 1, and one change. */
static dkap_status decoded(struct dkap_histogram *h, size_t at, uint8_t byte, size_t length)
{
    uint8_t bytes[] = {0x1c, 0x84, 0x93, 0x13, 0, 0, 0, 2, 0, 0, 0, 0, 0, 0, 0, 0, 0, 0, 0, 0, 0,
                       0, 0, 1, 0, 0, 0, 0, 0, 0, 0, 2, 0x3f, 0xf0, 0, 0, 0, 0, 0, 0, 0, 2};
    size_t taken = 0;

    bytes[at] = byte;
    return dkap_decode(h, bytes, length, DKAP_NO_LIMIT, &taken);
}

/* The same header, and two runs of 2^63 empty bins. */
static dkap_status decoded_runs(struct dkap_histogram *h)
{
    uint8_t bytes[58] = {0x1c, 0x84, 0x93, 0x13, 0, 0, 0, 18, 0, 0, 0, 0, 0, 0, 0, 0, 0, 0, 0, 0, 0,
                         0, 0, 1, 0, 0, 0, 0, 0, 0, 0, 2, 0x3f, 0xf0};
    size_t taken = 0;

    memset(bytes + 40, 0xff, 18);
    return dkap_decode(h, bytes, sizeof bytes, DKAP_NO_LIMIT, &taken);
}

static void decoding(void)
{
    struct dkap_histogram h = DKAP_CLOSED;

    CHECK(decoded(&h, 0, 0x1c, 42) == DKAP_OK && dkap_len(&h) == 1 && dkap_count_at(&h, 1) == 1);
    CHECK(decoded(&h, 0, 0x1c, 41) == DKAP_E_BYTES_END_EARLY && decoded(&h, 0, 0x1c, 0) == DKAP_E_BYTES_END_EARLY);
    CHECK(decoded(&h, 0, 0x1d, 42) == DKAP_E_INVALID_COOKIE);
    CHECK(decoded(&h, 3, 0x14, 42) == DKAP_E_INVALID_STREAM);
    CHECK(decoded(&h, 11, 1, 42) == DKAP_E_UNSUPPORTED_FEATURE);
    CHECK(decoded(&h, 32, 0x40, 42) == DKAP_E_UNSUPPORTED_FEATURE);
    CHECK(decoded(&h, 15, 6, 42) == DKAP_E_INVALID_PARAMETERS && decoded(&h, 23, 0, 42) == DKAP_E_INVALID_PARAMETERS);
    CHECK(decoded(&h, 40, 0x13, 42) == DKAP_E_ENCODED_ARRAY_TOO_LONG);
    CHECK(decoded_runs(&h) == DKAP_E_USIZE_TOO_SMALL);
    CHECK(dkap_len(&h) == 1 && dkap_count_at(&h, 1) == 1);
    dkap_close(&h);
}

static dkap_status line(struct dkap_histogram *h, uint32_t nanos, const char *tag, uint8_t *buf, size_t length, size_t *needed)
{
    return dkap_log_line(h, 1, nanos, 2, 0, (const uint8_t *)tag, strlen(tag), buf, length, needed);
}

static void log_lines(void)
{
    struct dkap_histogram h = DKAP_CLOSED;
    uint8_t buf[200];
    size_t needed = 9;

    CHECK(line(&h, 0, "", buf, sizeof buf, &needed) == DKAP_E_CLOSED && needed == 0);
    CHECK(dkap_init_auto(&h, 3) == DKAP_OK && dkap_record(&h, 1) == DKAP_OK && dkap_record_n(&h, 2, 4) == DKAP_OK);
    CHECK(line(&h, 0, "a", buf, 3, &needed) == DKAP_E_BUFFER_TOO_SMALL && needed == 85);
    memset(buf, 'x', sizeof buf);
    CHECK(line(&h, 500000000, "a", buf, sizeof buf, &needed) == DKAP_OK && needed == 85);
    CHECK(memcmp(buf, "Tag=a,1.500,2.000,2.000,HISTEwAAAAMAAAAAAAAAAwAAAAAAAAABAAAAAAAAAAI/8AAAAAAAAAACCA==\nx", 86) == 0);
    CHECK(line(&h, 0, "", buf, sizeof buf, &needed) == DKAP_OK && memcmp(buf, "1.000,2.000,2.000,HIST", 22) == 0);
    CHECK(line(&h, 1000000000, "", buf, sizeof buf, &needed) == DKAP_E_TIME_OUT_OF_RANGE && needed == 0);
    CHECK(line(&h, 0, "a b", buf, sizeof buf, &needed) == DKAP_E_INVALID_TAG);
    CHECK(line(&h, 0, "a,b", buf, sizeof buf, &needed) == DKAP_E_INVALID_TAG);
    CHECK(line(&h, 0, "\xff", buf, sizeof buf, &needed) == DKAP_E_INVALID_TAG);
    CHECK(dkap_record_n(&h, 1, UINT64_C(1) << 63) == DKAP_OK);
    CHECK(line(&h, 0, "", buf, sizeof buf, &needed) == DKAP_E_COUNT_NOT_SERIALIZABLE && needed == 0);
    dkap_close(&h);
}

/* The status of the only line of a log. */
static dkap_status read_line(struct dkap_histogram *h, const char *text)
{
    struct dkap_interval interval = {0};

    return dkap_log_next(h, (const uint8_t *)text, strlen(text), DKAP_NO_LIMIT, &interval);
}

static void logs(void)
{
    static const char text[] = "#[BaseTime: 100.250 (seconds since epoch)]\n"
                               "Tag=a,1.500,2.000,2.000,HISTEwAAAAMAAAAAAAAAAwAAAAAAAAABAAAAAAAAAAI/8AAAAAAAAAACCA==\n"
                               "3.000,4.000,2.000,HISTEwAAAAIAAAAAAAAAAAAAAAAAAAABAAAAAAAAAAI/8AAAAAAAAAAC\n";
    struct dkap_histogram h = DKAP_CLOSED;
    struct dkap_interval interval = {0};
    const uint8_t *log = (const uint8_t *)text;

    CHECK(dkap_log_next(&h, log, strlen(text), DKAP_NO_LIMIT, &interval) == DKAP_OK && dkap_len(&h) == 5);
    CHECK(interval.start.seconds == 1);
    CHECK(interval.start.nanos == 500000000 && interval.duration.seconds == 2 && interval.has_base);
    CHECK(interval.base.seconds == 100 && interval.base.nanos == 250000000);
    CHECK(interval.tag_length == 1 && text[interval.tag_at] == 'a');
    CHECK(dkap_log_next(&h, log, strlen(text), DKAP_NO_LIMIT, &interval) == DKAP_OK && dkap_len(&h) == 1);
    CHECK(interval.tag_length == 0);
    CHECK(interval.next == strlen(text) && interval.has_base && interval.start.seconds == 3);
    CHECK(dkap_log_next(&h, log, strlen(text), DKAP_NO_LIMIT, &interval) == DKAP_LOG_END && dkap_len(&h) == 1);
    CHECK(read_line(&h, "") == DKAP_LOG_END && read_line(&h, "# a comment\n") == DKAP_LOG_END);
    CHECK(read_line(&h, "1.000,2.000\n") == DKAP_E_INVALID_LINE);
    CHECK(read_line(&h, "1.0,2.0,3.0,HIST") == DKAP_E_INVALID_LINE);
    CHECK(read_line(&h, "1.0,2.0,3.0,?\n") == DKAP_E_NOT_BASE64);
    CHECK(read_line(&h, "1.0,2.0,3.0,HIST\n") == DKAP_E_BYTES_END_EARLY);
    CHECK(read_line(&h, "1.0,2.0,3.0,AAAAAAAA\n") == DKAP_E_INVALID_COOKIE && dkap_len(&h) == 1);
    interval.next = SIZE_MAX;
    CHECK(dkap_log_next(&h, log, strlen(text), DKAP_NO_LIMIT, &interval) == DKAP_LOG_END);
    dkap_close(&h);
}

/* Histograms of version 1 and 0, compressed ones, and one of version 2 by Java: their counts, by the formats' definition. */
static void other_forms(void)
{
    static const char v1[] = "HISTggAAACl42pNpmdzIwMDEAAWMaHSK/QcGZMDIgB0wMYwCYgArgXActAAA7/gDVQ==";
    static const char v0[] = "HISTiQAAACd42pNpmdzBwMDAyAABMDoFSnOiiaMDJoZRQAxgJRCOgxYAAJg6AjQ=";
    static const char plain_v1[] =
        "HISTgQAAADAAAAAAAAAAAAAAAAAAAAAEAAAAAAAAA+g/8AAAAAAAAAAAAAAAAAAAAAAAAAAAAAMAAAAA"
        "AAAAAAAAAAAAAAAAAAAAAAAAAAAAAAAAAAAAAQ==";
    static const char java[] = "HISTFAAAABx42pNpmSzMwMDAzAABMJoRSjPZf4CxOABCFwKJ";
    struct dkap_histogram h = DKAP_CLOSED;
    struct dkap_interval interval = {0};
    char text[512];

    snprintf(text, sizeof text, " \t\r\n1.0,1.0,2.0,%s\n\n2.0,1.0,2.0,%s\n3.0,1.0,2.0,%s\r\n4.0,1.0,2.0,%s\n \n", v1, v0,
             plain_v1, java);
    CHECK(dkap_log_next(&h, (const uint8_t *)text, strlen(text), DKAP_NO_LIMIT, &interval) == DKAP_OK);
    CHECK(dkap_len(&h) == 9 && dkap_count_at(&h, 3) == 2 && dkap_count_at(&h, 48) == 5 && dkap_count_at(&h, 50) == 1);
    CHECK(dkap_log_next(&h, (const uint8_t *)text, strlen(text), DKAP_NO_LIMIT, &interval) == DKAP_OK);
    CHECK(dkap_len(&h) == 9 && dkap_count_at(&h, 0) == 1 && dkap_count_at(&h, 49) == 5 && interval.start.seconds == 2);
    CHECK(dkap_log_next(&h, (const uint8_t *)text, strlen(text), DKAP_NO_LIMIT, &interval) == DKAP_OK);
    CHECK(dkap_len(&h) == 4 && dkap_count_at(&h, 7) == 3 && dkap_count_at(&h, 64) == 1 && dkap_max(&h) == 127);
    CHECK(dkap_log_next(&h, (const uint8_t *)text, strlen(text), 4, &interval) == DKAP_E_TOO_MANY_BINS);
    CHECK(interval.next == strlen(text) - 2 && dkap_len(&h) == 4);
    CHECK(dkap_log_next(&h, (const uint8_t *)text, strlen(text), 4, &interval) == DKAP_LOG_END);
    CHECK(read_line(&h, "1.0,1.0,2.0,HISTFAAAABx42pNpmSzMwMDAzAABMJoRSjPZf4CxOABCFwKK\n") == DKAP_E_INVALID_STREAM);
    CHECK(read_line(&h, "1.0,1.0,2.0,HISTFAAAABx42pNpmSzMwMDAzAAB\n") == DKAP_E_BYTES_END_EARLY);

    dkap_close(&h);
}

/* A log with headers, a comment with the unit, and a compressed line: what other libraries read, and it is read again. */
static void written_log(void)
{
    static const uint8_t version[] = "[Histogram log format version 1.3]", unit[] = "[Values are in us]", bad[] = {0xff};
    static const uint8_t windows[] = "#[Values are in ms]\r\n#[Values have 3 decimals]\r\n#[Values have 2 decimals]\n";
    static const uint8_t invalid[] = "#[Values have 19 decimals]\n#[Values are in m]\n#[Values have 2 decimals]";
    struct dkap_histogram h = DKAP_CLOSED, k = DKAP_CLOSED;
    struct dkap_interval interval = {0};
    struct dkap_log_header header;
    uint8_t log[1024];
    size_t at = 0, needed = 0;

    CHECK(dkap_init(&h, 1, 1000000, 3) == DKAP_OK && dkap_record_n(&h, 777, 5) == DKAP_OK);
    dkap_log_header_of(log, 0, &header);
    CHECK(!header.has_start_time && header.decimals == 0 && header.unit_nanos == 0 && header.start_time.seconds == 0);
    dkap_log_header_of(windows, sizeof windows - 1, &header);
    CHECK(!header.has_start_time && header.decimals == 3 && header.unit_nanos == 1000000);
    dkap_log_header_of(invalid, sizeof invalid - 1, &header);
    CHECK(header.decimals == 0 && header.unit_nanos == 0);
    CHECK(dkap_log_comment(version, sizeof version - 1, log, 10, &needed) == DKAP_E_BUFFER_TOO_SMALL && needed == 36);
    CHECK(dkap_log_comment(bad, 1, log, sizeof log, &needed) == DKAP_E_NOT_UTF8 && needed == 0);
    CHECK(dkap_log_comment(version, sizeof version - 1, log, sizeof log, &needed) == DKAP_OK && needed == 36);
    at += needed;
    CHECK(dkap_log_start_time(1700000000, 123000000, log + at, sizeof log - at, &needed) == DKAP_OK);
    CHECK(memcmp(log + at, "#[StartTime: 1700000000.123 (seconds since epoch)]\n", needed) == 0 && needed == 51);
    at += needed;
    CHECK(dkap_log_base_time(5, 0, log + at, sizeof log - at, &needed) == DKAP_OK && needed == 41);
    at += needed;
    CHECK(dkap_log_base_time(5, 1000000000, log, sizeof log, &needed) == DKAP_E_TIME_OUT_OF_RANGE && needed == 0);
    CHECK(dkap_log_comment(unit, sizeof unit - 1, log + at, sizeof log - at, &needed) == DKAP_OK);
    at += needed;
    CHECK(dkap_log_line_compressed(&h, 1, 5, 2, 7, (const uint8_t *)"a", 1, log + at, sizeof log - at, &needed) == DKAP_OK);
    CHECK(memcmp(log + at, "Tag=a,1.000,2.000,777.000,HISTFA", 32) == 0);
    at += needed;
    dkap_log_header_of(log, at, &header);
    CHECK(header.has_start_time && header.start_time.seconds == 1700000000 && header.start_time.nanos == 123000000);
    CHECK(header.unit_nanos == 1000 && header.decimals == 0);
    CHECK(dkap_log_next(&k, log, at, DKAP_NO_LIMIT, &interval) == DKAP_OK && dkap_equal(&h, &k) && interval.next == at);
    CHECK(interval.has_base && interval.base.seconds == 5 && interval.tag_length == 1);
    CHECK(dkap_encode_compressed(&h, log, sizeof log, &needed) == DKAP_OK && log[3] == 0x14);
    CHECK(dkap_decode(&k, log, needed, DKAP_NO_LIMIT, &at) == DKAP_OK && at == needed && dkap_equal(&h, &k));
    CHECK(dkap_decode(&k, log, needed, 100, &at) == DKAP_E_TOO_MANY_BINS && at == 0 && dkap_equal(&h, &k));
    CHECK(dkap_encode(&h, log, sizeof log, &needed) == DKAP_OK);
    CHECK(dkap_decode(&k, log, needed, 100, &at) == DKAP_E_TOO_MANY_BINS && at == 0 && dkap_equal(&h, &k));
    CHECK(dkap_encode_compressed(&h, log, 3, &needed) == DKAP_E_BUFFER_TOO_SMALL && needed > 3);
    CHECK(dkap_record_n(&h, 1, UINT64_C(1) << 63) == DKAP_OK);
    CHECK(dkap_encode_compressed(&h, log, sizeof log, &needed) == DKAP_E_COUNT_NOT_SERIALIZABLE && needed == 0);
    dkap_close(&h);
    CHECK(dkap_encode_compressed(&h, log, sizeof log, &needed) == DKAP_E_CLOSED && needed == 0);
    CHECK(dkap_log_line_compressed(&h, 1, 5, 2, 7, log, 0, log + 1, 9, &needed) == DKAP_E_CLOSED);
    dkap_close(&k);
}

/* Classes with 2 digits: values up to 255 are alone, then 2 count together up to 511, and so on. */
static void classes(void)
{
    struct dkap_histogram h = DKAP_CLOSED;

    CHECK(dkap_lowest_equivalent(&h, 5) == 0 && dkap_highest_equivalent(&h, 5) == 0);
    CHECK(dkap_median_equivalent(&h, 5) == 0);
    CHECK(dkap_next_non_equivalent(&h, 5) == 0 && dkap_equivalent_range(&h, 5) == 0 && !dkap_equivalent(&h, 5, 5));
    CHECK(dkap_init(&h, 1, 1000, 2) == DKAP_OK);
    CHECK(dkap_lowest_equivalent(&h, 515) == 512 && dkap_highest_equivalent(&h, 515) == 515);
    CHECK(dkap_median_equivalent(&h, 515) == 514 && dkap_next_non_equivalent(&h, 515) == 516);
    CHECK(dkap_equivalent_range(&h, 515) == 4 && dkap_equivalent_range(&h, 7) == 1);
    CHECK(dkap_equivalent(&h, 512, 515) && !dkap_equivalent(&h, 511, 512));
    CHECK(dkap_next_non_equivalent(&h, UINT64_MAX) == UINT64_MAX);
    CHECK(dkap_highest_equivalent(&h, UINT64_MAX) == UINT64_MAX);
    dkap_close(&h);
}

/* The steps of the values 1 to 100, each recorded once. */
static void steps(void)
{
    static const uint64_t log_values[] = {9, 19, 39, 79, 159}, log_counts[] = {9, 10, 20, 40, 21};
    static const uint64_t quantile_values[] = {1, 50, 75, 88, 94, 97, 99, 100, 100};
    static const uint64_t quantile_counts[] = {1, 49, 25, 13, 6, 3, 2, 1, 0};
    struct dkap_histogram h = DKAP_CLOSED;
    uint64_t values[12] = {0}, counts[12] = {0}, value;
    size_t done = 9, i;

    CHECK(dkap_linear_steps(&h, 10, values, 12, counts, 12, &done) == DKAP_E_CLOSED && done == 0);
    CHECK(dkap_log_steps(&h, 10, 2, values, 12, counts, 12, &done) == DKAP_E_CLOSED);
    CHECK(dkap_quantile_steps(&h, 1, values, 12, counts, 12, &done) == DKAP_E_CLOSED);
    CHECK(dkap_init(&h, 1, 1000, 3) == DKAP_OK);
    CHECK(dkap_quantile_steps(&h, 1, values, 12, counts, 12, &done) == DKAP_OK && done == 0);
    for (value = 1; value <= 100; value++)
        CHECK(dkap_record(&h, value) == DKAP_OK);
    values[11] = counts[11] = 77;
    CHECK(dkap_linear_steps(&h, 10, values, 12, counts, 12, &done) == DKAP_OK && done == 11);
    for (i = 0; i < 11; i++)
        CHECK(values[i] == 10 * i + 9 && counts[i] == (i == 0 ? 9 : i == 10 ? 1 : 10));
    CHECK(values[11] == 77 && counts[11] == 77);
    CHECK(dkap_linear_steps(&h, 20, values, 3, counts, 12, &done) == DKAP_OK && done == 3 && values[3] == 39);
    CHECK(dkap_linear_steps(&h, 0, values, 12, counts, 12, &done) == DKAP_E_INVALID_STEP && done == 0);
    CHECK(dkap_log_steps(&h, 10, 2, values, 12, counts, 12, &done) == DKAP_OK && done == 5);
    CHECK(memcmp(values, log_values, sizeof log_values) == 0 && memcmp(counts, log_counts, sizeof log_counts) == 0);
    CHECK(dkap_log_steps(&h, 10, 1, values, 12, counts, 12, &done) == DKAP_E_INVALID_STEP);
    CHECK(dkap_log_steps(&h, 0, 2, values, 12, counts, 12, &done) == DKAP_E_INVALID_STEP);
    CHECK(dkap_quantile_steps(&h, 1, values, 12, counts, 12, &done) == DKAP_OK && done == 9);
    CHECK(memcmp(values, quantile_values, sizeof quantile_values) == 0);
    CHECK(memcmp(counts, quantile_counts, sizeof quantile_counts) == 0);
    CHECK(dkap_quantile_steps(&h, 0, values, 12, counts, 12, &done) == DKAP_E_INVALID_STEP);
    dkap_close(&h);
}

static void quantiles(void)
{
    static const uint64_t nums[] = {500, 0, 999, 1000, 5000, 1};
    struct dkap_histogram h = DKAP_CLOSED;
    struct dkap_fraction fraction;
    uint64_t values[7] = {0}, value = 0;

    CHECK(dkap_values_at_quantiles(&h, nums, 6, 1000, values, 7) == DKAP_E_CLOSED);
    CHECK(dkap_value_at_percentile(&h, 1, 2, &value) == DKAP_E_CLOSED);
    CHECK(dkap_percentile_below(&h, 1, &fraction) == DKAP_E_CLOSED);
    CHECK(dkap_init(&h, 1, 10000, 4) == DKAP_OK);
    for (value = 1; value <= 10000; value++)
        CHECK(dkap_record(&h, value) == DKAP_OK);
    values[6] = 77;
    CHECK(dkap_values_at_quantiles(&h, nums, 6, 1000, values, 7) == DKAP_OK && values[0] == 5000 && values[1] == 1);
    CHECK(values[2] == 9990 && values[3] == 10000 && values[4] == 10000 && values[5] == 10 && values[6] == 77);
    CHECK(dkap_values_at_quantiles(&h, nums, 6, 1000, values, 5) == DKAP_E_BUFFER_TOO_SMALL);
    CHECK(dkap_values_at_quantiles(&h, nums, 6, 0, values, 7) == DKAP_E_ZERO_DENOMINATOR && values[0] == 5000);
    CHECK(dkap_values_at_quantiles(&h, nums, 0, 1, values, 0) == DKAP_OK && values[0] == 5000);
    CHECK(dkap_value_at_percentile(&h, 999, 10, &value) == DKAP_OK && value == 9990);
    CHECK(dkap_value_at_percentile(&h, 1, 0, &value) == DKAP_E_ZERO_DENOMINATOR && value == 9990);
    CHECK(dkap_percentile_below(&h, 2500, &fraction) == DKAP_OK && fraction.num_low == 250000 && fraction.den == 10000);
    dkap_close(&h);
}

static void texts(void)
{
    dkap_status status;

    for (status = 0; status <= DKAP_E_INVALID_STEP; status++)
        CHECK(strlen(dkap_strerror(status)) > 5 && strcmp(dkap_strerror(status), "unknown status") != 0);
    CHECK(strcmp(dkap_strerror(status), "unknown status") == 0);
    CHECK(strcmp(dkap_strerror(UINT32_MAX), "unknown status") == 0);
    CHECK(dkap_version()[0] >= '1' && dkap_version()[0] <= '9' && strchr(dkap_version(), '.') != NULL);
}

int main(void)
{
    creation();
    closed();
    recording();
    reading();
    merging();
    encoding();
    decoding();
    log_lines();
    logs();
    other_forms();
    written_log();
    classes();
    quantiles();
    steps();
    texts();
    return checked();
}
