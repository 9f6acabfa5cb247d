/* The table of percentiles. */
#include <inttypes.h>

#include "compat.h"

static bool print_row(const struct hdr_iter *iter, FILE *stream, double scale, format_type format)
{
    const char *row = format == CSV ? "%.*f,%f,%" PRId64 ",%.2f\n" : "%12.*f %12f %12" PRId64 " %12.2f\n";
    double quantile = iter->specifics.percentiles.percentile / 100.0;

    return fprintf(stream, row, iter->h->significant_figures, (double)iter->highest_equivalent_value / scale, quantile,
                   iter->cumulative_count, 1.0 / (1.0 - quantile)) >= 0;
}

static bool print_footer(const struct hdr_histogram *h, FILE *stream, double scale)
{
    return fprintf(stream, "#[Mean    = %12.3f, StdDeviation   = %12.3f]\n", hdr_mean(h) / scale,
                   hdr_stddev(h) / scale) >= 0 &&
           fprintf(stream, "#[Max     = %12.3f, Total count    = %12" PRId64 "]\n", (double)hdr_max(h) / scale,
                   h->total_count) >= 0 &&
           fprintf(stream, "#[Buckets = %12d, SubBuckets     = %12d]\n", h->bucket_count, h->sub_bucket_count) >= 0;
}

int hdr_percentiles_print(struct hdr_histogram *h, FILE *stream, int32_t ticks_per_half_distance, double value_scale,
                          format_type format)
{
    const char *head = format == CSV ? "%s,%s,%s,%s\n" : "%12s %12s %12s %12s\n\n";
    struct hdr_iter iter;

    if (fprintf(stream, head, "Value", "Percentile", "TotalCount", "1/(1-Percentile)") < 0)
        return EIO;
    hdr_iter_percentile_init(&iter, h, ticks_per_half_distance);
    while (hdr_iter_next(&iter))
        if (!print_row(&iter, stream, value_scale, format))
            return EIO;
    return format != CSV && !print_footer(h, stream, value_scale) ? EIO : 0;
}
