//! The command `merge`.
//!
//! The crate's parser takes tags that are errors of `Tag::new`, and greatest values that are no plain decimals. Its tops of last
//! classes reach into the `high` of a sum. Here the lines are errors, and `high` is exact.

use crate::bytes::{high_of, top};
use crate::fault::Fault;
use crate::field::{FieldError, FieldReader};
use crate::lines::new_histogram;
use crate::options::Options;
use crate::report::Counted;
use hdrhistogram::Histogram;
use hdrhistogram::serialization::interval_log::{
    IntervalLogHistogram, IntervalLogIterator, LogEntry, LogIteratorError, Tag,
};
use std::time::Duration;

/// Adds the chosen intervals of a log to an empty histogram that grows. The others are counted alone.
pub fn sum_of(options: &Options<'_>, sigfig: u8, log: &[u8]) -> Result<Sum, Fault> {
    let mut sum = Sum::new(sigfig);
    let mut fields = FieldReader::new();
    let (mut intervals, mut base) = (0, Duration::ZERO);
    for entry in IntervalLogIterator::new(log) {
        match entry {
            Ok(LogEntry::Interval(interval)) => {
                if !is_right(log, &interval) {
                    return Err(Fault::NotALog(line_start(log, &interval)));
                }
                intervals += 1;
                let tag = interval.tag();
                let time = base.as_nanos() + interval.start_timestamp().as_nanos();
                if !options.choose(tag.as_ref().map(Tag::as_str), time) {
                    continue;
                }
                let source = fields.read(interval.encoded_histogram()).map_err(|error| match error {
                    FieldError::NotBase64 => Fault::NotBase64(intervals),
                    FieldError::NotRead(cause) => Fault::NotRead(intervals, cause),
                })?;
                sum.add(&source);
            }
            Ok(LogEntry::StartTime(_)) => {}
            Ok(LogEntry::BaseTime(time)) => base = time,
            Err(LogIteratorError::ParseError { offset }) => return Err(Fault::NotALog(offset)),
        }
    }
    Ok(sum)
}

/// Whether an interval that the crate took has a right tag and a right greatest value.
fn is_right(log: &[u8], interval: &IntervalLogHistogram<'_>) -> bool {
    let has_right_tag = interval.tag().is_none_or(|tag| Tag::new(tag.as_str()).is_some());
    // One comma stands between the greatest value and the field.
    let front = &log[..offset(log, interval.encoded_histogram()) - 1];
    let max = front.rsplit(|byte| *byte == b',').next().expect("a split has a first part");
    has_right_tag && is_decimal(max)
}

/// Whether a text is digits, with at most one point before, among or after them.
fn is_decimal(text: &[u8]) -> bool {
    let points = text.iter().filter(|byte| **byte == b'.').count();
    let digits = text.iter().filter(|byte| byte.is_ascii_digit()).count();
    points <= 1 && digits >= 1 && points + digits == text.len()
}

/// Where the line of an interval begins.
fn line_start(log: &[u8], interval: &IntervalLogHistogram<'_>) -> usize {
    match interval.tag() {
        // A tag that the crate took may hold line feeds.
        Some(tag) => offset(log, tag.as_str()) - "Tag=".len(),
        None => {
            let front = &log[..offset(log, interval.encoded_histogram())];
            front.iter().rposition(|byte| *byte == b'\n').map_or(0, |at| at + 1)
        }
    }
}

/// Where a part of a log begins.
fn offset(log: &[u8], part: &str) -> usize {
    part.as_ptr().addr() - log.as_ptr().addr()
}

/// A sum of histograms.
pub struct Sum {
    histogram: Histogram<u64>,
    /// The greatest value that its bins were made for.
    high: u64,
}

impl Sum {
    fn new(sigfig: u8) -> Sum {
        let histogram = new_histogram(sigfig);
        Sum { high: high_of(&histogram), histogram }
    }

    fn add(&mut self, source: &Histogram<u64>) {
        let max = top(source, source.max());
        if !source.is_empty() && self.reach() < u128::from(max) {
            self.high = max;
        }
        self.histogram.add(source).expect("a histogram that grows takes all");
    }

    /// The sum by counters up to a greatest count. Cutting at the end leaves what cutting at each step leaves.
    pub fn cut(self, greatest: u64) -> Counted {
        let Sum { histogram, high } = self;
        let total = histogram.len();
        if greatest == u64::MAX {
            return Counted { bins: histogram, total, high };
        }
        let mut bins = histogram.clone();
        bins.reset();
        for class in histogram.iter_recorded() {
            let count = class.count_at_value().min(greatest);
            bins.record_n(class.value_iterated_to(), count).expect("the bins are the same");
        }
        Counted { bins, total, high }
    }

    /// The greatest value that has a bin, where the unit is 1.
    fn reach(&self) -> u128 {
        let buckets = usize::from(self.histogram.buckets());
        let bins = 2 * self.histogram.distinct_values() / (buckets + 1);
        ((bins as u128) << (buckets - 1)) - 1
    }
}
