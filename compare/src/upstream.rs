//! The workloads over the Rust crate.

use hdrhistogram::Histogram;
use hdrhistogram::serialization::interval_log::{IntervalLogIterator, IntervalLogWriterBuilder, LogEntry};
use hdrhistogram::serialization::{Deserializer, Serializer, V2Serializer};
use std::hint::black_box;
use std::time::Duration;

const HIGH: u64 = 3_600_000_000;

fn step(x: u64) -> u64 {
    let x = x ^ (x << 13);
    let x = x ^ (x >> 7);
    x ^ (x << 17)
}

/// A value from 1 to the highest.
fn value(x: u64) -> u64 {
    1 + (((x >> 32) * HIGH) >> 32)
}

fn empty() -> Histogram<u64> {
    Histogram::new_with_max(HIGH, 3).expect("lawful bounds")
}

/// A histogram in which each class up to the highest value holds 1 to 1024.
fn filled(seed: u64) -> Histogram<u64> {
    filled_at_each(seed, 1)
}

/// A histogram in which the first of each `every` classes up to the highest value holds 1 to 1024.
fn filled_at_each(seed: u64, every: usize) -> Histogram<u64> {
    let mut histogram = empty();
    let (mut x, mut value, mut passed) = (seed, 0, 0);
    while value <= HIGH {
        if passed == 0 {
            passed = every;
            x = step(x);
            histogram.record_n(value, (x >> 54) + 1).expect("inside the bins");
        }
        passed -= 1;
        value = histogram.next_non_equivalent(value);
    }
    histogram
}

pub fn generate(seed: u64, n: u64) -> u64 {
    let (mut x, mut sum) = (seed, 0u64);
    for _ in 0..n {
        x = step(x);
        sum = sum.wrapping_add(value(x));
    }
    sum
}

pub fn record(seed: u64, n: u64) -> u64 {
    let (mut histogram, mut x) = (empty(), seed);
    for _ in 0..n {
        x = step(x);
        histogram.record(value(x)).expect("inside the bins");
    }
    histogram.len().wrapping_add(histogram.max())
}

pub fn correct(seed: u64, n: u64, interval: u64) -> u64 {
    let (mut histogram, mut x) = (empty(), seed);
    for _ in 0..n {
        x = step(x);
        let late = HIGH / 2 + value(x) / 2;
        histogram.record_n_correct(late, (x & 7) + 1, interval).expect("inside the bins");
    }
    histogram.len().wrapping_add(histogram.max())
}

pub fn quantile(seed: u64, n: u64, num: u64, den: u64) -> u64 {
    let histogram = filled(seed);
    let mut sum = 0u64;
    for _ in 0..n {
        let quantile = black_box(num) as f64 / black_box(den) as f64;
        sum = sum.wrapping_add(black_box(&histogram).value_at_quantile(quantile));
    }
    sum
}

pub fn add(seed: u64, n: u64) -> u64 {
    let mut sum = filled(seed);
    let source = filled(step(seed));
    for _ in 0..n {
        sum.add(black_box(&source)).expect("equal shapes");
    }
    sum.len()
}

pub fn serialize(seed: u64, n: u64) -> u64 {
    let histogram = filled(seed);
    let (mut serializer, mut bytes, mut sum) = (V2Serializer::new(), Vec::new(), 0u64);
    for _ in 0..n {
        bytes.clear();
        serializer.serialize(black_box(&histogram), &mut bytes).expect("counts below 2^63");
        let last = bytes.last().copied().unwrap_or(0);
        sum = sum.wrapping_add(bytes.len() as u64).wrapping_add(u64::from(last));
    }
    sum
}

/// A histogram in which 100 classes hold 1 to 1024: 99 in a row from 1 ms on, and that of the highest value.
fn sparse(seed: u64) -> Histogram<u64> {
    let mut histogram = empty();
    let (mut x, mut value) = (seed, 1000);
    for _ in 0..99 {
        x = step(x);
        histogram.record_n(value, (x >> 54) + 1).expect("inside the bins");
        value = histogram.next_non_equivalent(value);
    }
    histogram.record(HIGH).expect("inside the bins");
    histogram
}

/// A histogram in which one class in 235 holds 1 to 1024.
fn scattered(seed: u64) -> Histogram<u64> {
    let mut histogram = empty();
    let (mut x, mut value, mut class) = (seed, 0, 0);
    while value <= HIGH {
        if class % 235 == 117 {
            x = step(x);
            histogram.record_n(value, (x >> 54) + 1).expect("inside the bins");
        }
        value = histogram.next_non_equivalent(value);
        class += 1;
    }
    histogram
}

fn recorded_sum(histogram: &Histogram<u64>, n: u64) -> u64 {
    let mut sum = 0u64;
    for _ in 0..n {
        for item in black_box(histogram).iter_recorded() {
            sum = sum.wrapping_add(item.value_iterated_to() ^ item.count_at_value());
        }
    }
    sum
}

pub fn iter_recorded(seed: u64, n: u64) -> u64 {
    recorded_sum(&filled(seed), n)
}

pub fn iter_recorded_few(seed: u64, n: u64) -> u64 {
    recorded_sum(&sparse(seed), n)
}

pub fn iter_recorded_apart(seed: u64, n: u64) -> u64 {
    recorded_sum(&scattered(seed), n)
}

pub fn iter_linear(seed: u64, n: u64, width: u64) -> u64 {
    let histogram = filled(seed);
    let mut sum = 0u64;
    for _ in 0..n {
        for item in black_box(&histogram).iter_linear(width) {
            sum = sum.wrapping_add(item.value_iterated_to() ^ item.count_since_last_iteration());
        }
    }
    sum
}

pub fn iter_log(seed: u64, n: u64) -> u64 {
    let histogram = filled(seed);
    let mut sum = 0u64;
    for _ in 0..n {
        for item in black_box(&histogram).iter_log(1, 2.0) {
            sum = sum.wrapping_add(item.value_iterated_to() ^ item.count_since_last_iteration());
        }
    }
    sum
}

pub fn iter_quantiles(seed: u64, n: u64) -> u64 {
    let histogram = filled(seed);
    let mut sum = 0u64;
    for _ in 0..n {
        for item in black_box(&histogram).iter_quantiles(5) {
            sum = sum.wrapping_add(item.value_iterated_to() ^ item.count_since_last_iteration());
        }
    }
    sum
}

pub fn values(seed: u64, n: u64) -> u64 {
    let histogram = filled(seed);
    let quantiles: Vec<f64> = (1..21).map(|num| f64::from(num) / 20.0).collect();
    let mut sum = 0u64;
    for _ in 0..n {
        for value in black_box(&histogram).value_at_quantiles(quantiles.iter().copied()) {
            sum = sum.wrapping_add(value);
        }
    }
    sum
}

pub fn quantile_below(seed: u64, n: u64) -> u64 {
    let histogram = filled(seed);
    let len = histogram.len() as f64;
    let (mut x, mut sum) = (seed, 0u64);
    for _ in 0..n {
        x = step(x);
        let share = black_box(&histogram).quantile_below(HIGH >> (x & 31));
        sum = sum.wrapping_add((share * len).round() as u64);
    }
    sum
}

pub fn iter_all(seed: u64, n: u64) -> u64 {
    let histogram = filled(seed);
    let mut sum = 0u64;
    for _ in 0..n {
        for item in black_box(&histogram).iter_all() {
            sum = sum.wrapping_add(item.value_iterated_to() ^ item.count_at_value());
        }
    }
    sum
}

pub fn quantile_below_median(seed: u64, n: u64) -> u64 {
    let histogram = filled(seed);
    let (len, median) = (histogram.len() as f64, histogram.value_at_quantile(0.5));
    let (mut x, mut sum) = (seed, 0u64);
    for _ in 0..n {
        x = step(x);
        let share = black_box(&histogram).quantile_below(median + (x & 1023));
        sum = sum.wrapping_add((share * len).round() as u64);
    }
    sum
}

pub fn decode(seed: u64, n: u64) -> u64 {
    decode_each(seed, n, 1)
}

/// The first of each so many classes is filled, 100 of them.
pub fn decode_few(seed: u64, n: u64) -> u64 {
    decode_each(seed, n, 233)
}

/// What `decode_few` takes at least: counters made 0 for each of its histograms, and nothing decoded.
pub fn zeros(seed: u64, n: u64) -> u64 {
    let histogram = filled_at_each(seed, 233);
    let (len, bins) = (histogram.len(), histogram.distinct_values());
    let mut sum = 0u64;
    for _ in 0..n {
        let counters = black_box(vec![0u64; bins]);
        sum = sum.wrapping_add(len + counters[bins - 1]);
    }
    sum
}

fn decode_each(seed: u64, n: u64, every: usize) -> u64 {
    let histogram = filled_at_each(seed, every);
    let mut bytes = Vec::new();
    let _ = V2Serializer::new().serialize(&histogram, &mut bytes).expect("counts below 2^63");
    let (mut deserializer, mut sum) = (Deserializer::new(), 0u64);
    for _ in 0..n {
        let read: Histogram<u64> = deserializer.deserialize(&mut black_box(&bytes[..])).expect("written by the crate");
        sum = sum.wrapping_add(read.len());
    }
    sum
}

/// An interval's histogram: 2,000 classes from 1 ms on hold 1 to 1024 each.
fn interval(seed: u64) -> Histogram<u64> {
    let mut histogram = Histogram::new_with_max(HIGH, 3).expect("lawful bounds");
    let (mut x, mut value) = (seed, 1000);
    for _ in 0..2000 {
        x = step(x);
        histogram.record_n(value, (x >> 54) + 1).expect("within the bounds");
        value = histogram.next_non_equivalent(value);
    }
    histogram
}

/// Adds the line of an interval that began so many milliseconds after the epoch to a text.
fn push_line(text: &mut Vec<u8>, serializer: &mut V2Serializer, histogram: &Histogram<u64>, start: u64) {
    let mut log = IntervalLogWriterBuilder::new().begin_log_with(text, serializer).expect("a text takes all");
    let (start, duration) = (Duration::from_millis(start), Duration::from_millis(1000));
    log.write_histogram(histogram, start, duration, None).expect("counts below 2^63");
}

pub fn log_line(seed: u64, n: u64) -> u64 {
    let histogram = interval(seed);
    let (mut serializer, mut text, mut sum) = (V2Serializer::new(), Vec::new(), 0u64);
    for start in 0..n {
        text.clear();
        push_line(&mut text, &mut serializer, black_box(&histogram), start);
        sum = sum.wrapping_add(text.len() as u64);
    }
    sum
}

pub fn log_read(seed: u64, n: u64) -> u64 {
    let histogram = interval(seed);
    let (mut serializer, mut text, mut sum) = (V2Serializer::new(), Vec::new(), 0u64);
    for start in 0..100 {
        push_line(&mut text, &mut serializer, &histogram, start);
    }
    for _ in 0..n {
        for entry in IntervalLogIterator::new(black_box(&text)) {
            if let Ok(LogEntry::Interval(interval)) = entry {
                sum = sum.wrapping_add(interval.encoded_histogram().len() as u64);
                sum = sum.wrapping_add((interval.start_timestamp().as_millis() % 1000) as u64);
            }
        }
    }
    sum
}
