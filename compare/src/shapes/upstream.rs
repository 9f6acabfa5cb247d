//! The operations over the Rust crate.

use super::rows::Operation;
use hdrhistogram::Histogram;
use hdrhistogram::serialization::{Deserializer, Serializer, V2Serializer};
use std::hint::black_box;

const MIDDLE: u64 = 1000;

struct Shape<'a> {
    sigfig: u8,
    high: u64,
    samples: &'a [u64],
}

impl Shape<'_> {
    fn empty(&self) -> Histogram<u64> {
        match self.high {
            0 => Histogram::new(self.sigfig).expect("lawful digits"),
            high => Histogram::new_with_max(high, self.sigfig).expect("lawful bounds"),
        }
    }

    fn filled(&self) -> Histogram<u64> {
        let mut histogram = self.empty();
        for sample in self.samples {
            histogram.record(*sample).expect("within the bounds");
        }
        histogram
    }

    /// Does something to one histogram n times, and returns its length.
    fn changed(&self, n: u64, mut change: impl FnMut(&mut Histogram<u64>)) -> u64 {
        let mut histogram = self.filled();
        for _ in 0..n {
            change(&mut histogram);
        }
        histogram.len()
    }

    /// Calls a function on one histogram n times, and returns the sum of its results.
    fn queried(&self, n: u64, mut query: impl FnMut(&Histogram<u64>) -> u64) -> u64 {
        let histogram = self.filled();
        let mut sum = 0u64;
        for _ in 0..n {
            sum = sum.wrapping_add(query(black_box(&histogram)));
        }
        sum
    }

    fn added_to(&self, mut target: Histogram<u64>, n: u64) -> u64 {
        let source = self.filled();
        for _ in 0..n {
            target.add(black_box(&source)).expect("within the bounds");
        }
        target.len()
    }
}

fn wider(sigfig: u8) -> Histogram<u64> {
    Histogram::new_with_max(u64::MAX, sigfig).expect("lawful bounds")
}

fn written(shape: &Shape, n: u64) -> u64 {
    let (mut serializer, mut bytes) = (V2Serializer::new(), Vec::new());
    shape.queried(n, |histogram| {
        bytes.clear();
        serializer.serialize(histogram, &mut bytes).expect("counts below 2^63") as u64
    })
}

fn read(shape: &Shape, n: u64) -> u64 {
    let mut bytes = Vec::new();
    let _ = V2Serializer::new().serialize(&shape.filled(), &mut bytes).expect("counts below 2^63");
    let (mut deserializer, mut sum) = (Deserializer::new(), 0u64);
    for _ in 0..n {
        let histogram: Histogram<u64> = deserializer.deserialize(&mut black_box(&bytes[..])).expect("written by the crate");
        sum = sum.wrapping_add(histogram.len());
    }
    sum
}

fn reset(shape: &Shape, n: u64) -> u64 {
    let mut sum = 0u64;
    shape.changed(n, |histogram| {
        histogram.reset();
        for sample in shape.samples {
            histogram.record(*sample).expect("within the bounds");
        }
        sum = sum.wrapping_add(histogram.max());
    });
    sum
}

fn record_each(shape: &Shape, n: u64, mut record: impl FnMut(&mut Histogram<u64>, u64)) -> u64 {
    shape.changed(n, |histogram| {
        for sample in shape.samples {
            record(histogram, *sample);
        }
    })
}

fn twentieths(histogram: &Histogram<u64>) -> u64 {
    let quantiles = (1..21).map(|num| f64::from(num) / 20.0);
    histogram.value_at_quantiles(quantiles).fold(0u64, |sum, value| sum.wrapping_add(value))
}

pub fn work(operation: Operation, sigfig: u8, high: u64, samples: &[u64], n: u64) -> u64 {
    let shape = &Shape { sigfig, high, samples };
    match operation {
        Operation::Record => record_each(shape, n, |histogram, sample| histogram.record(sample).expect("within the bounds")),
        Operation::Clamp => record_each(shape, n, |histogram, sample| histogram.saturating_record(sample.wrapping_mul(64))),
        Operation::Correct => {
            record_each(shape, n, |histogram, sample| histogram.record_correct(sample, MIDDLE).expect("within the bounds"))
        }
        Operation::Reset => reset(shape, n),
        Operation::Median => shape.queried(n, |histogram| histogram.value_at_quantile(black_box(0.5))),
        Operation::Quantile99 => shape.queried(n, |histogram| histogram.value_at_quantile(black_box(0.99))),
        Operation::Twentieths => shape.queried(n, twentieths),
        Operation::Below => {
            shape.queried(n, |histogram| (histogram.quantile_below(MIDDLE) * histogram.len() as f64).round() as u64)
        }
        Operation::Between => shape.queried(n, |histogram| histogram.count_between(MIDDLE, MIDDLE * 10)),
        Operation::Mean => shape.queried(n, |histogram| histogram.mean() as u64),
        Operation::Clone => shape.queried(n, |histogram| histogram.clone().len()),
        Operation::CloneCorrect => shape.queried(n, |histogram| histogram.clone_correct(MIDDLE).len()),
        Operation::Equal => {
            let other = shape.filled();
            shape.queried(n, |histogram| u64::from(histogram == black_box(&other)))
        }
        Operation::Add => shape.added_to(shape.filled(), n),
        Operation::AddWider => shape.added_to(wider(sigfig), n),
        Operation::AddCoarser => shape.added_to(wider(sigfig.saturating_sub(1)), n),
        Operation::Subtract => {
            let source = shape.filled();
            shape.changed(n, |histogram| {
                histogram.add(&source).expect("within the bounds");
                histogram.subtract(&source).expect("added before");
            })
        }
        Operation::Encode => written(shape, n),
        Operation::Decode => read(shape, n),
        Operation::New => (0..n).fold(0u64, |sum, _| sum.wrapping_add(black_box(shape.empty()).distinct_values() as u64)),
        Operation::IterAll => shape.queried(n, |histogram| {
            histogram.iter_all().fold(0u64, |sum, item| sum.wrapping_add(item.value_iterated_to() ^ item.count_at_value()))
        }),
        Operation::IterRecorded => shape.queried(n, |histogram| {
            histogram.iter_recorded().fold(0u64, |sum, item| sum.wrapping_add(item.value_iterated_to() ^ item.count_at_value()))
        }),
        Operation::IterLinear => shape.queried(n, |histogram| {
            histogram
                .iter_linear(MIDDLE)
                .fold(0u64, |sum, item| sum.wrapping_add(item.value_iterated_to() ^ item.count_since_last_iteration()))
        }),
        Operation::IterLog => shape.queried(n, |histogram| {
            histogram
                .iter_log(1, 2.0)
                .fold(0u64, |sum, item| sum.wrapping_add(item.value_iterated_to() ^ item.count_since_last_iteration()))
        }),
        Operation::IterQuantiles => shape.queried(n, |histogram| {
            histogram
                .iter_quantiles(5)
                .fold(0u64, |sum, item| sum.wrapping_add(item.value_iterated_to() ^ item.count_since_last_iteration()))
        }),
    }
}
