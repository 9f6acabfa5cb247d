//! The rows: an operation, what its histogram counts, and how.

use super::samples::Shape;

/// An hour in microseconds.
pub const HIGH: u64 = 3_600_000_000;
/// A second in microseconds.
const SHORT: u64 = 1_000_000;
/// The histogram grows.
const GROWS: u64 = 0;

/// The numbers are those that `hdrb_shape` takes.
#[derive(Clone, Copy)]
pub enum Operation {
    Record,
    Clamp,
    Correct,
    Reset,
    Median,
    Quantile99,
    Twentieths,
    Below,
    Between,
    Mean,
    Clone,
    CloneCorrect,
    Equal,
    Add,
    AddWider,
    AddCoarser,
    Subtract,
    Encode,
    Decode,
    New,
    IterAll,
    IterRecorded,
    IterLinear,
    IterLog,
    IterQuantiles,
}

pub struct Row {
    pub name: &'static str,
    pub operation: Operation,
    pub shape: Shape,
    pub samples: usize,
    pub sigfig: u8,
    /// The greatest value, or `GROWS`.
    pub high: u64,
}

const fn row(name: &'static str, operation: Operation, shape: Shape, samples: usize, sigfig: u8, high: u64) -> Row {
    Row { name, operation, shape, samples, sigfig, high }
}

use Operation::*;
use Shape::*;

const MANY: usize = 100_000;

pub const ROWS: &[Row] = &[
    row("record_latencies", Record, Latencies, 1000, 3, HIGH),
    row("record_grown", Record, Latencies, 1000, 3, GROWS),
    row("record_hits", Record, HitsAndMisses, 1000, 3, HIGH),
    row("record_zipf", Record, Zipf, 1000, 3, HIGH),
    row("record_one", Record, One, 1000, 3, HIGH),
    row("record_5digits", Record, Latencies, 1000, 5, HIGH),
    row("record_2digits", Record, Latencies, 1000, 2, SHORT),
    row("record_0digits", Record, Latencies, 1000, 0, SHORT),
    row("clamp_latencies", Clamp, Latencies, 1000, 3, SHORT),
    row("correct_latencies", Correct, Latencies, 1000, 3, HIGH),
    row("correct_hits", Correct, HitsAndMisses, 1000, 3, HIGH),
    row("reset_10", Reset, Latencies, 10, 3, HIGH),
    row("reset_10_2digits", Reset, Latencies, 10, 2, SHORT),
    row("reset_1000", Reset, Latencies, 1000, 3, HIGH),
    row("median_latencies", Median, Latencies, MANY, 3, HIGH),
    row("quantile99_latencies", Quantile99, Latencies, MANY, 3, HIGH),
    row("quantile99_zipf", Quantile99, Zipf, MANY, 3, HIGH),
    row("quantile99_5digits", Quantile99, Latencies, MANY, 5, HIGH),
    row("quantile99_zipf_5digits", Quantile99, Zipf, MANY, 5, HIGH),
    row("quantile99_2digits", Quantile99, Latencies, MANY, 2, SHORT),
    row("quantile99_0digits", Quantile99, Latencies, MANY, 0, SHORT),
    row("quantile99_10", Quantile99, Latencies, 10, 3, HIGH),
    row("twentieths_latencies", Twentieths, Latencies, MANY, 3, HIGH),
    row("below_latencies", Below, Latencies, MANY, 3, HIGH),
    row("between_latencies", Between, Latencies, MANY, 3, HIGH),
    row("mean_latencies", Mean, Latencies, MANY, 3, HIGH),
    row("mean_10", Mean, Latencies, 10, 3, HIGH),
    row("clone_latencies", Clone, Latencies, MANY, 3, HIGH),
    row("clone_2digits", Clone, Latencies, MANY, 2, SHORT),
    row("clone_10_5digits", Clone, Latencies, 10, 5, HIGH),
    row("clone_correct_latencies", CloneCorrect, Latencies, MANY, 3, HIGH),
    row("clone_correct_1000", CloneCorrect, Latencies, 1000, 3, HIGH),
    row("equal_latencies", Equal, Latencies, MANY, 3, HIGH),
    row("equal_5digits", Equal, Latencies, MANY, 5, HIGH),
    row("equal_10", Equal, Latencies, 10, 3, HIGH),
    row("add_latencies", Add, Latencies, MANY, 3, HIGH),
    row("add_1000", Add, Latencies, 1000, 3, HIGH),
    row("add_10", Add, Latencies, 10, 3, HIGH),
    row("add_2digits", Add, Latencies, MANY, 2, SHORT),
    row("add_wider_latencies", AddWider, Latencies, MANY, 3, HIGH),
    row("add_wider_1000", AddWider, Latencies, 1000, 3, HIGH),
    row("add_wider_10", AddWider, Latencies, 10, 3, HIGH),
    row("add_wider_uniform", AddWider, Uniform, MANY, 3, HIGH),
    row("add_coarser_latencies", AddCoarser, Latencies, MANY, 3, HIGH),
    row("add_coarser_1000", AddCoarser, Latencies, 1000, 3, HIGH),
    row("subtract_latencies", Subtract, Latencies, MANY, 3, HIGH),
    row("subtract_10", Subtract, Latencies, 10, 3, HIGH),
    row("encode_latencies", Encode, Latencies, MANY, 3, HIGH),
    row("encode_1000", Encode, Latencies, 1000, 3, HIGH),
    row("encode_1000_hits", Encode, HitsAndMisses, 1000, 3, HIGH),
    row("encode_1000_2digits", Encode, Latencies, 1000, 2, SHORT),
    row("encode_1000_5digits", Encode, Latencies, 1000, 5, HIGH),
    row("encode_10", Encode, Latencies, 10, 3, HIGH),
    row("encode_10_uniform", Encode, Uniform, 10, 3, HIGH),
    row("decode_latencies", Decode, Latencies, MANY, 3, HIGH),
    row("decode_uniform", Decode, Uniform, MANY, 3, HIGH),
    row("decode_1000", Decode, Latencies, 1000, 3, HIGH),
    row("decode_1000_grown", Decode, Latencies, 1000, 3, GROWS),
    row("decode_1000_hits", Decode, HitsAndMisses, 1000, 3, HIGH),
    row("decode_1000_5digits", Decode, Latencies, 1000, 5, HIGH),
    row("decode_1000_2digits", Decode, Latencies, 1000, 2, SHORT),
    row("decode_1000_1digit", Decode, Latencies, 1000, 1, SHORT),
    row("decode_1000_0digits", Decode, Latencies, 1000, 0, SHORT),
    row("decode_10", Decode, Latencies, 10, 3, HIGH),
    row("decode_10_uniform", Decode, Uniform, 10, 3, HIGH),
    row("new_5digits", New, Latencies, 0, 5, HIGH),
    row("new_3digits", New, Latencies, 0, 3, HIGH),
    row("new_grown", New, Latencies, 0, 3, GROWS),
    row("new_2digits", New, Latencies, 0, 2, SHORT),
    row("new_0digits", New, Latencies, 0, 0, SHORT),
    row("iter_all_latencies", IterAll, Latencies, MANY, 3, HIGH),
    row("iter_recorded_latencies", IterRecorded, Latencies, MANY, 3, HIGH),
    row("iter_recorded_10", IterRecorded, Latencies, 10, 3, HIGH),
    row("iter_linear_latencies", IterLinear, Latencies, MANY, 3, HIGH),
    row("iter_log_latencies", IterLog, Latencies, MANY, 3, HIGH),
    row("iter_quantiles_latencies", IterQuantiles, Latencies, MANY, 3, HIGH),
    row("iter_quantiles_1000", IterQuantiles, Latencies, 1000, 3, HIGH),
    row("iter_quantiles_2digits", IterQuantiles, Latencies, MANY, 2, SHORT),
];
