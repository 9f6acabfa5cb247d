//! Times the same workloads over the Rust crate hdrhistogram and over this repository's crates, in one process and in turns.
//! A line for each: `name upstream_ns ours_ns ratio`. The exit status is 1 where a checksum differs. With the arguments `bytes
//! SEED COUNT`, or `bytes` alone and texts on standard input, it compares how V2 texts are read (`bytes.rs`). With `shapes [NAME]`
//! it counts instructions and times operations on the data that users have (`shapes.rs`).
//!
//! A call of a workload makes its histograms first, so an operation's time is what many operations take above a few.

mod bytes;
mod ours;
mod shapes;
mod upstream;

use std::hint::black_box;
use std::process::ExitCode;
use std::time::Instant;

const SEED: u64 = 0x9e37_79b9_7f4a_7c15;
/// How often each side is timed.
const ROUNDS: usize = 15;

/// A workload: its name, how many operations it does, and how both sides do them.
type Workload = (&'static str, u64, fn(u64) -> u64, fn(u64) -> u64);

const WORKLOADS: [Workload; 27] = [
    ("generate", 4_000_000, |n| upstream::generate(SEED, n), |n| ours::generate(SEED, n)),
    ("record", 4_000_000, |n| upstream::record(SEED, n), |n| ours::record(SEED, n)),
    ("correct_2e3", 800, |n| upstream::correct(SEED, n, 1_000_000), |n| ours::correct(SEED, n, 1_000_000)),
    ("correct_2e6", 16, |n| upstream::correct(SEED, n, 1_000), |n| ours::correct(SEED, n, 1_000)),
    ("quantile_50", 8_000, |n| upstream::quantile(SEED, n, 1, 2), |n| ours::quantile(SEED, n, 1, 2)),
    ("quantile_99", 8_000, |n| upstream::quantile(SEED, n, 99, 100), |n| ours::quantile(SEED, n, 99, 100)),
    ("quantile_999", 8_000, |n| upstream::quantile(SEED, n, 999, 1000), |n| ours::quantile(SEED, n, 999, 1000)),
    ("add", 1_600, |n| upstream::add(SEED, n), |n| ours::add(SEED, n)),
    ("iter_recorded", 160, |n| upstream::iter_recorded(SEED, n), |n| ours::iter_recorded(SEED, n)),
    ("iter_recorded_few", 1_600, |n| upstream::iter_recorded_few(SEED, n), |n| ours::iter_recorded_few(SEED, n)),
    ("iter_recorded_apart", 1_600, |n| upstream::iter_recorded_apart(SEED, n), |n| ours::iter_recorded_apart(SEED, n)),
    ("iter_linear", 80, |n| upstream::iter_linear(SEED, n, 100_000), |n| ours::iter_linear(SEED, n, 100_000)),
    ("iter_log", 160, |n| upstream::iter_log(SEED, n), |n| ours::iter_log(SEED, n)),
    ("iter_quantiles", 160, |n| upstream::iter_quantiles(SEED, n), |n| ours::iter_quantiles(SEED, n)),
    ("values", 8_000, |n| upstream::values(SEED, n), |n| ours::values(SEED, n)),
    ("below_median", 8_000, |n| upstream::quantile_below_median(SEED, n), |n| ours::quantile_below_median(SEED, n)),
    ("below", 8_000, |n| upstream::quantile_below(SEED, n), |n| ours::quantile_below(SEED, n)),
    ("iter_all", 160, |n| upstream::iter_all(SEED, n), |n| ours::iter_all(SEED, n)),
    ("decode", 400, |n| upstream::decode(SEED, n), |n| ours::decode(SEED, n)),
    ("decode_few", 4_000, |n| upstream::decode_few(SEED, n), |n| ours::decode_few(SEED, n)),
    // What `decode_few` takes at least, beside the Rust crate's whole.
    ("decode_few_floor", 4_000, |n| upstream::decode_few(SEED, n), |n| upstream::zeros(SEED, n)),
    ("log_line", 4_000, |n| upstream::log_line(SEED, n), |n| ours::log_line(SEED, n)),
    ("log_read", 80, |n| upstream::log_read(SEED, n), |n| ours::log_read(SEED, n)),
    // What `log_read` takes at least: its two passes over the bytes, each alone and then both, beside the Rust crate's whole.
    ("log_read_ends", 80, |n| upstream::log_read(SEED, n), |n| ours::log_ends(SEED, n)),
    ("log_read_texts", 80, |n| upstream::log_read(SEED, n), |n| ours::log_texts(SEED, n)),
    ("log_read_floor", 80, |n| upstream::log_read(SEED, n), |n| ours::log_floor(SEED, n)),
    ("serialize", 800, |n| upstream::serialize(SEED, n), |n| ours::serialize(SEED, n)),
];

fn median(mut times: Vec<f64>) -> f64 {
    times.sort_by(f64::total_cmp);
    times[times.len() / 2]
}

/// The seconds of a call, and its checksum.
fn timed(work: fn(u64) -> u64, n: u64) -> (f64, u64) {
    let start = Instant::now();
    let sum = black_box(work(black_box(n)));
    (start.elapsed().as_secs_f64(), sum)
}

/// One side of a workload: the seconds of many operations and of few, and the checksum of many.
#[derive(Default)]
struct Side {
    many: Vec<f64>,
    few: Vec<f64>,
    sum: u64,
}

impl Side {
    fn time(&mut self, work: fn(u64) -> u64, n: u64) {
        self.few.push(timed(work, n / 8).0);
        let (seconds, sum) = timed(work, n);
        self.many.push(seconds);
        self.sum = sum;
    }

    /// Nanoseconds of an operation.
    fn nanoseconds(self, n: u64) -> f64 {
        (median(self.many) - median(self.few)) * 1e9 / (n - n / 8) as f64
    }
}

/// Times a workload on both sides in turns, and prints its line. Whether the checksums are the same.
fn run((name, n, upstream, ours): Workload) -> bool {
    let mut left = Side::default();
    let mut right = Side::default();
    for _ in 0..ROUNDS {
        left.time(upstream, n);
        right.time(ours, n);
    }
    let same = left.sum == right.sum;
    if !same {
        eprintln!("{name}: the checksums differ: {} and {}", left.sum, right.sum);
    }
    let (left, right) = (left.nanoseconds(n), right.nanoseconds(n));
    println!("{name} {left:.2} {right:.2} {:.3}", right / left);
    same
}

/// The numbers among the arguments from the second on.
fn numbers() -> Option<Vec<u64>> {
    std::env::args().skip(2).map(|argument| argument.parse().ok()).collect()
}

/// Compares how V2 texts are read, where the first argument is `bytes`.
fn compared(name: &str) -> Option<bool> {
    if name != "bytes" {
        return None;
    }
    match numbers()?.as_slice() {
        [] => Some(bytes::compare_lines()),
        [seed, count] => Some(bytes::compare(*seed, *count)),
        _ => None,
    }
}

fn main() -> ExitCode {
    let arguments: Vec<String> = std::env::args().skip(1).collect();
    match arguments.first().map(String::as_str) {
        Some("shape") => return shapes::one(&arguments[1..]),
        Some("shapes") => return shapes::all(arguments.get(1).map_or("", String::as_str)),
        _ => {}
    }
    let filter = arguments.into_iter().next().unwrap_or_default();
    if let Some(same) = compared(&filter) {
        return if same { ExitCode::SUCCESS } else { ExitCode::FAILURE };
    }
    let mut same = true;
    for workload in WORKLOADS.into_iter().filter(|workload| workload.0.starts_with(&filter)) {
        same &= run(workload);
    }
    if same { ExitCode::SUCCESS } else { ExitCode::FAILURE }
}
