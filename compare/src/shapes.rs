//! The library's operations on the data that users have, over both sides: instructions by callgrind, and times in turns.
//!
//! `shapes [NAME]` prints a line for each row whose name begins so, `name upstream_instructions ours ratio upstream_ns ours ratio`,
//! and then the geometric means of both ratios. Instructions and times are those of many operations above those of few.

mod rows;
mod samples;
mod upstream;

use rows::{ROWS, Row};
use std::env;
use std::hint::black_box;
use std::process::{Command, ExitCode};
use std::time::{Duration, Instant};

unsafe extern "C" {
    fn hdrb_shape(operation: u64, sigfig: u8, high: u64, samples: *const u64, len: usize, n: u64) -> u64;
}

/// How often each side is timed.
const ROUNDS: usize = 7;
/// How long one timing takes at least.
const LEAST: Duration = Duration::from_millis(25);

#[derive(Clone, Copy)]
enum Side {
    Upstream,
    Ours,
}

impl Side {
    fn work(self, row: &Row, samples: &[u64], n: u64) -> u64 {
        match self {
            Side::Upstream => upstream::work(row.operation, row.sigfig, row.high, samples, n),
            Side::Ours => unsafe {
                hdrb_shape(row.operation as u64, row.sigfig, row.high, samples.as_ptr(), samples.len(), n)
            },
        }
    }

    fn name(self) -> &'static str {
        match self {
            Side::Upstream => "upstream",
            Side::Ours => "ours",
        }
    }
}

fn seconds(row: &Row, samples: &[u64], side: Side, n: u64) -> f64 {
    let start = Instant::now();
    black_box(side.work(row, black_box(samples), black_box(n)));
    start.elapsed().as_secs_f64()
}

fn median(mut numbers: Vec<f64>) -> f64 {
    numbers.sort_by(f64::total_cmp);
    numbers[numbers.len() / 2]
}

/// How many operations take long enough to be timed.
fn enough(row: &Row, samples: &[u64]) -> u64 {
    let mut n = 8;
    while n < 1 << 30 && seconds(row, samples, Side::Upstream, n) - seconds(row, samples, Side::Upstream, 0) < LEAST.as_secs_f64() {
        n *= 2;
    }
    n
}

/// The nanoseconds of an operation, of both sides.
fn times(row: &Row, samples: &[u64]) -> (f64, f64) {
    let n = enough(row, samples);
    let (mut theirs, mut ours) = (Vec::new(), Vec::new());
    for _ in 0..ROUNDS {
        for (side, all) in [(Side::Upstream, &mut theirs), (Side::Ours, &mut ours)] {
            let few = seconds(row, samples, side, n / 8);
            let many = seconds(row, samples, side, n);
            all.push((many - few) * 1e9 / (n - n / 8) as f64);
        }
    }
    (median(theirs), median(ours))
}

/// The instructions of a whole run, as callgrind counts them.
fn collected(row: &Row, side: Side, n: u64) -> Option<u64> {
    let program = env::current_exe().ok()?;
    // Without the instructions that copy or fill a whole block, of which callgrind counts each byte.
    let run = Command::new("valgrind")
        .env("GLIBC_TUNABLES", "glibc.cpu.hwcaps=-ERMS,-FSRM")
        .args(["--tool=callgrind", "--callgrind-out-file=/dev/null"])
        .arg(program)
        .args(["shape", row.name, side.name(), &n.to_string()])
        .output()
        .ok()?;
    let text = String::from_utf8_lossy(&run.stderr).into_owned();
    let line = text.lines().find(|line| line.contains("Collected :"))?;
    line.rsplit(' ').next()?.parse().ok()
}

/// The instructions of an operation.
fn instructions(row: &Row, side: Side) -> Option<f64> {
    let (few, many) = (collected(row, side, 4)?, collected(row, side, 20)?);
    Some((many as f64 - few as f64) / 16.0)
}

fn geometric_mean(ratios: &[f64]) -> f64 {
    (ratios.iter().map(|ratio| ratio.max(1e-3).ln()).sum::<f64>() / ratios.len() as f64).exp()
}

/// Runs one row on one side, for callgrind.
pub fn one(arguments: &[String]) -> ExitCode {
    let [name, side, n] = arguments else { return ExitCode::from(2) };
    let Some(row) = ROWS.iter().find(|row| row.name == name) else { return ExitCode::from(2) };
    let side = if side == "ours" { Side::Ours } else { Side::Upstream };
    black_box(side.work(row, &samples::of(row), n.parse().unwrap_or(0)));
    ExitCode::SUCCESS
}

/// Whether both sides return the same; some are other sums by design.
fn agree(row: &Row, samples: &[u64]) -> bool {
    Side::Upstream.work(row, samples, 3) == Side::Ours.work(row, samples, 3)
}

pub fn all(prefix: &str) -> ExitCode {
    let (mut counted, mut timed) = (Vec::new(), Vec::new());
    for row in ROWS.iter().filter(|row| row.name.starts_with(prefix)) {
        let samples = samples::of(row);
        let other = if agree(row, &samples) { "" } else { "  other checksum" };
        let (Some(theirs), Some(ours)) = (instructions(row, Side::Upstream), instructions(row, Side::Ours)) else {
            eprintln!("shapes: valgrind counted nothing for {}", row.name);
            return ExitCode::FAILURE;
        };
        let (their_ns, our_ns) = times(row, &samples);
        let (count_ratio, time_ratio) = (ours / theirs, our_ns / their_ns);
        println!("{:26} {theirs:>11.0} {ours:>11.0} {count_ratio:>6.2} {their_ns:>11.1} {our_ns:>11.1} {time_ratio:>6.2}{other}", row.name);
        counted.push(count_ratio);
        timed.push(time_ratio);
    }
    println!("geometric mean of {} rows: instructions {:.2}, times {:.2}", counted.len(), geometric_mean(&counted), geometric_mean(&timed));
    ExitCode::SUCCESS
}
