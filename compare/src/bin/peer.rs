//! The driver of the Rust crate for `compare/peers`: reads the commands that `peers.d/driver.h` describes, and prints a
//! line for each.

use hdrhistogram::Histogram;
use hdrhistogram::iterators::{HistogramIterator, PickyIterator};
use hdrhistogram::serialization::interval_log::{IntervalLogHistogram, IntervalLogIterator, LogEntry};
use hdrhistogram::serialization::{Deserializer, Serializer, V2DeflateSerializer, V2Serializer};
use std::error::Error;
use std::fmt::Write as _;
use std::io::{self, BufRead, Write};
use std::time::Duration;

type Printed = Result<String, Box<dyn Error>>;

/// The numbers of a line, between spaces and colons.
fn numbers(rest: &str) -> Vec<u64> {
    rest.split([' ', ':']).filter(|word| !word.is_empty()).map(|word| word.parse().expect("a number")).collect()
}

fn pairs(list: impl Iterator<Item = (u64, u64)>) -> String {
    list.map(|(value, count)| format!("{value}:{count}")).collect::<Vec<_>>().join(" ")
}

fn recorded(h: &Histogram<u64>) -> String {
    pairs(h.iter_recorded().map(|step| (step.value_iterated_to(), step.count_at_value())))
}

fn steps<P: PickyIterator<u64>>(steps: HistogramIterator<'_, u64, P>) -> String {
    pairs(steps.map(|step| (step.value_iterated_to(), step.count_since_last_iteration())))
}

fn hex(bytes: &[u8]) -> String {
    bytes.iter().fold(String::new(), |mut text, byte| {
        let _ = write!(text, "{byte:02x}");
        text
    })
}

fn bytes_of_hex(digits: &str) -> Result<Vec<u8>, Box<dyn Error>> {
    (0..digits.len() / 2).map(|i| Ok(u8::from_str_radix(&digits[2 * i..2 * i + 2], 16)?)).collect()
}

/// Decodes Base64, whose digits are known to be valid.
fn bytes_of_base64(text: &str) -> Vec<u8> {
    const DIGITS: &[u8] = b"ABCDEFGHIJKLMNOPQRSTUVWXYZabcdefghijklmnopqrstuvwxyz0123456789+/";
    let (mut bytes, mut bits, mut number) = (Vec::new(), 0, 0u32);
    for byte in text.trim_end_matches('=').bytes() {
        let digit = DIGITS.iter().position(|it| *it == byte).expect("a digit of Base64");
        number = number << 6 | digit as u32;
        bits += 6;
        if bits >= 8 {
            bits -= 8;
            bytes.push((number >> bits) as u8);
        }
    }
    bytes
}

fn deserialize(mut bytes: &[u8]) -> Result<Histogram<u64>, Box<dyn Error>> {
    Deserializer::new().deserialize(&mut bytes).map_err(|error| format!("{error:?}").into())
}

/// The milliseconds of a time that was read as a float, rounded.
fn millis(time: Duration) -> u128 {
    (time.as_nanos() + 500_000) / 1_000_000
}

/// Records what each group of numbers has, and returns how many were recorded.
fn fill<const N: usize>(of: &[u64], mut record: impl FnMut(&[u64]) -> bool) -> String {
    of.chunks_exact(N).filter(|group| record(group)).count().to_string()
}

fn interval(of: &IntervalLogHistogram, base: Duration) -> Printed {
    let h = deserialize(&bytes_of_base64(of.encoded_histogram()))?;
    let tag = of.tag().map_or("", |tag| tag.as_str());
    let (start, duration) = (millis(base + of.start_timestamp()), millis(of.duration()));
    Ok(format!(" ;{tag},{start},{duration},{}", recorded(&h)))
}

/// Reads a log. A start is the sum of the last base time and of what the line has.
fn read(path: &str) -> Printed {
    let log = std::fs::read(path)?;
    let (mut start, mut intervals, mut base) = (String::new(), String::new(), Duration::ZERO);
    for entry in IntervalLogIterator::new(&log) {
        match entry {
            Ok(LogEntry::StartTime(time)) if start.is_empty() => start = millis(time).to_string(),
            Ok(LogEntry::StartTime(_)) => (),
            Ok(LogEntry::BaseTime(time)) => base = time,
            Ok(LogEntry::Interval(it)) => match interval(&it, base) {
                Ok(text) => intervals += &text,
                Err(error) => return Ok(format!("{start}{intervals} ;error {error}")),
            },
            Err(error) => return Ok(format!("{start}{intervals} ;error {error:?}")),
        }
    }
    Ok(format!("{start}{intervals} ;end"))
}

/// Prints what a command reads of a histogram.
fn query(h: &Histogram<u64>, name: &str, of: &[u64]) -> Printed {
    let mut bytes = Vec::new();
    Ok(match name {
        "total" => h.len().to_string(),
        "min" => h.min().to_string(),
        "max" => h.max().to_string(),
        "q" => h.value_at_percentile(of[0] as f64 / of[1] as f64).to_string(),
        "mean" => h.mean().to_string(),
        "sd" => h.stdev().to_string(),
        "at" => h.count_at(of[0]).to_string(),
        "between" => h.count_between(of[0], of[1]).to_string(),
        "below" => h.percentile_below(of[0]).to_string(),
        "class" => [
            h.lowest_equivalent(of[0]),
            h.highest_equivalent(of[0]),
            h.median_equivalent(of[0]),
            h.next_non_equivalent(of[0]),
            h.equivalent_range(of[0]),
        ]
        .map(|number| number.to_string())
        .join(" "),
        "recorded" => recorded(h),
        "linear" => steps(h.iter_linear(of[0])),
        "log" => steps(h.iter_log(of[0], of[1] as f64)),
        "ticks" => steps(h.iter_quantiles(of[0] as u32)),
        "encode" => {
            V2Serializer::new().serialize(h, &mut bytes).map_err(|error| format!("{error:?}"))?;
            hex(&bytes)
        }
        "compress" => {
            V2DeflateSerializer::new().serialize(h, &mut bytes).map_err(|error| format!("{error:?}"))?;
            hex(&bytes)
        }
        _ => "-".to_string(),
    })
}

/// Runs a command that changes the histogram, and others by `query`.
fn run(h: &mut Histogram<u64>, name: &str, rest: &str) -> Printed {
    match name {
        "read" => return read(rest),
        "decode" => *h = deserialize(&bytes_of_hex(rest)?)?,
        "new" => {
            let of = numbers(rest);
            *h = Histogram::new_with_bounds(of[0], of[1], of[2] as u8)?;
        }
        "fill" => return Ok(fill::<2>(&numbers(rest), |it| h.record_n(it[0], it[1]).is_ok())),
        "omit" => return Ok(fill::<3>(&numbers(rest), |it| h.record_n_correct(it[0], it[1], it[2]).is_ok())),
        "correct" => {
            let mut sum = h.clone();
            sum.reset();
            sum.add_correct(&*h, numbers(rest)[0])?;
            *h = sum;
        }
        "begin" | "comment" | "start" | "base" | "line" | "end" => return Ok("-".to_string()),
        _ => return query(h, name, &numbers(rest)),
    }
    Ok("ok".to_string())
}

fn main() -> io::Result<()> {
    let mut h = Histogram::<u64>::new(3).expect("3 digits");
    let mut out = io::BufWriter::new(io::stdout().lock());
    for line in io::stdin().lock().lines() {
        let line = line?;
        let (name, rest) = line.split_once(' ').unwrap_or((&line, ""));
        match run(&mut h, name, rest) {
            Ok(text) => writeln!(out, "{text}")?,
            Err(error) => writeln!(out, "error {error}")?,
        }
    }
    out.flush()
}
