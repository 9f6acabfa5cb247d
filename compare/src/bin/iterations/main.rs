//! Prints random rows for `hdr_rows`: iterators and statistics, with the values of a plain model. Where the Rust crate has
//! no known fault, its values are compared with the model's at once.
//!
//!     iterations SEED COUNT | crates/hdr_rows/out/hdr_rows
//!
//! COUNT is the number of rows, of 8 calls each. How many values the Rust crate returned, and how many of them differ, comes last
//! on standard error; the exit status is 1 where one differs.

mod model;
mod theirs;

use hdrhistogram::{Counter, Histogram};
use model::{Item, Model};
use std::fmt::Write;
use std::process::ExitCode;
use theirs::{Call, agrees};

/// How many items of a list a row shows.
const SHOWN: usize = 16;
/// How many calls a row has.
const CALLS: usize = 8;
/// How many bins an iterator goes over at the most.
const BINS: usize = 5000;
/// How many levels of a step there are at the most.
const LEVELS: u64 = 300;

/// A generator of 64-bit numbers.
struct Random(u64);

impl Random {
    fn next(&mut self) -> u64 {
        self.0 ^= self.0 << 13;
        self.0 ^= self.0 >> 7;
        self.0 ^= self.0 << 17;
        self.0.wrapping_mul(0x2545_f491_4f6c_dd1d)
    }

    fn below(&mut self, end: u64) -> u64 {
        (self.next() >> 11) % end
    }

    /// A number of 1 to so many bits, each length as likely.
    fn number(&mut self, bits: u64) -> u64 {
        let length = 1 + self.below(bits);
        self.next() >> (64 - length)
    }

    /// A fraction: of a power of two, of a small number, or of a large one.
    fn fraction(&mut self) -> (u64, u64) {
        match self.below(4) {
            0 | 1 => {
                let den = 1 << self.below(6);
                (self.below(den + 2), den)
            }
            2 => (self.below(12), 1 + self.below(10)),
            _ => (self.number(64), self.number(64).max(1)),
        }
    }
}

/// A histogram of a row: the model, and the Rust crate's where it has such counters.
struct Row<'a, T: Counter> {
    random: &'a mut Random,
    model: Model,
    theirs: Option<Histogram<T>>,
}

/// What all items come to, in 128 bits: each number is added to 31 times those before.
fn digest(items: &[Item]) -> u128 {
    let numbers = items.iter().flat_map(|item| {
        let [value, count, since] = [item.value, item.count, item.since].map(u128::from);
        [value, count, since, item.quantile.0, item.tick.0, item.tick.1]
    });
    numbers.fold(0, |digest: u128, number| digest.wrapping_mul(31).wrapping_add(number))
}

/// The text of items.
fn listed(items: &[Item]) -> String {
    let mut text = String::new();
    for (place, item) in items.iter().take(SHOWN).enumerate() {
        let comma = if place > 0 { ", " } else { "" };
        let Item { value, count, since, quantile, tick } = item;
        let _ = write!(text, "{comma}{value} {count} {since} {}/{} {}/{}", quantile.0, quantile.1, tick.0, tick.1);
    }
    match items.len() {
        0 => text.push_str("none"),
        SHOWN.. if items.len() > SHOWN => {
            let _ = write!(text, " .. {} {}", items.len(), digest(items));
        }
        _ => {}
    }
    text
}

fn numbers(list: &[u64]) -> String {
    let texts: Vec<_> = list.iter().map(u64::to_string).collect();
    if texts.is_empty() { "none".into() } else { texts.join(" ") }
}

fn fractions(list: &[(u64, u64)]) -> String {
    let texts: Vec<_> = list.iter().map(|(num, den)| format!("{num}/{den}")).collect();
    texts.join(" ")
}

/// The line of a call: its arguments, and what the model returns.
fn line(model: &Model, call: &Call) -> String {
    match call {
        Call::All => format!("iter_all = {}", listed(&model.all())),
        Call::Recorded => format!("iter_recorded = {}", listed(&model.recorded())),
        Call::Linear(step) => format!("iter_linear {step} = {}", listed(&model.linear(*step))),
        Call::Log(start, base) => format!("iter_log {start} {base} = {}", listed(&model.log(*start, *base))),
        Call::Quantiles(ticks) => format!("iter_quantiles {ticks} = {}", listed(&model.quantiles(*ticks))),
        Call::Below(value) => format!("quantile_below {value} = {}/{}", model.below(*value).0, model.below(*value).1),
        Call::PercentBelow(value) => {
            format!("percentile_below {value} = {}/{}", model.below(*value).0 * 100, model.below(*value).1)
        }
        Call::Between(low, high) => format!("count_between {low} {high} = {}", model.between(*low, *high)),
        Call::Mean => match model.mean() {
            Some(mean) => format!("mean = {}/{}", mean.0, mean.1),
            None => "mean = none".into(),
        },
        Call::Values(list) => format!("value_at_quantiles {} = {}", fractions(list), numbers(&model.values(list, 1))),
        Call::Percentiles(list) => {
            format!("value_at_percentiles {} = {}", fractions(list), numbers(&model.values(list, 100)))
        }
    }
}

impl<T: Counter> Row<'_, T> {
    /// Records something, or forgets.
    fn change(&mut self, bits: u64, grows: bool) {
        match self.random.below(24) {
            0 => {
                println!("one clear");
                self.model.clear();
                self.theirs.iter_mut().for_each(Histogram::clear);
            }
            1 => {
                println!("one reset");
                self.model.reset();
                self.theirs.iter_mut().for_each(Histogram::reset);
                if self.model.unit > 0 {
                    self.theirs = None;
                }
            }
            _ => self.record(bits, grows),
        }
    }

    fn record(&mut self, bits: u64, grows: bool) {
        let value = self.random.number(bits);
        let value = if grows { value } else { value.min(self.model.reach()) };
        let count = match self.random.below(8) {
            0 => self.model.greatest - self.random.below(3),
            1 => 0,
            few => few,
        };
        println!("one record_n {value} {count}");
        self.model.record(value, count);
        if let Some(theirs) = &mut self.theirs {
            let number = T::from_u64(count).expect("at most the greatest");
            theirs.record_n(value, number).expect("inside the reach, or it grows");
        }
    }

    /// A call.
    fn call(&mut self, bits: u64) -> Call {
        let reach = self.model.reach();
        let mark = self.model.mark.map_or(0, |bin| self.model.classes[bin].top as u64);
        let random = &mut *self.random;
        match random.below(11) {
            0 => Call::All,
            1 => Call::Recorded,
            2 | 3 => Call::Linear(random.number(bits).max(mark / LEVELS).max(1)),
            4 => Call::Log(random.number(bits).max(1), 2 + random.number(8)),
            5 | 6 => Call::Quantiles(1 + random.below(9) as u32),
            7 if random.below(2) == 0 => Call::Below(random.number(bits)),
            7 => Call::PercentBelow(random.number(64)),
            8 => Call::Mean,
            9 => Call::Between(random.number(bits), random.number(bits).min(reach)),
            _ => {
                let mut list: Vec<_> = (0..1 + random.below(6)).map(|_| random.fraction()).collect();
                if random.below(4) > 0 {
                    list.sort_by(|a, b| (u128::from(a.0) * u128::from(b.1)).cmp(&(u128::from(b.0) * u128::from(a.1))));
                }
                if random.below(3) == 0 { Call::Percentiles(list) } else { Call::Values(list) }
            }
        }
    }
}

/// How many values were compared with the Rust crate's, and how many of them differ.
#[derive(Default)]
struct Compared {
    calls: u64,
    agreed: u64,
    differ: u64,
}

/// Prints a row at one counter type.
fn row<T: Counter>(random: &mut Random, title: &str, greatest: u64, is_theirs: bool, compared: &mut Compared) {
    println!("row {title}");
    let sigfig = [0, 0, 1, 1, 2, 3][random.below(6) as usize];
    let low = [1, 1, 1, 2, 7, 100, 1 << 20][random.below(7) as usize];
    let bits = 3 + random.below(if sigfig > 1 { 16 } else { 61 });
    let high = random.number(bits).max(2 * low);
    let grows = random.below(2) == 0;
    println!("one new_with_bounds {low} {high} {sigfig}");
    println!("one auto {}", u8::from(grows));
    let theirs = is_theirs.then(|| {
        let mut histogram = Histogram::<T>::new_with_bounds(low, high, sigfig).expect("lawful bounds");
        histogram.auto(grows);
        histogram
    });
    let mut row = Row { random, model: Model::new(low, high, sigfig, greatest), theirs };
    for _ in 0..CALLS {
        for _ in 0..row.random.below(5) {
            row.change(bits, grows);
        }
        let call = row.call(bits);
        if row.model.classes.len() > BINS {
            break;
        }
        println!("one {}", line(&row.model, &call));
        compared.calls += 1;
        let agrees = row.theirs.as_ref().and_then(|theirs| agrees(theirs, &row.model, &call));
        compared.agreed += u64::from(agrees == Some(true));
        if agrees == Some(false) {
            compared.differ += 1;
            eprintln!("{title}: the Rust crate differs: {}", line(&row.model, &call));
        }
    }
    println!();
}

fn main() -> ExitCode {
    let numbers: Vec<u64> = std::env::args().skip(1).filter_map(|argument| argument.parse().ok()).collect();
    let [seed, count] = numbers[..] else {
        eprintln!("usage: iterations SEED COUNT");
        return ExitCode::from(2);
    };
    let mut random = Random(seed.wrapping_mul(0x9e37_79b9_7f4a_7c15) | 1);
    let mut compared = Compared::default();
    for number in 0..count {
        let all = &mut compared;
        match number % 5 {
            0 => row::<u8>(&mut random, &format!("random_{number} u8"), u64::from(u8::MAX), true, all),
            1 => row::<u16>(&mut random, &format!("random_{number} u16"), u64::from(u16::MAX), true, all),
            2 => row::<u32>(&mut random, &format!("random_{number} u32"), u64::from(u32::MAX), true, all),
            3 => row::<u64>(&mut random, &format!("random_{number} u64"), u64::MAX, true, all),
            _ => row::<u16>(&mut random, &format!("random_{number} c12"), 4095, false, all),
        }
    }
    let Compared { calls, agreed, differ } = compared;
    eprintln!("{calls} calls; the Rust crate agrees at {agreed}, differs at {differ}");
    if differ == 0 { ExitCode::SUCCESS } else { ExitCode::FAILURE }
}
