//! Prints random rows for `hdr_rows`: calls, and what the Rust crate returns.
//!
//!     rows SEED COUNT | crates/hdr_rows/out/hdr_rows
//!
//! What is known to differ is left out: marks after a reset at a unit above 1 or after a subtraction, sums after a
//! subtraction from counters that may be full, the state after a failed subtraction or corrected addition, equality of
//! arrays of unequal length, and quantiles of more samples than an f64 counts.

use hdrhistogram::{Counter, Histogram};
use std::fmt::Debug;

/// A generator of 64-bit numbers.
struct Random(u64);

impl Random {
    fn next(&mut self) -> u64 {
        self.0 ^= self.0 << 13;
        self.0 ^= self.0 >> 7;
        self.0 ^= self.0 << 17;
        self.0.wrapping_mul(0x2545_f491_4f6c_dd1d)
    }

    fn below(&mut self, end: u64) -> u64 {
        (self.next() >> 11) % end
    }

    /// A value of 1 to 40 bits, each length as likely.
    fn value(&mut self) -> u64 {
        let bits = 1 + self.below(40);
        self.next() >> (64 - bits)
    }
}

/// The end of a line: how a call ended.
fn ending<E: Debug>(result: &Result<(), E>) -> String {
    match result {
        Ok(()) => String::new(),
        Err(error) => format!(" = {error:?}"),
    }
}

/// Two histograms of a row, and what may be compared of them.
struct Row<'a, T: Counter> {
    random: &'a mut Random,
    histograms: [Histogram<T>; 2],
    greatest: u64,
    low: u64,
    subtracted: bool,
}

const NAMES: [&str; 2] = ["one", "other"];

/// Makes a histogram, and prints its line.
fn made<T: Counter>(random: &mut Random, who: &str, low: u64) -> Histogram<T> {
    let sigfig = random.below(4) as u8;
    if low == 1 && random.below(2) == 0 {
        println!("{who} new {sigfig}");
        return Histogram::new(sigfig).expect("lawful digits");
    }
    let high = random.value().max(2 * low);
    println!("{who} new_with_bounds {low} {high} {sigfig}");
    let mut histogram = Histogram::new_with_bounds(low, high, sigfig).expect("lawful bounds");
    if random.below(3) == 0 {
        println!("{who} auto 1");
        histogram.auto(true);
    }
    histogram
}

impl<T: Counter> Row<'_, T> {
    /// What is seen of one of them.
    fn see(&mut self, which: usize) {
        let (who, h) = (NAMES[which], &self.histograms[which]);
        println!("{who} high = {}", h.high());
        println!("{who} distinct_values = {}", h.distinct_values());
        println!("{who} is_auto_resize = {}", u8::from(h.is_auto_resize()));
        if self.low == 1 && !self.subtracted {
            println!("{who} max = {}\n{who} min = {}\n{who} min_nz = {}", h.max(), h.min(), h.min_nz());
        }
        if !self.subtracted || self.greatest == u64::MAX {
            println!("{who} len = {}\n{who} is_empty = {}", h.len(), u8::from(h.is_empty()));
            let exact = h.len() < 1 << 53;
            for (num, den) in [(1, 4), (1, 2), (3, 4), (1, 1)].into_iter().filter(|_| exact) {
                let quantile = f64::from(num) / f64::from(den);
                println!("{who} value_at_quantile {num} {den} = {}", h.value_at_quantile(quantile));
            }
        }
        for _ in 0..3 {
            let value = self.random.value();
            println!("{who} count_at {value} = {}", h.count_at(value).as_u64());
            println!("{who} highest_equivalent {value} = {}", h.highest_equivalent(value));
            println!("{who} median_equivalent {value} = {}", h.median_equivalent(value));
            println!("{who} next_non_equivalent {value} = {}", h.next_non_equivalent(value));
        }
    }

    /// A call that records, or forgets.
    fn change(&mut self, which: usize, call: u64) {
        let (value, interval) = (self.random.value(), self.random.value());
        let interval = interval.max(value / 500);
        let count = match self.random.below(6) {
            0 => (self.greatest - self.random.below(3)).min(1 << 40),
            few => few,
        };
        let (who, h) = (NAMES[which], &mut self.histograms[which]);
        let number = T::from_u64(count).expect("at most the greatest");
        match call {
            0..=3 => println!("{who} record_n {value} {count}{}", ending(&h.record_n(value, number))),
            4 => println!("{who} record {value}{}", ending(&h.record(value))),
            5 => {
                h.saturating_record_n(value, number);
                println!("{who} saturating_record_n {value} {count}");
            }
            6 => {
                let result = h.record_n_correct(value, number, interval);
                println!("{who} record_n_correct {value} {count} {interval}{}", ending(&result));
            }
            7 => println!("{who} record_correct {value} {interval}{}", ending(&h.record_correct(value, interval))),
            8 => {
                h.clear();
                println!("{who} clear");
            }
            _ => {
                h.reset();
                println!("{who} reset");
            }
        }
    }

    /// A call that takes the other into the first. Whether the row may go on.
    fn join(&mut self, call: u64) -> bool {
        let interval = self.random.value();
        let [one, other] = &mut self.histograms;
        let interval = interval.max(other.max() / 300);
        match call {
            10 | 11 => println!("one add{}", ending(&one.add(&*other))),
            12 => println!("one set_to{}", ending(&one.set_to(&*other))),
            13 => {
                let result = one.subtract(&*other);
                println!("one subtract{}", ending(&result));
                self.subtracted = true;
                return result.is_ok();
            }
            14 => {
                let result = one.add_correct(&*other, interval);
                println!("one add_correct {interval}{}", ending(&result));
                return result.is_ok();
            }
            15 => {
                let result = one.set_to_corrected(&*other, interval);
                println!("one set_to_corrected {interval}{}", ending(&result));
                return result.is_ok();
            }
            _ if one.distinct_values() == other.distinct_values() && self.low == 1 && !self.subtracted => {
                println!("one is_other = {}", one == other);
            }
            _ => {}
        }
        true
    }
}

/// Prints a row at one counter type.
fn row<T: Counter>(random: &mut Random, number: u64, counter: &str, greatest: u64) {
    println!("row random_{number} {counter}");
    let low = if random.below(3) == 0 { [2, 3, 10, 700][random.below(4) as usize] } else { 1 };
    let histograms = NAMES.map(|who| made(random, who, low));
    let calls = 4 + random.below(16);
    let mut row: Row<'_, T> = Row { random, histograms, greatest, low, subtracted: false };
    for _ in 0..calls {
        let call = row.random.below(17);
        let which = if call < 10 { row.random.below(2) as usize } else { 0 };
        if call < 10 {
            row.change(which, call);
        } else if !row.join(call) {
            break;
        }
        row.see(which);
    }
    println!();
}

fn main() {
    let numbers: Vec<u64> = std::env::args().skip(1).filter_map(|argument| argument.parse().ok()).collect();
    let [seed, count] = numbers[..] else {
        eprintln!("usage: rows SEED COUNT");
        std::process::exit(2);
    };
    let mut random = Random(seed.wrapping_mul(0x9e37_79b9_7f4a_7c15) | 1);
    for number in 0..count {
        match number % 4 {
            0 => row::<u8>(&mut random, number, "u8", u64::from(u8::MAX)),
            1 => row::<u16>(&mut random, number, "u16", u64::from(u16::MAX)),
            2 => row::<u32>(&mut random, number, "u32", u64::from(u32::MAX)),
            _ => row::<u64>(&mut random, number, "u64", u64::MAX),
        }
    }
}
