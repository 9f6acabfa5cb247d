//! The report of a histogram.
//!
//! The crate's ranks are numbers of f64, and its sums overflow after full counters. Here both are exact.

use crate::bytes::{bytes_of, high_of, top};
use hdrhistogram::Histogram;
use std::fmt::Write;

/// What a report is of.
pub struct Counted {
    pub bins: Histogram<u64>,
    /// How many samples there are, which may be more than the bins hold where some are cut.
    pub total: u64,
    /// The greatest value that the bins were made for.
    pub high: u64,
}

impl Counted {
    /// What was counted in bins that grew by recording alone.
    pub fn of(bins: Histogram<u64>) -> Counted {
        Counted { total: bins.len(), high: high_of(&bins), bins }
    }
}

/// The report of what was counted.
pub fn report(counted: &Counted, quantiles: &[Quantile]) -> String {
    let mut text = format!("len {}\n", counted.total);
    for quantile in quantiles {
        let Quantile { num, den } = quantile;
        writeln!(text, "{num}/{den} {}", quantile.value(counted)).expect("a text takes all");
    }
    text.push_str("v2 ");
    match bytes_of(&counted.bins, counted.high) {
        Some(bytes) => push_hexadecimal(&mut text, &bytes),
        None => text.push_str("none"),
    }
    text.push('\n');
    text
}

/// Adds bytes in hexadecimal to a text.
fn push_hexadecimal(text: &mut String, bytes: &[u8]) {
    const DIGITS: [char; 16] = ['0', '1', '2', '3', '4', '5', '6', '7', '8', '9', 'a', 'b', 'c', 'd', 'e', 'f'];
    for byte in bytes {
        text.push(DIGITS[usize::from(byte >> 4)]);
        text.push(DIGITS[usize::from(byte & 15)]);
    }
}

/// The share NUM/DEN of the samples, with DEN at least 1.
pub struct Quantile {
    pub num: u64,
    pub den: u64,
}

impl Quantile {
    /// The top of the first class where the running sum reaches the place, or its lowest value for a quantile of 0. It is 0
    /// where nothing was recorded, or where cut bins do not reach the place.
    fn value(&self, counted: &Counted) -> u64 {
        let place = self.place(counted.total);
        let mut sum = 0;
        let reaching = counted.bins.iter_recorded().find(|class| {
            sum += u128::from(class.count_at_value());
            sum >= place
        });
        let Some(class) = reaching else {
            return 0;
        };
        let value = class.value_iterated_to();
        if self.num == 0 { counted.bins.lowest_equivalent(value) } else { top(&counted.bins, value) }
    }

    /// The place of the quantile among so many samples, from 1.
    fn place(&self, samples: u64) -> u128 {
        let num = u128::from(self.num.min(self.den));
        (num * u128::from(samples)).div_ceil(u128::from(self.den)).max(1)
    }
}
