//! Compares how V2 texts are read: by this repository's crates, by the Rust crate, and by the rules of the format.

mod random;
mod rules;
mod texts;

use hdrhistogram::serialization::{DeserializeError, Deserializer};
use hdrhistogram::{Counter, Histogram};
use random::Random;
use rules::{Contents, Fault};
use std::collections::BTreeMap;

/// What this repository's crates read; its fields are those of the static library's.
#[repr(C)]
#[derive(Debug, Default, PartialEq)]
struct Reading {
    low: u64,
    high: u64,
    sigfig: u64,
    len: u64,
    max: u64,
    min_nz: u64,
    bins: u64,
    counts: u64,
    taken: u64,
}

unsafe extern "C" {
    fn hdrb_read(text: *const u8, len: usize, bits: u64, most: usize, reading: &mut Reading) -> u64;
    fn hdrb_rewrite(text: *const u8, len: usize, out: *mut u8, room: usize) -> usize;
}

fn read(text: &[u8], bits: u64, most: usize) -> (u64, Reading) {
    let mut reading = Reading::default();
    let fault = unsafe { hdrb_read(text.as_ptr(), text.len(), bits, most, &mut reading) };
    (fault, reading)
}

/// What was read of a text, written again; nothing where the text is an error.
fn rewritten(text: &[u8]) -> Vec<u8> {
    let mut out = vec![0; 2 * text.len() + 64];
    let len = unsafe { hdrb_rewrite(text.as_ptr(), text.len(), out.as_mut_ptr(), out.len()) };
    out.truncate(len);
    out
}

/// These contents as a reading returns them.
fn expected(contents: &Contents) -> Reading {
    let Contents { low, high, sigfig, bins, .. } = *contents;
    let (mut len, mut counts, mut next) = (0u64, 0u64, contents.filled.iter().peekable());
    for bin in 0..bins {
        let count = next.next_if(|filled| filled.0 == bin).map_or(0, |filled| filled.1);
        len = len.saturating_add(count);
        counts = (counts ^ count).wrapping_mul(0x9e37_79b9_7f4a_7c15);
    }
    let last = contents.filled.last();
    let first = contents.filled.iter().find(|filled| filled.0 > 0);
    Reading {
        low,
        high,
        sigfig: u64::from(sigfig),
        len,
        max: last.map_or(0, |filled| rules::top_of(low, sigfig, filled.0)),
        min_nz: first.map_or(u64::MAX, |filled| rules::value_of(low, sigfig, filled.0)),
        bins,
        counts,
        taken: contents.taken as u64,
    }
}

/// A text whose stated length is at most one more than what is there, so that the Rust crate makes no buffer for more.
fn with_stated_length(text: &[u8]) -> Vec<u8> {
    let mut text = text.to_vec();
    if let Some(rest) = text.len().checked_sub(40) {
        let stated = u32::from_be_bytes([text[4], text[5], text[6], text[7]]);
        text[4..8].copy_from_slice(&stated.min(rest as u32 + 1).to_be_bytes());
    }
    text
}

fn fault_of(error: DeserializeError) -> Fault {
    match error {
        DeserializeError::IoError(_) => Fault::IoError,
        DeserializeError::InvalidCookie => Fault::InvalidCookie,
        DeserializeError::UnsupportedFeature => Fault::UnsupportedFeature,
        DeserializeError::UnsuitableCounterType => Fault::UnsuitableCounterType,
        DeserializeError::InvalidParameters => Fault::InvalidParameters,
        DeserializeError::UsizeTypeTooSmall => Fault::UsizeTypeTooSmall,
        DeserializeError::EncodedArrayTooLong => Fault::EncodedArrayTooLong,
    }
}

/// Whether the Rust crate's histogram holds these contents.
fn holds<T: Counter>(histogram: &Histogram<T>, contents: &Contents) -> bool {
    let Contents { low, high, sigfig, bins, .. } = *contents;
    let sum = contents.filled.iter().fold(0u64, |sum, filled| sum.saturating_add(filled.1));
    let counts = |&(bin, count): &(u64, u64)| {
        histogram.count_at(rules::value_of(low, sigfig, bin)).as_u64() == count
    };
    (histogram.low(), histogram.high(), histogram.sigfig()) == (low, high, sigfig)
        && histogram.distinct_values() as u64 == bins
        && histogram.len() == sum
        && contents.filled.iter().all(counts)
}

/// Whether the Rust crate reads a text by the rules.
fn agrees<T: Counter>(text: &[u8], expected: &Result<Contents, Fault>) -> bool {
    let extended = with_stated_length(text);
    let mut left = extended.as_slice();
    match (Deserializer::new().deserialize::<T, _>(&mut left), expected) {
        (Ok(histogram), Ok(contents)) => {
            extended.len() - left.len() == contents.taken && holds(&histogram, contents)
        }
        (Err(error), Err(fault)) => fault_of(error) == *fault,
        _ => false,
    }
}

fn upstream_agrees(text: &[u8], bits: u64, expected: &Result<Contents, Fault>) -> bool {
    match bits {
        8 => agrees::<u8>(text, expected),
        16 => agrees::<u16>(text, expected),
        32 => agrees::<u32>(text, expected),
        _ => agrees::<u64>(text, expected),
    }
}

/// What was met.
#[derive(Default)]
struct Tally {
    results: BTreeMap<String, u64>,
    known: BTreeMap<&'static str, u64>,
    by_pieces: u64,
    both_ways: u64,
    unexplained: u64,
}

impl Tally {
    fn report(&mut self, what: &str, text: &[u8]) {
        self.unexplained += 1;
        if self.unexplained <= 20 {
            println!("{what}: {}", hex(text));
        }
    }

    /// Looks at one text, read into counters of so many bits, and by pieces too where `most` is not 0.
    fn look(&mut self, text: &[u8], bits: u64, most: usize) {
        let rules::Read { contents: result, known } = rules::read(text, u64::MAX >> (64 - bits));
        let name = result.as_ref().map_or_else(|fault| format!("{fault:?}"), |_| "read".to_string());
        *self.results.entry(name).or_default() += 1;
        let wanted = match &result {
            Ok(contents) => (0, expected(contents)),
            Err(fault) => (*fault as u64, Reading::default()),
        };
        if read(text, bits, 0) != wanted {
            self.report("decode_slice differs", text);
        }
        if most > 0 {
            self.by_pieces += 1;
            if read(text, bits, most) != wanted {
                self.report("deserialize differs", text);
            }
        }
        if !upstream_agrees(text, bits, &result) {
            match known {
                Some(known) => *self.known.entry(known).or_default() += 1,
                None => self.report("the Rust crate differs", text),
            }
        }
    }

    /// What was read of a text is written again, and read by the Rust crate to the same contents.
    fn look_both_ways(&mut self, text: &[u8]) -> Vec<u8> {
        let again = rewritten(text);
        let expected = rules::read(text, u64::MAX).contents.map(|contents| Contents { taken: again.len(), ..contents });
        self.both_ways += 1;
        if expected.is_err() || !upstream_agrees(&again, 64, &expected) {
            self.report("written again it differs", text);
        }
        again
    }

    fn print(&self) {
        for (result, times) in &self.results {
            println!("{result} {times}");
        }
        for (known, times) in &self.known {
            println!("known difference, {known}: {times}");
        }
        println!("by pieces too {}, both ways {}", self.by_pieces, self.both_ways);
        println!("{} unexplained", self.unexplained);
    }
}

fn hex(text: &[u8]) -> String {
    text.iter().map(|byte| format!("{byte:02x}")).collect()
}

fn bytes_of(line: &str) -> Option<Vec<u8>> {
    let digits = |at| u8::from_str_radix(line.get(at..at + 2)?, 16).ok();
    (0..line.len()).step_by(2).map(digits).collect()
}

/// Compares so many random texts. Whether all is explained.
pub fn compare(seed: u64, count: u64) -> bool {
    let mut random = Random::new(seed);
    let mut tally = Tally::default();
    for _ in 0..count {
        let (text, is_whole) = texts::any(&mut random);
        let bits = random.pick(&[64, 64, 64, 8, 16, 32]);
        let most = random.pick(&[0, 0, 0, 1, 3, 5000]);
        tally.look(&text, bits, most);
        if is_whole {
            tally.look_both_ways(&text);
        }
    }
    tally.print();
    tally.unexplained == 0
}

/// Compares the texts of standard input, one in hexadecimal digits a line, and prints what is written again of each.
pub fn compare_lines() -> bool {
    let mut tally = Tally::default();
    for line in std::io::stdin().lines().map_while(Result::ok) {
        let Some(text) = bytes_of(&line) else {
            println!("no text");
            continue;
        };
        tally.look(&text, 64, 1);
        println!("{}", hex(&tally.look_both_ways(&text)));
    }
    tally.print();
    tally.unexplained == 0
}
