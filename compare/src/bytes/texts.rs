//! Random V2 texts: written by the Rust crate, spelt in other ways, and damaged.

use super::random::Random;
use hdrhistogram::Histogram;
use hdrhistogram::serialization::{Serializer, V2Serializer};
use std::ops::Range;

/// Bounds of a histogram, small ones more often.
fn bounds(random: &mut Random) -> (u64, u64, u8) {
    if random.one_in(1000) {
        let low = random.number(30).max(1);
        return (low, 2 * low + random.number(20), random.pick(&[4, 4, 5]));
    }
    let sigfig = random.pick(&[0, 0, 1, 1, 1, 2, 2, 2, 2, 3]);
    let low = if random.one_in(2) { 1 } else { random.number(20).max(1) };
    let high = match random.below(4) {
        0 => 2 * low,
        1 => random.number(64),
        _ => random.number(20),
    };
    (low, high.max(2 * low), sigfig)
}

/// A text that the Rust crate writes of a random histogram.
pub fn written(random: &mut Random) -> Vec<u8> {
    let (low, high, sigfig) = bounds(random);
    let mut histogram = Histogram::<u64>::new_with_bounds(low, high, sigfig).expect("lawful bounds");
    let most = 64 - high.leading_zeros();
    for _ in 0..random.pick(&[0, 1, 2, 5, 20, 60]) {
        let value = random.number(u64::from(most)).min(high);
        let count = match random.below(8) {
            0 => random.number(63),
            1 => 1 + random.below(300),
            _ => 1,
        };
        histogram.record_n(value, count).expect("within the bounds");
    }
    let mut text = Vec::new();
    match V2Serializer::new().serialize(&histogram, &mut text) {
        Ok(_) => text,
        Err(_) => written(random),
    }
}

/// Adds a spelling of a number: the shortest one, or one with groups of 0 at its end.
fn spell(text: &mut Vec<u8>, mut number: u64, random: &mut Random) {
    let mut longer = if random.one_in(30) { random.below(9) } else { 0 };
    for group in 0..9 {
        let byte = (number & 0x7f) as u8;
        if group == 8 {
            text.push(number as u8);
            return;
        }
        number >>= 7;
        if number == 0 && longer == 0 {
            text.push(byte);
            return;
        }
        longer = longer.saturating_sub(1);
        text.push(byte | 0x80);
    }
}

/// A number of a payload, by zig-zag.
fn encoded(random: &mut Random) -> u64 {
    match random.below(12) {
        0 => 0,
        1 => 2 * random.number(63),
        2 => 2 * random.pick(&[255, 256, 65_535, 65_536, (1 << 32) - 1, 1 << 32, (1 << 63) - 1]),
        3 => u64::MAX,
        4 => random.number(64) | 1,
        5 | 6 => 2 * random.below(40) + 1,
        7 => 1,
        _ => 2 * (1 + random.below(200)),
    }
}

/// A text with a lawful header and a payload of random numbers.
pub fn spelt(random: &mut Random) -> Vec<u8> {
    let (low, high, sigfig) = bounds(random);
    let mut payload = Vec::new();
    for _ in 0..random.pick(&[0, 1, 2, 4, 10, 40]) {
        let number = encoded(random);
        spell(&mut payload, number, random);
    }
    if random.one_in(4) {
        payload.extend(std::iter::repeat_n(0, random.below(70) as usize));
    }
    text_of(low, high, sigfig, &payload)
}

/// A text of thousands of bins, most of them filled by counts of two bytes.
pub fn dense(random: &mut Random) -> Vec<u8> {
    let mut payload = Vec::new();
    for _ in 0..500 + random.below(5000) {
        let number = match random.below(40) {
            0 => 0,
            1 => 2 * random.below(30) + 1,
            2 => 2 * (1 + random.below(60)),
            3 => 2 * random.number(30),
            _ => 2 * (64 + random.below(8000)),
        };
        spell(&mut payload, number, random);
    }
    let high = random.pick(&[1 << 20, 3_600_000_000, u64::MAX]);
    text_of(1, high, random.pick(&[2, 3]), &payload)
}

/// A text of these bounds, digits and payload.
fn text_of(low: u64, high: u64, sigfig: u8, payload: &[u8]) -> Vec<u8> {
    let mut text = vec![0x1c, 0x84, 0x93, 0x13];
    text.extend((payload.len() as u32).to_be_bytes());
    text.extend(0u32.to_be_bytes());
    text.extend(u32::from(sigfig).to_be_bytes());
    text.extend(low.to_be_bytes());
    text.extend(high.to_be_bytes());
    text.extend(1f64.to_be_bytes());
    text.extend(payload);
    text
}

/// A place of a text, in its header or in all of it alike often.
fn place(text: &[u8], random: &mut Random) -> usize {
    let end = if random.one_in(2) { text.len() } else { text.len().min(40) };
    random.below(end.max(1) as u64) as usize
}

/// A part of a text from a place on.
fn part(text: &[u8], random: &mut Random) -> Range<usize> {
    let begin = place(text, random);
    let left = (text.len() - begin) as u64;
    let most = if random.one_in(2) { left.min(9) } else { left };
    begin..begin + random.below(most + 1) as usize
}

/// Puts a part of a text once more after itself, or many times.
fn double(text: &mut Vec<u8>, random: &mut Random) {
    let part = part(text, random);
    let times = if random.one_in(4) { 1 + random.below(600) as usize / (part.len() + 1) } else { 1 };
    let copies = text[part.clone()].repeat(times);
    text.splice(part.end..part.end, copies);
}

/// Goes on as another text does from its own place, or puts a part of that one in.
fn splice(text: &mut Vec<u8>, random: &mut Random) {
    let other = if random.one_in(2) { written(random) } else { spelt(random) };
    let (ours, theirs) = (part(text, random), part(&other, random));
    if random.one_in(2) {
        text.truncate(ours.start);
        text.extend_from_slice(&other[theirs.start..]);
    } else {
        text.splice(ours, other[theirs].iter().copied());
    }
}

/// States the length that a text's payload has.
fn mend_length(text: &mut [u8]) {
    let length = text.len().saturating_sub(40) as u32;
    if let Some(field) = text.get_mut(4..8) {
        field.copy_from_slice(&length.to_be_bytes());
    }
}

/// Damages a text in one place.
fn damage(text: &mut Vec<u8>, random: &mut Random) {
    let at = place(text, random);
    if text.is_empty() {
        return;
    }
    match random.below(12) {
        0 => text.truncate(at),
        1 => {
            text.remove(at);
        }
        2 => text.insert(at, random.next() as u8),
        3 => text[at] ^= 1 << random.below(8),
        4 => text[at] = random.pick(&[0, 1, 0x7f, 0x80, 0xfe, 0xff]),
        5 => {
            let end = (at + 8).min(text.len());
            text[at..end].fill(random.pick(&[0, 0xff, 0x80]));
        }
        6 if text.len() > 7 => text[7] = text[7].wrapping_add(random.pick(&[1, 2, 0xff, 0xfe])),
        7 => {
            let part = part(text, random);
            text.drain(part);
        }
        8 => double(text, random),
        9 => splice(text, random),
        10 => mend_length(text),
        _ => text[at] = random.next() as u8,
    }
}

/// A text of any kind, with bytes after it, and whether the Rust crate wrote it and nothing was damaged.
pub fn any(random: &mut Random) -> (Vec<u8>, bool) {
    let kind = random.below(64);
    let is_written = kind < 32;
    let mut text = match kind {
        0..32 => written(random),
        32 => dense(random),
        _ => spelt(random),
    };
    let damages = random.pick(&[0, 0, 1, 1, 1, 2, 3]);
    for _ in 0..damages {
        damage(&mut text, random);
    }
    if random.one_in(4) {
        text.extend(b"xyz");
    }
    (text, is_written && damages == 0)
}
