//! The histograms of a log: V2 bytes in Base64.

use crate::damage::mutate;
use crate::random::Random;
use hdrhistogram::Histogram;
use hdrhistogram::serialization::{Serializer, V2Serializer};

const COOKIE: u64 = 0x1c84_9313;
const RATIO: u64 = 0x3ff0_0000_0000_0000;

/// A field. Where it need not be sound, it may be damaged in its text, in its header or in its payload.
pub fn field(random: &mut Random, is_sound: bool) -> Vec<u8> {
    let mut bytes = if random.one_in(4) { recorded(random) } else { bytes(random, is_sound) };
    if random.one_in(8) {
        bytes.extend((0..random.below(12)).map(|_| random.below(256) as u8));
    }
    if !is_sound && random.one_in(32) {
        bytes.truncate(random.below(bytes.len() as u64) as usize);
    }
    let mut text = base64(&bytes);
    if !is_sound && random.one_in(24) {
        damage(random, &mut text);
    }
    text
}

/// A field of bytes that were sound before they were damaged.
pub fn mutated_field(random: &mut Random) -> Vec<u8> {
    let mut bytes = sound_bytes(random);
    mutate(random, &mut bytes, sound_bytes);
    base64(&bytes)
}

/// Sound V2 bytes.
fn sound_bytes(random: &mut Random) -> Vec<u8> {
    if random.one_in(4) { recorded(random) } else { bytes(random, true) }
}

/// The field of an empty histogram of few bins.
pub fn empty_field() -> Vec<u8> {
    base64(&Header { cookie: COOKIE, offset: 0, sigfig: 0, low: 1, high: 2, ratio: RATIO }.with_payload(&[0], 1))
}

/// What a header states but for the payload's length.
struct Header {
    cookie: u64,
    offset: u64,
    sigfig: u64,
    low: u64,
    high: u64,
    ratio: u64,
}

impl Header {
    fn new(random: &mut Random) -> Header {
        let sigfig = random.below(6);
        let low = match random.below(16) {
            0..=8 => 1,
            9 => random.near_power(62).max(1),
            // Just below a great power of two, which f64 does not distinguish from the power.
            10 | 11 => (1 << (46 + random.below(17))) - 1 - random.below(2),
            _ => random.number(20).max(1),
        };
        let least = low.saturating_mul(2);
        let high = match random.below(16) {
            0..=2 if sigfig < 4 || random.one_in(16) => u64::MAX - random.below(3),
            3 if sigfig < 4 || random.one_in(8) => random.near_power(64),
            4 => least,
            // Two to a few thousand times as many as are kept singly, so that the bins are not too many.
            5..=8 => least.saturating_mul(random.near_power(8 + 3 * sigfig).max(1)),
            _ => least.saturating_mul(random.number(8 + 3 * sigfig).max(1)),
        };
        let header = Header { cookie: COOKIE, offset: 0, sigfig, low, high: high.max(least), ratio: RATIO };
        if header.bins() > 0 { header } else { Header { low: 1, ..header } }
    }

    /// Makes one part wrong, or at the border of wrong.
    fn damage(&mut self, random: &mut Random) {
        match random.below(9) {
            0 => self.cookie = 0x1c84_9314,
            1 => self.cookie ^= 1 << random.below(32),
            2 => self.offset = random.number(32),
            3 => self.sigfig = [6, 255, 256, 0xffff_ffff][random.below(4) as usize],
            4 => self.low = [0, 1 << 63, (1 << 63) - 1, u64::MAX][random.below(4) as usize],
            5 => self.high = self.low.saturating_mul(2).saturating_sub(random.below(2)),
            6 => (self.low, self.high) = (random.near_power(63), u64::MAX),
            7 => self.ratio ^= 1 << random.below(64),
            _ => self.high = random.near_power(20),
        }
    }

    /// How many bins the histogram has; 0 where the header is wrong.
    fn bins(&self) -> u64 {
        let (low, high) = (self.low, self.high);
        let Some(digits) = [1, 5, 8, 11, 15, 18].get(self.sigfig as usize) else {
            return 0;
        };
        if low == 0 || high / 2 < low || low.ilog2() + digits > 63 {
            return 0;
        }
        let buckets = (high.ilog2() + 1).saturating_sub(low.ilog2() + digits) + 1;
        u64::from(buckets + 1) << (digits - 1)
    }

    fn with_payload(&self, payload: &[u8], stated: u64) -> Vec<u8> {
        let Header { cookie, offset, sigfig, low, high, ratio } = *self;
        let ints = [cookie, stated, offset, sigfig].map(|int| (int as u32).to_be_bytes());
        let longs = [low, high, ratio].map(u64::to_be_bytes);
        [ints.as_flattened(), longs.as_flattened(), payload].concat()
    }
}

/// The bytes that the crate writes for a histogram that grew.
fn recorded(random: &mut Random) -> Vec<u8> {
    let sigfig = random.below(4) as u8;
    let mut histogram = Histogram::<u64>::new(sigfig).expect("a histogram keeps 0 to 5 digits");
    let bits = 1 + random.below(64);
    for _ in 0..random.below(60) {
        let count = 1 + random.number(8);
        histogram.record_n(random.value(bits), count).expect("a histogram that grows takes all");
    }
    let mut bytes = Vec::new();
    V2Serializer::new().serialize(&histogram, &mut bytes).expect("memory takes all");
    bytes
}

/// V2 bytes of any form.
fn bytes(random: &mut Random, is_sound: bool) -> Vec<u8> {
    let mut header = Header::new(random);
    if !is_sound && random.one_in(10) {
        header.damage(random);
    }
    let mut payload = Vec::new();
    for number in numbers(random, header.bins(), is_sound) {
        let long = if random.one_in(16) { random.below(10) } else { 0 };
        push_varint(&mut payload, zig_zag(number), long);
    }
    if !is_sound && random.one_in(32) {
        payload.extend((0..=random.below(9)).map(|_| 0x80 | random.below(128) as u8));
    }
    let length = payload.len() as u64;
    let stated = match random.below(48) {
        _ if is_sound => length,
        0 => length.saturating_sub(random.below(12)),
        1 => length + 1 + random.below(12),
        2 => 0,
        3 => random.number(32),
        _ => length,
    };
    header.with_payload(&payload, stated)
}

/// The numbers of a payload for so many bins. Some lead past them, and only sound ones leave no count there.
fn numbers(random: &mut Random, bins: u64, is_sound: bool) -> Vec<i64> {
    let has_great_counts = random.one_in(8);
    let mut numbers = Vec::new();
    let mut left = bins;
    for _ in 0..random.below(32) {
        let number = match random.below(8) {
            0 | 1 => -((1 + random.below(left / 4 + 1)) as i64),
            2 => -1,
            3 => 0,
            4 if has_great_counts => i64::MAX - random.below(3) as i64,
            4 => random.number(40) as i64,
            _ => random.below(300) as i64,
        };
        let taken = if number < 0 { number.unsigned_abs() } else { 1 };
        if taken > left {
            break;
        }
        left -= taken;
        numbers.push(number);
    }
    match random.below(12) {
        // One of the last bins is filled.
        0..=2 if left > 4 => numbers.extend([random.below(4) as i64 + 1 - (left as i64), 1 + random.below(300) as i64]),
        3 => numbers.extend(past_end(random, left, is_sound)),
        _ => {}
    }
    numbers
}

/// The numbers from a place before so many bins to places past the last one.
fn past_end(random: &mut Random, left: u64, is_sound: bool) -> Vec<i64> {
    let most = if is_sound { 2 } else { 6 };
    let mut numbers = vec![-(left as i64)];
    numbers.extend((0..random.below(most)).map(|_| number_past_end(random, is_sound)));
    numbers
}

/// A number for places past the bins, most of which are no counts.
fn number_past_end(random: &mut Random, is_sound: bool) -> i64 {
    match random.below(16) {
        0..=4 => 0,
        5 | 6 if is_sound => i64::MIN,
        5 => 1,
        6 => i64::MAX,
        7..=9 => i64::MIN,
        10 | 11 => -i64::MAX,
        12 => -(1 << random.below(62)),
        _ => -(random.below(9) as i64),
    }
}

fn zig_zag(number: i64) -> u64 {
    ((number << 1) ^ (number >> 63)) as u64
}

/// Adds a number in groups of seven bits, of which there are at least so many. A ninth byte has eight.
fn push_varint(payload: &mut Vec<u8>, number: u64, groups: u64) {
    let mut left = number;
    for group in 1..9 {
        if left < 0x80 && group >= groups {
            payload.push(left as u8);
            return;
        }
        payload.push(0x80 | left as u8);
        left >>= 7;
    }
    payload.push(left as u8);
}

const ALPHABET: &[u8; 64] = b"ABCDEFGHIJKLMNOPQRSTUVWXYZabcdefghijklmnopqrstuvwxyz0123456789+/";

fn base64(bytes: &[u8]) -> Vec<u8> {
    let mut text = Vec::new();
    for part in bytes.chunks(3) {
        let [a, b, c] = [0, 1, 2].map(|at| u32::from(*part.get(at).unwrap_or(&0)));
        let number = a << 16 | b << 8 | c;
        let digits = [18, 12, 6, 0].map(|shift| ALPHABET[(number >> shift & 63) as usize]);
        text.extend_from_slice(&digits[..=part.len()]);
        text.resize(text.len().next_multiple_of(4), b'=');
    }
    text
}

/// Groups that are wrong, or wrong after another group that is padded.
const WRONG_GROUPS: [&[u8]; 8] = [b"====", b"A===", b"AA==", b"AB==", b"AAA=", b"AAB=", b"AAAA", b"\r "];

/// Makes a text wrong as Base64, most often.
pub fn damage(random: &mut Random, text: &mut Vec<u8>) {
    let at = random.below(text.len() as u64 + 1) as usize;
    match random.below(8) {
        0 => drop(text.pop()),
        1 => text.push(b'='),
        2 => text.extend_from_slice(random.one_of(&WRONG_GROUPS)),
        3 => text.insert(at, b"=-_ .\t\xc3"[random.below(7) as usize]),
        4 if at < text.len() => text[at] = b"=-_ .\t\0"[random.below(7) as usize],
        5 => text.truncate(at),
        6 => text.clear(),
        _ => raise_last_digit(random, text),
    }
}

/// Puts other bits into the last digit, where a padded text has none to be used.
fn raise_last_digit(random: &mut Random, text: &mut [u8]) {
    if let Some(digit) = text.iter_mut().rev().find(|byte| **byte != b'=') {
        *digit = ALPHABET[random.below(64) as usize];
    }
}
