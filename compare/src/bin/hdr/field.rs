//! The field of an interval: Base64 of V2 bytes.
//!
//! The crate takes the compressed form, has the unit of `low` by way of f64, makes room for any stated length, and has an
//! error at a move by 2^63 bins. Here the bytes are changed before it sees them, to others that it reads as it should read these.

use hdrhistogram::Histogram;
use hdrhistogram::serialization::{DeserializeError, Deserializer};

const COMPRESSED_COOKIE: [u8; 4] = [0x1c, 0x84, 0x93, 0x14];
const HEADER: usize = 40;
const LENGTH_FIELD: std::ops::Range<usize> = 4..8;
const LOW_FIELD: std::ops::Range<usize> = 16..24;
const HIGH_FIELD: std::ops::Range<usize> = 24..32;

/// A move by 2^63 bins, and the same in two moves.
const GREATEST_MOVE: [u8; 9] = [0xff; 9];
const TWO_MOVES: [u8; 10] = [0xfd, 0xff, 0xff, 0xff, 0xff, 0xff, 0xff, 0xff, 0xff, 0x01];

/// The errors of a field.
pub enum FieldError {
    NotBase64,
    NotRead(DeserializeError),
}

/// Reads fields.
pub struct FieldReader {
    deserializer: Deserializer,
    bytes: Vec<u8>,
}

impl FieldReader {
    pub fn new() -> FieldReader {
        FieldReader { deserializer: Deserializer::new(), bytes: Vec::new() }
    }

    /// The histogram of a field. Bytes after it are ignored.
    pub fn read(&mut self, field: &str) -> Result<Histogram<u64>, FieldError> {
        self.bytes.clear();
        push_decoded(&mut self.bytes, field.as_bytes()).ok_or(FieldError::NotBase64)?;
        if self.bytes.starts_with(&COMPRESSED_COOKIE) {
            return Err(FieldError::NotRead(DeserializeError::UnsupportedFeature));
        }
        if self.bytes.len() >= HEADER {
            mend_low(&mut self.bytes);
            mend_payload(&mut self.bytes);
        }
        self.deserializer.deserialize(&mut &self.bytes[..]).map_err(FieldError::NotRead)
    }
}

/// Puts the unit in the place of a right `low`, which nothing else of a read histogram rests on.
fn mend_low(bytes: &mut [u8]) {
    let [low, high] = [LOW_FIELD, HIGH_FIELD].map(|field| number(&bytes[field]));
    if low > 0 && high / 2 >= low {
        bytes[LOW_FIELD].copy_from_slice(&(1u64 << low.ilog2()).to_be_bytes());
    }
}

/// Lets a payload that is cut be too long by one byte only, and splits moves by 2^63 bins.
fn mend_payload(bytes: &mut Vec<u8>) {
    let stated = number(&bytes[LENGTH_FIELD]) as usize;
    let left = bytes.len() - HEADER;
    if stated > left {
        set_length(bytes, left + 1);
        return;
    }
    let payload = &bytes[HEADER..HEADER + stated];
    if payload.windows(GREATEST_MOVE.len()).any(|part| part == GREATEST_MOVE) {
        let payload = split_moves(payload);
        bytes.truncate(HEADER);
        set_length(bytes, payload.len());
        bytes.extend_from_slice(&payload);
    }
}

/// A payload with each move by 2^63 bins in two parts.
fn split_moves(payload: &[u8]) -> Vec<u8> {
    let mut split = Vec::new();
    let mut left = payload;
    while !left.is_empty() {
        let (number, after) = left.split_at(varint_length(left));
        split.extend_from_slice(if number == GREATEST_MOVE { &TWO_MOVES } else { number });
        left = after;
    }
    split
}

/// How many bytes the number at the front of a payload takes: all of them where it is cut.
fn varint_length(payload: &[u8]) -> usize {
    let last = payload.iter().take(8).position(|byte| *byte < 0x80);
    last.map_or(9, |at| at + 1).min(payload.len())
}

fn set_length(bytes: &mut [u8], length: usize) {
    let length = u32::try_from(length).expect("a payload is shorter than 2^32 bytes");
    bytes[LENGTH_FIELD].copy_from_slice(&length.to_be_bytes());
}

/// The number of a field of the header.
fn number(field: &[u8]) -> u64 {
    field.iter().fold(0, |number, byte| number << 8 | u64::from(*byte))
}

/// Adds the bytes that a Base64 text stands for; `None` where it has a wrong length, character or padding, or a last
/// group with bits to spare.
fn push_decoded(bytes: &mut Vec<u8>, text: &[u8]) -> Option<()> {
    if text.len() % 4 > 0 {
        return None;
    }
    let (groups, last) = text.split_at(text.len().saturating_sub(4));
    bytes.reserve(text.len() / 4 * 3);
    for group in groups.chunks_exact(4) {
        let [_, held @ ..] = group_number(group)?.to_be_bytes();
        bytes.extend_from_slice(&held);
    }
    if last.is_empty() {
        return Some(());
    }
    let padding = last.iter().rev().take(2).take_while(|byte| **byte == b'=').count();
    let mut group = [b'A'; 4];
    group[..4 - padding].copy_from_slice(&last[..4 - padding]);
    let [_, number @ ..] = group_number(&group)?.to_be_bytes();
    let (held, spare) = number.split_at(3 - padding);
    bytes.extend_from_slice(held);
    spare.iter().all(|byte| *byte == 0).then_some(())
}

/// The number that four characters spell.
#[inline]
fn group_number(group: &[u8]) -> Option<u32> {
    let [a, b, c, d] = [0, 1, 2, 3].map(|at| u32::from(DIGITS[usize::from(group[at])]));
    let number = a << 18 | b << 12 | c << 6 | d;
    // No digit is above 63, so that anything else shows in the bits above.
    ((a | b | c | d) < 64).then_some(number)
}

/// The digit of each character, and 255 for the characters that are none.
const DIGITS: [u8; 256] = digits();

const fn digits() -> [u8; 256] {
    let alphabet = b"ABCDEFGHIJKLMNOPQRSTUVWXYZabcdefghijklmnopqrstuvwxyz0123456789+/";
    let mut digits = [255; 256];
    let mut digit = 0;
    while digit < alphabet.len() {
        digits[alphabet[digit] as usize] = digit as u8;
        digit += 1;
    }
    digits
}
