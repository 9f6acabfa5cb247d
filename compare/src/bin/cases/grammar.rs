//! The lines of a log, by their grammar alone, as far as a merge minds them.

use std::str;

/// The entry of a line.
pub enum Entry<'a> {
    /// Nothing to a merge: a comment, a start time, or the legend of the columns.
    Nothing,
    /// The time that the intervals after it count from, in nanoseconds.
    BaseTime(u128),
    Interval(Interval<'a>),
}

/// An interval, with its start in nanoseconds.
pub struct Interval<'a> {
    pub tag: Option<&'a [u8]>,
    pub start: u128,
    pub field: &'a [u8],
}

/// Reads a log line by line. A line that is none is an error with the offset where it begins, and ends the reading.
pub struct Reading<'a> {
    log: &'a [u8],
    at: usize,
}

impl<'a> Reading<'a> {
    pub fn of(log: &'a [u8]) -> Reading<'a> {
        Reading { log, at: 0 }
    }
}

impl<'a> Iterator for Reading<'a> {
    type Item = Result<Entry<'a>, usize>;

    fn next(&mut self) -> Option<Self::Item> {
        if self.at == self.log.len() {
            return None;
        }
        let begin = self.at;
        let Some((line, after)) = parted(&self.log[begin..], b'\n') else {
            self.at = self.log.len();
            return Some(Err(begin));
        };
        let Some(entry) = entry(line) else {
            self.at = self.log.len();
            return Some(Err(begin));
        };
        self.at = self.log.len() - after.len();
        Some(Ok(entry))
    }
}

/// The entry of a line; `None` where it is no line of a log.
pub fn entry(line: &[u8]) -> Option<Entry<'_>> {
    if let Some(time) = base_time(line) {
        return Some(Entry::BaseTime(time));
    }
    if let Some(interval) = interval(line) {
        return Some(Entry::Interval(interval));
    }
    let is_skipped = line.starts_with(b"#") || line.starts_with(b"\"StartTimestamp\"");
    is_skipped.then_some(Entry::Nothing)
}

fn base_time(line: &[u8]) -> Option<u128> {
    let (time, _) = parted(line.strip_prefix(b"#[BaseTime: ")?, b' ')?;
    nanos(time)
}

fn interval(line: &[u8]) -> Option<Interval<'_>> {
    let (tag, line) = match line.strip_prefix(b"Tag=") {
        Some(after) => {
            let (tag, line) = parted(after, b',')?;
            (Some(tag), line)
        }
        None => (None, line),
    };
    let (start, line) = parted(line, b',')?;
    let (duration, line) = parted(line, b',')?;
    let (max, line) = parted(line, b',')?;
    let field = without_crs(line);
    let is_right = tag.is_none_or(is_tag) && is_decimal(max) && str::from_utf8(field).is_ok();
    let (start, _) = (nanos(start)?, nanos(duration)?);
    is_right.then_some(Interval { tag, start, field })
}

/// A text before and after the first of such bytes; `None` where it has none.
fn parted(text: &[u8], byte: u8) -> Option<(&[u8], &[u8])> {
    let at = text.iter().position(|other| *other == byte)?;
    Some((&text[..at], &text[at + 1..]))
}

fn without_crs(text: &[u8]) -> &[u8] {
    let end = text.iter().rposition(|byte| *byte != b'\r').map_or(0, |at| at + 1);
    &text[..end]
}

/// Whether a text may be a tag: UTF-8 without comma, CR, LF and space.
pub fn is_tag(text: &[u8]) -> bool {
    str::from_utf8(text).is_ok() && !text.iter().any(|byte| b",\r\n ".contains(byte))
}

/// Whether a text is digits, with at most one point before, among or after them.
fn is_decimal(text: &[u8]) -> bool {
    match parted(text, b'.') {
        None => is_digits(text),
        Some((whole, fraction)) => is_digits(&[whole, fraction].concat()),
    }
}

/// Whether a text is at least one digit, and nothing else.
fn is_digits(text: &[u8]) -> bool {
    !text.is_empty() && text.iter().all(u8::is_ascii_digit)
}

/// The nanoseconds of a time in seconds: seldom a plus, a number of 64 bits, a point, and digits of which nine count.
fn nanos(text: &[u8]) -> Option<u128> {
    let (whole, fraction) = parted(text.strip_prefix(b"+").unwrap_or(text), b'.')?;
    if !is_digits(whole) || !is_digits(fraction) {
        return None;
    }
    let seconds: u64 = str::from_utf8(whole).ok()?.parse().ok()?;
    let digits = fraction.iter().copied().chain(std::iter::repeat(b'0')).take(9);
    let behind_point = digits.fold(0, |number, digit| number * 10 + u128::from(digit - b'0'));
    Some(u128::from(seconds) * 1_000_000_000 + behind_point)
}

/// Whether a text is Base64: groups of four digits, of which the last may be padded and then has no bits to spare.
pub fn is_base64(text: &[u8]) -> bool {
    let padding = text.iter().rev().take(2).take_while(|byte| **byte == b'=').count();
    let (digits, last_bits) = (&text[..text.len() - padding], [63, 3, 15][padding]);
    let is_last_right = padding == 0 || digits.last().and_then(digit_of).is_some_and(|digit| digit & last_bits == 0);
    text.len() % 4 == 0 && digits.iter().all(|byte| digit_of(byte).is_some()) && is_last_right
}

fn digit_of(byte: &u8) -> Option<u8> {
    match byte {
        b'A'..=b'Z' => Some(byte - b'A'),
        b'a'..=b'z' => Some(byte - b'a' + 26),
        b'0'..=b'9' => Some(byte - b'0' + 52),
        b'+' => Some(62),
        b'/' => Some(63),
        _ => None,
    }
}
