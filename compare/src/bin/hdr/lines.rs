//! The lines that record.

use crate::fault::Fault;
use hdrhistogram::{Histogram, RecordError};

/// Applies the lines of the input to an empty histogram that grows.
pub fn histogram_of(sigfig: u8, input: &[u8]) -> Result<Histogram<u64>, Fault> {
    let mut histogram = new_histogram(sigfig);
    let (mut left, mut line) = (input, 1);
    while !left.is_empty() {
        let (call, after) = Call::from_text(left).ok_or(Fault::NotACommand(line))?;
        call.apply(&mut histogram).map_err(|cause| Fault::NotRecorded(line, cause))?;
        (left, line) = (after, line + 1);
    }
    Ok(histogram)
}

/// An empty histogram that grows.
pub fn new_histogram(sigfig: u8) -> Histogram<u64> {
    Histogram::new(sigfig).expect("a histogram keeps 0 to 5 digits")
}

/// The call of a line.
pub enum Call {
    Nothing,
    Record { value: u64, count: u64 },
    Clamp { value: u64, count: u64 },
    Correct { value: u64, interval: u64, count: u64 },
    Clear,
    Reset,
}

impl Call {
    /// The call of a text's first line, and the text after that line; `None` where the line is no command.
    #[inline]
    pub fn from_text(text: &[u8]) -> Option<(Call, &[u8])> {
        let (call, left) = match text {
            [b'r', b' ', left @ ..] => {
                let (value, left) = number(left)?;
                let (count, left) = count(left)?;
                (Call::Record { value, count }, left)
            }
            [b's', b' ', left @ ..] => {
                let (value, left) = number(left)?;
                let (count, left) = count(left)?;
                (Call::Clamp { value, count }, left)
            }
            [b'c', b' ', left @ ..] => {
                let (value, left) = number(left)?;
                let (interval, left) = number(left.strip_prefix(b" ")?)?;
                let (count, left) = count(left)?;
                (Call::Correct { value, interval, count }, left)
            }
            [b'c', b'l', b'e', b'a', b'r', left @ ..] => (Call::Clear, left),
            [b'r', b'e', b's', b'e', b't', left @ ..] => (Call::Reset, left),
            _ => (Call::Nothing, text),
        };
        Some((call, line_end(left)?))
    }

    pub fn apply(self, histogram: &mut Histogram<u64>) -> Result<(), RecordError> {
        match self {
            Call::Nothing => {}
            Call::Record { value, count } => histogram.record_n(value, count)?,
            Call::Clamp { value, count } => histogram.saturating_record_n(value, count),
            Call::Correct { value, interval, count } => histogram.record_n_correct(value, count, interval)?,
            Call::Clear => histogram.clear(),
            Call::Reset => histogram.reset(),
        }
        Ok(())
    }
}

/// The text after a line's end, which the last line may lack; `None` where more of the line is left.
#[inline]
pub fn line_end(text: &[u8]) -> Option<&[u8]> {
    match text {
        [] => Some(text),
        [b'\n', left @ ..] => Some(left),
        _ => None,
    }
}

/// The number that the digits at the front of a text spell, and the text after them; `None` where there is no digit, or
/// where the number has more than 64 bits.
#[inline]
pub fn number(text: &[u8]) -> Option<(u64, &[u8])> {
    let mut value = 0u64;
    let mut left = text;
    while let [byte @ b'0'..=b'9', after @ ..] = left {
        value = value.checked_mul(10)?.checked_add(u64::from(byte - b'0'))?;
        left = after;
    }
    (left.len() < text.len()).then_some((value, left))
}

/// The count at the front of a text after a space, 1 where there is no space, and the text after it.
#[inline]
fn count(text: &[u8]) -> Option<(u64, &[u8])> {
    match text {
        [b' ', left @ ..] => number(left),
        _ => Some((1, text)),
    }
}
