//! The command `log`.
//!
//! The crate has times and greatest values in f64, and writes a line's front before it knows that the histogram can be
//! serialized. Here a line's numbers are exact, and an interval that fails leaves nothing.

use crate::bytes::{ExactSerializer, top};
use crate::fault::Fault;
use crate::lines::{Call, line_end, new_histogram, number};
use hdrhistogram::Histogram;
use hdrhistogram::serialization::V2SerializeError;
use hdrhistogram::serialization::interval_log::{IntervalLogWriter, IntervalLogWriterBuilder, IntervalLogWriterError, Tag};
use std::cell::RefCell;
use std::fmt;
use std::io::{self, Write};
use std::str;
use std::time::Duration;

/// Times up to here, in thousandths of a second, are written right by way of f64.
const EXACT_TIME: u64 = 1 << 50;

/// Values up to here are numbers of f64.
const EXACT_VALUE: u64 = 1 << 53;

/// Applies the lines of the input to an empty histogram that grows, and writes each interval where it ends.
pub fn write_log(sigfig: u8, input: &[u8], output: &mut impl Write) -> Result<(), Fault> {
    let mut histogram = new_histogram(sigfig);
    let line = RefCell::new(Vec::new());
    let (mut shared, mut serializer) = (Shared(&line), ExactSerializer::new());
    let log = IntervalLogWriterBuilder::new().begin_log_with(&mut shared, &mut serializer);
    let mut log = log.expect("a log without headers begins empty");
    let (mut left, mut number) = (input, 1);
    while !left.is_empty() {
        let (command, after) = Command::from_text(left).ok_or(Fault::NotACommand(number))?;
        match command {
            Command::Call(call) => call.apply(&mut histogram).map_err(|cause| Fault::NotRecorded(number, cause))?,
            Command::End(interval) => {
                line.borrow_mut().clear();
                interval.write(&histogram, &mut log).map_err(|cause| Fault::NotWritten(number, cause))?;
                interval.mend(&histogram, &mut line.borrow_mut());
                output.write_all(&line.borrow()).map_err(|_| Fault::CannotWrite)?;
                histogram.reset();
            }
        }
        (left, number) = (after, number + 1);
    }
    output.flush().map_err(|_| Fault::CannotWrite)
}

/// The command of a line.
enum Command<'a> {
    Call(Call),
    End(Interval<'a>),
}

impl<'a> Command<'a> {
    /// The command of a text's first line, and the text after that line; `None` where the line is no command.
    #[inline]
    fn from_text(text: &'a [u8]) -> Option<(Command<'a>, &'a [u8])> {
        match text.strip_prefix(b"end ") {
            Some(fields) => Interval::from_text(fields).map(|(interval, left)| (Command::End(interval), left)),
            None => Call::from_text(text).map(|(call, left)| (Command::Call(call), left)),
        }
    }
}

/// An interval's times in thousandths of a second, and its tag.
struct Interval<'a> {
    start: u64,
    duration: u64,
    tag: Option<Tag<'a>>,
}

impl<'a> Interval<'a> {
    /// The interval of the fields at the front of a text, and the text after that line.
    fn from_text(text: &'a [u8]) -> Option<(Interval<'a>, &'a [u8])> {
        let (start, left) = number(text)?;
        let (duration, left) = number(left.strip_prefix(b" ")?)?;
        let (tag, left) = match left {
            [b' ', left @ ..] => {
                let (tag, left) = left.split_at(left.iter().position(|byte| *byte == b'\n').unwrap_or(left.len()));
                (Some(tag_of(tag)?), left)
            }
            _ => (None, left),
        };
        Some((Interval { start, duration, tag }, line_end(left)?))
    }

    fn write<W: Write>(
        &self,
        histogram: &Histogram<u64>,
        log: &mut IntervalLogWriter<'_, '_, W, ExactSerializer>,
    ) -> Result<(), IntervalLogWriterError<V2SerializeError>> {
        log.write_histogram(histogram, Duration::from_millis(self.start), Duration::from_millis(self.duration), self.tag)
    }

    /// Puts exact numbers into the line that the crate wrote, where its own may be others.
    fn mend(&self, histogram: &Histogram<u64>, line: &mut Vec<u8>) {
        let max = if histogram.max() == 0 { 0 } else { top(histogram, histogram.max()) };
        if self.start.max(self.duration) <= EXACT_TIME && max <= EXACT_VALUE {
            return;
        }
        let tag = self.tag.map_or(String::new(), |tag| format!("Tag={},", tag.as_str()));
        let front = format!("{tag}{},{},{max}.000", Seconds(self.start), Seconds(self.duration));
        let end = line.iter().rposition(|byte| *byte == b',').expect("a field comes after the last comma");
        line.splice(..end, front.into_bytes());
    }
}

/// The tag of a text that is not empty.
fn tag_of(text: &[u8]) -> Option<Tag<'_>> {
    let text = str::from_utf8(text).ok()?;
    if text.is_empty() { None } else { Tag::new(text) }
}

/// Thousandths of a second, written as seconds.
struct Seconds(u64);

impl fmt::Display for Seconds {
    fn fmt(&self, f: &mut fmt::Formatter<'_>) -> fmt::Result {
        write!(f, "{}.{:03}", self.0 / 1000, self.0 % 1000)
    }
}

/// Bytes that are still seen while a writer of them is borrowed.
struct Shared<'a>(&'a RefCell<Vec<u8>>);

impl Write for Shared<'_> {
    fn write(&mut self, bytes: &[u8]) -> io::Result<usize> {
        self.0.borrow_mut().write(bytes)
    }

    fn flush(&mut self) -> io::Result<()> {
        Ok(())
    }
}
