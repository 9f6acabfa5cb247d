//! The errors of a run.

use hdrhistogram::RecordError;
use hdrhistogram::serialization::interval_log::IntervalLogWriterError;
use hdrhistogram::serialization::{DeserializeError, V2SerializeError};
use std::fmt;

const USAGE: &str = "hdr: usage: hdr report SIGFIG Q.. | hdr log SIGFIG | \
    hdr merge [--into COUNTER] [--tag T] [--from MS] [--to MS] SIGFIG Q..";

/// The error of a run. Its text is the line on standard error.
pub enum Fault {
    WrongUsage,
    NotACommand(u64),
    NotRecorded(u64, RecordError),
    NotWritten(u64, IntervalLogWriterError<V2SerializeError>),
    NotALog(usize),
    NotBase64(u64),
    NotRead(u64, DeserializeError),
    CannotRead,
    CannotWrite,
}

impl Fault {
    /// The exit status.
    pub fn status(&self) -> u8 {
        match self {
            Fault::WrongUsage => 2,
            _ => 1,
        }
    }
}

impl fmt::Display for Fault {
    fn fmt(&self, f: &mut fmt::Formatter<'_>) -> fmt::Result {
        match self {
            Fault::WrongUsage => f.write_str(USAGE),
            Fault::NotACommand(line) => write!(f, "hdr: line {line}: not a command"),
            Fault::NotRecorded(line, cause) => write!(f, "hdr: line {line}: {cause}"),
            Fault::NotWritten(line, cause) => write!(f, "hdr: line {line}: {cause}"),
            Fault::NotALog(offset) => write!(f, "hdr: log: parse error at byte {offset}"),
            Fault::NotBase64(interval) => write!(f, "hdr: interval {interval}: not base64"),
            Fault::NotRead(interval, cause) => write!(f, "hdr: interval {interval}: {cause}"),
            Fault::CannotRead => f.write_str("hdr: cannot read the input"),
            Fault::CannotWrite => f.write_str("hdr: cannot write the output"),
        }
    }
}
