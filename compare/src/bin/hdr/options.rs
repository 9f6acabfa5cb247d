//! The options of `merge`: pairs of a name and a value, each name at most once.

use crate::lines::number;
use hdrhistogram::serialization::interval_log::Tag;
use std::str;

const NANOS_OF_A_MILLISECOND: u128 = 1_000_000;

/// The counter type of the sum, and which intervals are chosen.
#[derive(Default)]
pub struct Options<'a> {
    /// The greatest count of the type.
    greatest: Option<u64>,
    tag: Option<&'a str>,
    from: Option<u64>,
    to: Option<u64>,
}

impl<'a> Options<'a> {
    /// The options that come first, and the arguments after them; `None` where a value is wrong or a name comes again.
    pub fn from_arguments(arguments: &'a [Vec<u8>]) -> Option<(Options<'a>, &'a [Vec<u8>])> {
        let mut options = Options::default();
        let mut left = arguments;
        while let [name, value, after @ ..] = left {
            match &name[..] {
                b"--into" => put(&mut options.greatest, greatest_count(value)?)?,
                b"--tag" => put(&mut options.tag, tag_of(value)?)?,
                b"--from" => put(&mut options.from, whole_number(value)?)?,
                b"--to" => put(&mut options.to, whole_number(value)?)?,
                _ => break,
            }
            left = after;
        }
        Some((options, left))
    }

    /// The greatest count of the sum's type.
    pub fn greatest(&self) -> u64 {
        self.greatest.unwrap_or(u64::MAX)
    }

    /// Whether an interval of this tag that begins at this time, in nanoseconds since the epoch, is chosen.
    pub fn choose(&self, tag: Option<&str>, time: u128) -> bool {
        let has_tag = self.tag.is_none_or(|chosen| tag == Some(chosen));
        has_tag && self.from.is_none_or(|from| nanos(from) <= time) && self.to.is_none_or(|to| time < nanos(to))
    }
}

fn nanos(milliseconds: u64) -> u128 {
    u128::from(milliseconds) * NANOS_OF_A_MILLISECOND
}

/// Puts a value where none was.
fn put<T>(place: &mut Option<T>, value: T) -> Option<()> {
    place.replace(value).is_none().then_some(())
}

/// The greatest count of the type that an argument names.
fn greatest_count(argument: &[u8]) -> Option<u64> {
    match argument {
        b"u8" => Some(u8::MAX.into()),
        b"u16" => Some(u16::MAX.into()),
        b"u32" => Some(u32::MAX.into()),
        b"u64" => Some(u64::MAX),
        _ => None,
    }
}

fn tag_of(argument: &[u8]) -> Option<&str> {
    let text = str::from_utf8(argument).ok()?;
    Tag::new(text).map(|_| text)
}

/// The number that an argument spells.
fn whole_number(argument: &[u8]) -> Option<u64> {
    let (number, left) = number(argument)?;
    left.is_empty().then_some(number)
}
