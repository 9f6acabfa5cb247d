//! What a merge of a log prints, by the grammar of its lines alone.

use crate::grammar::{Entry, Reading, is_base64};
use crate::options::Filter;

/// The field of one sample of 0, by no digits.
pub const ONE_SAMPLE: &[u8] = b"HISTEwAAAAEAAAAAAAAAAAAAAAAAAAABAAAAAAAAAAI/8AAAAAAAAAI=";

/// What a merge prints, by the grammar.
pub struct Expected {
    /// The lines that are read, up to the one at fault.
    pub lines: u64,
    /// The report, or else the error.
    pub report: Result<String, String>,
}

/// What `merge` prints with a filter, no digits and the quantile 1/2, where each field holds one sample. `None` where a
/// chosen interval has another field that may hold a histogram.
pub fn expected(filter: &Filter, log: &[u8]) -> Option<Expected> {
    let (mut lines, mut base, mut intervals, mut samples) = (0, 0, 0, 0);
    for entry in Reading::of(log) {
        lines += 1;
        match entry {
            Err(at) => return Some(Expected { lines, report: Err(format!("hdr: log: parse error at byte {at}\n")) }),
            Ok(Entry::Nothing) => {}
            Ok(Entry::BaseTime(time)) => base = time,
            Ok(Entry::Interval(interval)) => {
                intervals += 1;
                if !filter.chooses(base, &interval) {
                    continue;
                }
                if !is_base64(interval.field) {
                    return Some(Expected { lines, report: Err(format!("hdr: interval {intervals}: not base64\n")) });
                }
                if interval.field != ONE_SAMPLE {
                    return None;
                }
                samples += 1;
            }
        }
    }
    Some(Expected { lines, report: Ok(report(samples)) })
}

/// The report of so many samples of 0, below 64: the V2 bytes have one byte of payload.
fn report(samples: u8) -> String {
    assert!(samples < 64, "a payload of one byte");
    let payload = 2 * samples;
    let bounds = "00000000000000010000000000000002";
    format!("len {samples}\n1/2 0\nv2 1c8493130000000100000000{:08x}{bounds}3ff0000000000000{payload:02x}\n", 0)
}
