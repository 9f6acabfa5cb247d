//! V2 bytes of a histogram, with the exact end of its last class.
//!
//! The crate has 2^64 - 2 as the top of the last class, and so in `high` and in the bytes. It is 2^64 - 1 here.

use hdrhistogram::serialization::{Serializer, V2SerializeError, V2Serializer};
use hdrhistogram::{Counter, Histogram};
use std::io::Write;

/// Where the V2 bytes hold the greatest value that the bins were made for.
const HIGH_FIELD: std::ops::Range<usize> = 24..32;

/// The V2 bytes; `None` where a counter is too great for them.
pub fn bytes_of(histogram: &Histogram<u64>, high: u64) -> Option<Vec<u8>> {
    let mut bytes = Vec::new();
    match V2Serializer::new().serialize(histogram, &mut bytes) {
        Ok(_) => {}
        Err(V2SerializeError::CountNotSerializable) => return None,
        Err(error) => panic!("writing to memory: {error}"),
    }
    bytes[HIGH_FIELD].copy_from_slice(&high.to_be_bytes());
    Some(bytes)
}

/// The greatest value that the bins were made for, where they grew by recording alone.
pub fn high_of<T: Counter>(histogram: &Histogram<T>) -> u64 {
    // Such bins end at a power of two less 1, or were never grown.
    let high = histogram.high();
    if high == u64::MAX - 1 { u64::MAX } else { high }
}

/// The top of a value's class.
pub fn top(histogram: &Histogram<u64>, value: u64) -> u64 {
    histogram.lowest_equivalent(value) + (histogram.equivalent_range(value) - 1)
}

/// Writes the V2 bytes of histograms that grew by recording alone.
pub struct ExactSerializer {
    serializer: V2Serializer,
    bytes: Vec<u8>,
}

impl ExactSerializer {
    pub fn new() -> ExactSerializer {
        ExactSerializer { serializer: V2Serializer::new(), bytes: Vec::new() }
    }
}

impl Serializer for ExactSerializer {
    type SerializeError = V2SerializeError;

    fn serialize<T: Counter, W: Write>(
        &mut self,
        histogram: &Histogram<T>,
        writer: &mut W,
    ) -> Result<usize, V2SerializeError> {
        let high = high_of(histogram);
        if high == histogram.high() {
            return self.serializer.serialize(histogram, writer);
        }
        self.bytes.clear();
        self.serializer.serialize(histogram, &mut self.bytes)?;
        self.bytes[HIGH_FIELD].copy_from_slice(&high.to_be_bytes());
        writer.write_all(&self.bytes)?;
        Ok(self.bytes.len())
    }
}
