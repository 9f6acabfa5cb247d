//! How V2 bytes are read, written down once more from the format alone, with no call of either library.

/// Why bytes are not read; the numbers are those of `hdrb_read`.
#[derive(Clone, Copy, Debug, PartialEq, Eq)]
pub enum Fault {
    IoError = 1,
    InvalidCookie = 2,
    UnsupportedFeature = 3,
    UnsuitableCounterType = 4,
    InvalidParameters = 5,
    UsizeTypeTooSmall = 6,
    EncodedArrayTooLong = 7,
}

/// What bytes are read as.
#[derive(Debug)]
pub struct Contents {
    pub low: u64,
    pub high: u64,
    pub sigfig: u8,
    pub bins: u64,
    /// The bins that are not empty, in order, with their counts.
    pub filled: Vec<(u64, u64)>,
    pub taken: usize,
}

/// What is read of a text, and whether the Rust crate is known to differ.
pub struct Read {
    pub contents: Result<Contents, Fault>,
    pub known: Option<&'static str>,
}

/// The header's numbers.
#[derive(Clone, Copy)]
struct Header {
    len: usize,
    sigfig: u8,
    low: u64,
    high: u64,
}

/// How many bits two times ten to the digits take.
pub fn digit_bits(sigfig: u8) -> u32 {
    let most = 2 * 10u64.pow(u32::from(sigfig));
    (most - 1).ilog2() + 1
}

/// The bits that classes below the first bucket's end do not distinguish.
pub fn unit_bits(low: u64) -> u32 {
    low.ilog2()
}

/// The bucket of a value.
pub fn bucket(low: u64, sigfig: u8, value: u64) -> u32 {
    let bits = unit_bits(low) + digit_bits(sigfig);
    (64 - value.leading_zeros()).saturating_sub(bits)
}

fn bins(low: u64, high: u64, sigfig: u8) -> u64 {
    (u64::from(bucket(low, sigfig, high)) + 2) << (digit_bits(sigfig) - 1)
}

/// The lowest value of a bin's class.
pub fn value_of(low: u64, sigfig: u8, bin: u64) -> u64 {
    let half = 1u64 << (digit_bits(sigfig) - 1);
    let unit = unit_bits(low);
    if bin < 2 * half {
        return bin << unit;
    }
    let bucket = bin / half - 1;
    (half + bin % half) << (u64::from(unit) + bucket)
}

/// The greatest value of a bin's class.
pub fn top_of(low: u64, sigfig: u8, bin: u64) -> u64 {
    let value = value_of(low, sigfig, bin);
    value + ((1u64 << (unit_bits(low) + bucket(low, sigfig, value))) - 1)
}

/// The next bytes of a text as a number, the highest first.
fn field(text: &[u8], at: &mut usize, size: usize) -> Result<u64, Fault> {
    let bytes = text.get(*at..*at + size).ok_or(Fault::IoError)?;
    *at += size;
    Ok(bytes.iter().fold(0, |number, byte| number << 8 | u64::from(*byte)))
}

fn header(text: &[u8]) -> Result<Header, Fault> {
    let mut at = 0;
    match field(text, &mut at, 4)? {
        0x1c84_9313 => {}
        0x1c84_9314 => return Err(Fault::UnsupportedFeature),
        _ => return Err(Fault::InvalidCookie),
    }
    let len = field(text, &mut at, 4)? as usize;
    if field(text, &mut at, 4)? != 0 {
        return Err(Fault::UnsupportedFeature);
    }
    let sigfig = u8::try_from(field(text, &mut at, 4)?).map_err(|_| Fault::InvalidParameters)?;
    let low = field(text, &mut at, 8)?;
    let high = field(text, &mut at, 8)?;
    if field(text, &mut at, 8)? != 0x3ff0_0000_0000_0000 {
        return Err(Fault::UnsupportedFeature);
    }
    Ok(Header { len, sigfig, low, high })
}

fn are_bounds(header: Header) -> bool {
    let Header { sigfig, low, high, .. } = header;
    low >= 1
        && low <= u64::MAX / 2
        && high >= 2 * low
        && sigfig <= 5
        && unit_bits(low) + digit_bits(sigfig) <= 63
}

/// The number that is spelt at a place, and the place after it.
fn spelled(payload: &[u8], mut at: usize) -> Result<(u64, usize), Fault> {
    let mut number = 0;
    for group in 0..9 {
        let byte = u64::from(*payload.get(at).ok_or(Fault::IoError)?);
        at += 1;
        if group == 8 {
            number |= byte << 56;
            break;
        }
        number |= (byte & 0x7f) << (7 * group);
        if byte < 0x80 {
            break;
        }
    }
    Ok((number, at))
}

/// The bins that a payload fills.
fn payload(bytes: &[u8], bins: u64, greatest: u64, known: &mut Option<&'static str>) -> Result<Vec<(u64, u64)>, Fault> {
    let (mut at, mut place, mut filled) = (0, 0u64, Vec::new());
    while at < bytes.len() {
        let (encoded, next) = spelled(bytes, at)?;
        at = next;
        let mut moved = 1;
        if encoded % 2 == 1 {
            moved = encoded / 2 + 1;
            if moved == 1 << 63 {
                *known = Some("a move by 2^63");
            }
        } else if encoded / 2 > greatest {
            return Err(Fault::UnsuitableCounterType);
        } else if encoded > 0 {
            if place >= bins {
                return Err(Fault::EncodedArrayTooLong);
            }
            filled.push((place, encoded / 2));
        }
        place = place.checked_add(moved).ok_or(Fault::UsizeTypeTooSmall)?;
    }
    Ok(filled)
}

/// The unit that the Rust crate takes, by a logarithm in floating point.
fn rounded_unit(low: u64) -> u32 {
    (low as f64).log2().floor() as u32
}

/// Reads a text for counters up to the greatest.
pub fn read(text: &[u8], greatest: u64) -> Read {
    let mut known = None;
    if text.starts_with(&[0x1c, 0x84, 0x93, 0x14]) {
        known = Some("compressed bytes");
    }
    let contents = header(text).and_then(|header| {
        if header.low > 0 && rounded_unit(header.low) != unit_bits(header.low) {
            known = Some("a unit by a logarithm");
        }
        if !are_bounds(header) {
            return Err(Fault::InvalidParameters);
        }
        let bytes = text.get(40..40 + header.len).ok_or(Fault::IoError)?;
        let bins = bins(header.low, header.high, header.sigfig);
        let filled = payload(bytes, bins, greatest, &mut known)?;
        let Header { len, sigfig, low, high } = header;
        Ok(Contents { low, high, sigfig, bins, filled, taken: 40 + len })
    });
    Read { contents, known }
}
