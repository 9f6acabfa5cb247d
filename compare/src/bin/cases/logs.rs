//! The logs that `merge` reads.

use crate::fields::{damage, empty_field, field, mutated_field};
use crate::grammar::entry;
use crate::model::ONE_SAMPLE;
use crate::random::Random;
use crate::records::tag;

const LEGEND: &str = "\"StartTimestamp\",\"Interval_Length\",\"Interval_Max\",\"Interval_Compressed_Histogram\"";

const WRONG_LINES: [&[u8]; 30] = [
    b"", b" ", b"\r", b"Bar", b" #", b"\"StartTimestamp", b"StartTimestamp", b"\"starttimestamp\"", b"0.0", b"0.0,1.0",
    b"0.0,1.0,2.0", b"0.0 ,1.0,2.0,", b" 0.0,1.0,2.0,", b"0.0,1.0, 2.0,", b"0.0, 1.0,2.0,", b"Tag=a", b"Tag=a0.0,1.0,2.0,",
    b"tag=a,0.0,1.0,2.0,", b"Tag=a,Tag=b,0.0,1.0,2.0,", b"Tag,0.0,1.0,2.0,", b"a,0.0,1.0,2.0,", b",0.0,1.0,2.0,",
    b"0.0;1.0;2.0;", b"0.0,1.0,2.0,\xff", b"0.0,1.0,2.0,a\xc3", b"Tag=\xff,0.0,1.0,2.0,", b"\xef\xbb\xbf#", b"\0",
    b"\x85", b"Tag=a,#",
];
const WRONG_TAGS: [&[u8]; 9] = [b" ", b"a b", b"a\r", b"\r", b"a\nb", b"\n", b"\xff", b"a\xc3", b"a,b"];
const WRONG_SECONDS: [&str; 24] = [
    "", "1", ".5", "1.", "-1.0", "++1.0", "+", "+.5", " 1.0", "1.0 ", "1 .0", "1. 0", "1.0e3", "1e3", "1.0.0", "inf", "nan",
    "18446744073709551616.0", "0x1.0", "1_0.0", "1.+5", "1.-5", "\u{661}.0", "1,0",
];
/// Fractions whose sums reach a whole second, or just fail to. Nine digits count.
const FRACTIONS: [&str; 10] = [
    "123456789", "876543211", "876543210", "87654321", "8765432109", "12345678899", "999999999", "999999999999", "000000001",
    "0000000009",
];
const WRONG_MAXES: [&str; 24] = [
    "", ".", "1e3", "1E3", "1.5e3", "1e", "1e+3", ".5e1", "-1", "+1", "-0.0", "inf", "infinity", "nan", "NaN", "-inf", "1.2.3",
    "1..2", "..1", " 1", "1 ", "0x1", "1_0", "\u{661}",
];

/// A log of a few lines. Half of the logs are sound.
pub fn log(random: &mut Random) -> Vec<u8> {
    let is_sound = random.one_in(2);
    let mut lines: Vec<_> = (0..random.below(10)).map(|_| line(random, is_sound)).collect();
    if is_sound {
        return joined(random, lines);
    }
    if random.one_in(6) {
        let at = random.below(lines.len() as u64 + 1) as usize;
        lines.insert(at, random.one_of(&WRONG_LINES).to_vec());
    }
    let mut log = joined(random, lines);
    if random.one_in(6) {
        for _ in 0..1 + random.below(3) {
            random.mutate(&mut log, usize::MAX);
        }
    }
    log
}

/// A log of a few right lines.
pub fn sound_log(random: &mut Random) -> Vec<u8> {
    let lines = (0..1 + random.below(9)).map(|_| line(random, true)).collect();
    joined(random, lines)
}

/// A log of a few right lines, of whose intervals one in so many holds damaged bytes.
pub fn log_of_mutated_fields(random: &mut Random, throws: u64) -> Vec<u8> {
    let mut lines = Vec::new();
    for _ in 0..1 + random.below(6) {
        lines.push(if random.one_in(throws) {
            let field = mutated_field(random);
            interval(random, &field, false)
        } else {
            line(random, true)
        });
    }
    joined(random, lines)
}

/// A log of hundreds of lines, with small histograms, of which one line is damaged and the others are right.
pub fn long_log(random: &mut Random) -> Vec<u8> {
    let mut lines: Vec<_> = (0..100 + random.below(200)).map(|_| small_line(random)).collect();
    // The damaged line comes late, so that many lines are read before it.
    let at = lines.len() - 1 - random.below(20) as usize;
    lines[at] = match random.below(8) {
        0 => random.one_of(&WRONG_LINES).to_vec(),
        1..=3 => {
            let field = empty_field();
            interval(random, &field, true)
        }
        _ => {
            let mut line = small_line(random);
            random.mutate(&mut line, 48);
            line
        }
    };
    joined(random, lines)
}

/// A log of a few lines with small histograms, each of them damaged in front of its field, or seldom in it. The lines that
/// are still right come first, since one that is wrong ends the reading. Many begin with a base time that is not damaged.
pub fn damaged_log(random: &mut Random) -> Vec<u8> {
    let lines = (0..1 + random.below(16)).map(|_| damaged_line(random));
    let (mut lines, mut wrong): (Vec<_>, Vec<_>) = lines.partition(|line| is_right(line));
    if random.one_in(2) {
        lines.extend(wrong.pop());
    }
    if random.one_in(3) {
        lines.insert(0, format!("#[BaseTime: {}.{} ", random.below(3), random.one_of(&FRACTIONS)).into_bytes());
    }
    joined(random, lines)
}

/// Whether a line, or each of the lines that damage made of it, is one of a log.
fn is_right(line: &[u8]) -> bool {
    line.split(|byte| *byte == b'\n').all(|part| entry(part).is_some())
}

/// A line that was damaged at one to three places.
fn damaged_line(random: &mut Random) -> Vec<u8> {
    let is_wrong = random.one_in(12);
    let (mut line, field): (_, &[u8]) = match random.below(16) {
        0..=10 => (interval(random, b"", is_wrong), ONE_SAMPLE),
        11..=13 => (header(random).into_bytes(), b""),
        14 => (other_line(random), b""),
        _ => (random.one_of(&WRONG_LINES).to_vec(), ONE_SAMPLE),
    };
    let mut field = field.to_vec();
    if random.one_in(16) {
        damage(random, &mut field);
    }
    let field_too = random.one_in(12);
    if field_too {
        line.append(&mut field);
    }
    for _ in 0..1 + random.below(3) {
        random.mutate(&mut line, usize::MAX);
    }
    line.append(&mut field);
    if random.one_in(8) {
        line.extend((0..=random.below(3)).map(|_| b'\r'));
    }
    line
}

/// The lines of a log with their ends, of which the last is seldom left out.
fn joined(random: &mut Random, lines: Vec<Vec<u8>>) -> Vec<u8> {
    let mut log = Vec::new();
    for line in lines {
        log.extend_from_slice(&line);
        log.push(b'\n');
    }
    if random.one_in(24) {
        log.pop();
    }
    log
}

/// A line that is right, but where it need not be sound.
fn line(random: &mut Random, is_sound: bool) -> Vec<u8> {
    match random.below(16) {
        0..=10 => {
            let field = field(random, is_sound);
            let is_wrong = !is_sound && random.one_in(24);
            interval(random, &field, is_wrong)
        }
        _ => other_line(random),
    }
}

/// A right line of which no histogram takes long.
fn small_line(random: &mut Random) -> Vec<u8> {
    if random.one_in(3) { interval(random, &empty_field(), false) } else { other_line(random) }
}

/// A right line without a histogram.
fn other_line(random: &mut Random) -> Vec<u8> {
    let mut line = match random.below(8) {
        0 => comment(random),
        1..=4 => header(random).into_bytes(),
        5 => header(random).replacen(['#', '[', 'S', ':', ' '], "#", 1).into_bytes(),
        6 => LEGEND.into(),
        _ => format!("\"StartTimestamp\"{}", random.number(20)).into_bytes(),
    };
    if random.one_in(8) {
        line.push(b'\r');
    }
    line
}

/// A comment of any bytes.
fn comment(random: &mut Random) -> Vec<u8> {
    let mut line = vec![b'#'];
    let bytes = (0..random.below(24)).map(|_| random.below(256) as u8).filter(|byte| *byte != b'\n');
    line.extend(bytes);
    line
}

/// A line that begins as a header, and is one or a comment.
fn header(random: &mut Random) -> String {
    let name = random.one_of(&["StartTime", "BaseTime", "BaseTime", "BaseTime", "BaseTime", "starttime", "MaxValueDivisor"]);
    let is_wrong = random.one_in(8);
    let seconds = seconds(random, is_wrong);
    let end = random.one_of(&[" (seconds since epoch)]", " ", "", "]", " \u{e4}", "\t"]);
    format!("#[{name}: {seconds}{end}")
}

/// An interval of a field. One of the parts before the field may be wrong.
fn interval(random: &mut Random, field: &[u8], is_wrong: bool) -> Vec<u8> {
    let wrong_part = if is_wrong { random.below(4) } else { 4 };
    let mut line = Vec::new();
    if wrong_part == 0 {
        line.extend_from_slice(b"Tag=");
        line.extend_from_slice(random.one_of(&WRONG_TAGS));
        line.push(b',');
    } else if random.one_in(2) {
        let tag = match random.below(8) {
            0 => String::new(),
            1..=4 => random.one_of(&["a", "b"]).to_string(),
            _ => tag(random),
        };
        line.extend_from_slice(format!("Tag={tag},").as_bytes());
    }
    for part in 1..3 {
        line.extend_from_slice(seconds(random, wrong_part == part).as_bytes());
        line.push(b',');
    }
    line.extend_from_slice(max(random, wrong_part == 3).as_bytes());
    line.push(b',');
    line.extend_from_slice(field);
    if random.one_in(8) {
        line.extend((0..=random.below(3)).map(|_| b'\r'));
    }
    line
}

/// A time in seconds.
fn seconds(random: &mut Random, is_wrong: bool) -> String {
    if is_wrong {
        return random.one_of(&WRONG_SECONDS).to_string();
    }
    let whole = match random.below(8) {
        0..=3 => random.below(3),
        4 => u64::MAX - random.below(3),
        _ => random.number(64),
    };
    let sign = if random.one_in(8) { "+" } else { "" };
    let fraction = if random.one_in(4) { random.one_of(&FRACTIONS).to_string() } else { digits(random) };
    format!("{sign}{}.{fraction}", random.spelled(whole))
}

/// A greatest value.
fn max(random: &mut Random, is_wrong: bool) -> String {
    if is_wrong {
        return random.one_of(&WRONG_MAXES).to_string();
    }
    match random.below(8) {
        0 => digits(random),
        1 => format!("{}.", digits(random)),
        2 => format!(".{}", digits(random)),
        3 => format!("{0}{0}{0}{0}.{0}", random.number(64)),
        _ => format!("{}.{}", digits(random), digits(random)),
    }
}

/// Some digits.
fn digits(random: &mut Random) -> String {
    let most = if random.one_in(8) { 40 } else { 3 };
    (0..=random.below(most)).map(|_| char::from(b'0' + random.below(10) as u8)).collect()
}
