//! The lines that `report` and `log` read.

use crate::case::Kind;
use crate::random::Random;
use std::str;

const WRONG_LINES: [&[u8]; 32] = [
    b" ", b"r", b"r ", b"rr 1", b"r x", b" r 1", b"r  1", b"r 1 ", b"r 1  2", b"r 1 2 3", b"r 1 2 ", b"r -1", b"r +1", b"r 1.5",
    b"r\t1", b"r 1\r", b"r 1\0", b"r 0x1", b"R 1", b"s", b"s 1 2 3", b"c 1", b"c 1 ", b"c 1 2 3 4", b"c 1  2", b"clear ",
    b"clear 1", b"Clear", b"resets", b"reset 0", b"r 18446744073709551616", b"s \xff",
];

/// The last line is one for `log` alone.
const WRONG_ENDS: [&[u8]; 22] = [
    b"end", b"end ", b"end 1", b"end 1 ", b"end  1 2", b"end 1  2", b"end 1 2 ", b"end 1 2  a", b"end 1 2 a ", b"end 1 2 a b",
    b"end 1 2 a,b", b"end 1 2 ,", b"end 1 2 a\r", b"end 1 2\r", b"end 1 2 \xff", b"end 1 2 a\xc3", b"end 1.5 2", b"end -1 2",
    b"end 18446744073709551616 1", b"end 1 18446744073709551616", b"End 1 2", b"end 1 2 a",
];

const TAGS: [&str; 16] = [
    "a", "tag", "Tag=", "=", "#", "1.0", "\"StartTimestamp\"", "\u{e4}", "\u{1f600}", "\u{a0}", "\t", "\0", "a\u{2028}b",
    "\u{feff}", "x;y", "\u{7f}",
];

/// What the lines of a case have in common.
struct Style {
    kind: Kind,
    /// How many bits its values have at most.
    bits: u64,
    /// Whether some of its counts are 2^63 or more.
    has_great_counts: bool,
}

pub fn input(random: &mut Random, kind: Kind) -> Vec<u8> {
    let bits = if random.one_in(8) { 64 } else { 1 + random.below(64) };
    let style = Style { kind, bits, has_great_counts: random.one_in(8) };
    let mut lines: Vec<_> = (0..random.below(61)).map(|_| line(random, &style)).collect();
    if random.one_in(8) && !lines.is_empty() {
        let at = random.below(lines.len() as u64) as usize;
        let choices: &[&[u8]] = if random.one_in(2) { &WRONG_LINES } else { &WRONG_ENDS };
        lines[at] = random.one_of(choices).to_vec();
    }
    if random.one_in(16) && !lines.is_empty() {
        let at = random.below(lines.len() as u64) as usize;
        mutate(random, &mut lines[at]);
    }
    let mut input = lines.join(&b'\n');
    if !random.one_in(4) {
        input.push(b'\n');
    }
    input
}

/// How many values a line's correction has to record one by one, where it is one.
pub fn missing_values(line: &[u8]) -> Option<u64> {
    let mut fields = str::from_utf8(line).ok()?.strip_prefix("c ")?.split(' ');
    let (value, interval) = (fields.next()?.parse::<u64>().ok()?, fields.next()?.parse().ok()?);
    value.checked_div(interval)
}

/// Damages a line, but never to a correction that may take too long.
fn mutate(random: &mut Random, line: &mut Vec<u8>) {
    let mut damaged = line.clone();
    random.mutate(&mut damaged, usize::MAX);
    if !line.starts_with(b"c") && !damaged.starts_with(b"c") {
        *line = damaged;
    }
}

fn line(random: &mut Random, style: &Style) -> Vec<u8> {
    if style.kind == Kind::Log && random.one_in(8) {
        return end(random).into_bytes();
    }
    let value = random.value(style.bits);
    let text = random.spelled(value);
    let line = match random.below(64) {
        0..=35 => format!("r {text}{}", count(random, style)),
        36..=45 => format!("s {text}{}", count(random, style)),
        46..=58 => {
            let interval = interval(random, value);
            format!("c {text} {}{}", random.spelled(interval), count(random, style))
        }
        59 => "clear".to_string(),
        60 => "reset".to_string(),
        _ => String::new(),
    };
    line.into_bytes()
}

/// The end of an interval.
fn end(random: &mut Random) -> String {
    let [start, duration] = [time(random), time(random)];
    let tag = if random.one_in(2) { format!(" {}", tag(random)) } else { String::new() };
    format!("end {} {}{tag}", random.spelled(start), random.spelled(duration))
}

/// A tag that is right.
pub fn tag(random: &mut Random) -> String {
    let tag = random.one_of(&TAGS).to_string();
    if random.one_in(8) { format!("{tag}{}", random.one_of(&TAGS)) } else { tag }
}

/// A time in thousandths of a second.
fn time(random: &mut Random) -> u64 {
    match random.below(8) {
        0 => 0,
        1..=3 => random.below(5000),
        4 => u64::MAX - random.below(2000),
        5 => random.near_power(64),
        _ => random.number(64),
    }
}

/// The field of a count, or none.
fn count(random: &mut Random, style: &Style) -> String {
    let count = match random.below(16) {
        0..=6 => return String::new(),
        7 => 0,
        8 if style.has_great_counts => (1 << 63) | random.number(63),
        9 if style.has_great_counts => u64::MAX - random.below(3),
        8..=11 => random.number(50),
        _ => random.below(10),
    };
    format!(" {}", random.spelled(count))
}

/// An interval at which a value hides at most some thousands.
fn interval(random: &mut Random, value: u64) -> u64 {
    let interval = match random.below(8) {
        0 => return 0,
        1 => value,
        2 => value / 2 + random.below(2),
        3 => value / (1 + random.below(3000)),
        4 => random.below(10),
        _ => random.number(64),
    };
    interval.max(value / 3000)
}
