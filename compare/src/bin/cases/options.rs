//! The options of `merge`.

use crate::grammar::{Entry, Interval, Reading, entry};
use crate::random::Random;
use crate::records::tag;

const NANOS_OF_A_MILLISECOND: u128 = 1_000_000;

const COUNTERS: [&str; 4] = ["u8", "u16", "u32", "u64"];
const WRONG_OPTIONS: [[&str; 2]; 32] = [
    ["--into", ""], ["--into", "u128"], ["--into", "U8"], ["--into", "u8 "], ["--into", "8"], ["--into", "i64"],
    ["--tag", "a b"], ["--tag", "a,"], ["--tag", "\n"], ["--tag", "a\r"], ["--tag", " "],
    ["--from", "-1"], ["--from", "+1"], ["--from", ""], ["--from", "1.5"], ["--from", "18446744073709551616"], ["--from", "x"],
    ["--to", "-1"], ["--to", "+0"], ["--to", " 1"], ["--to", "1 "], ["--to", "99999999999999999999"], ["--to", "\u{661}"],
    ["--Into", "u8"], ["--intos", "u8"], ["-into", "u8"], ["--tags", "a"], ["--since", "1"], ["--", "1"], ["", "u8"],
    ["--tag=a", "--to"], ["--t", "1"],
];
const NAMES: [&str; 4] = ["--into", "--tag", "--from", "--to"];

/// Fields that hold no histogram.
const WRONG_FIELDS: [&str; 12] = [
    "", "!", "=", "A", "AAAA", "HISTEw==", "HISTFAAAAAA=", "HISTEwAAAAE", ",", "1,2", "\u{e4}", "\u{1f600} \t",
];

/// Which intervals are chosen.
#[derive(Default)]
pub struct Filter {
    tag: Option<String>,
    from: Option<u64>,
    to: Option<u64>,
}

impl Filter {
    /// A filter that often splits a log.
    pub fn new(random: &mut Random, log: &[u8]) -> Filter {
        let intervals = timed_intervals(log);
        Filter {
            tag: random.one_in(4).then(|| tag_near(random, &intervals)),
            from: random.one_in(3).then(|| time_near(random, &intervals)),
            to: random.one_in(3).then(|| time_near(random, &intervals)),
        }
    }

    /// Whether an interval after a base time is chosen.
    pub fn chooses(&self, base: u128, interval: &Interval<'_>) -> bool {
        let time = base + interval.start;
        let nanos = |milliseconds: u64| u128::from(milliseconds) * NANOS_OF_A_MILLISECOND;
        let has_tag = self.tag.as_ref().is_none_or(|tag| interval.tag == Some(tag.as_bytes()));
        has_tag && self.from.is_none_or(|from| time >= nanos(from)) && self.to.is_none_or(|to| time < nanos(to))
    }

    fn options(&self, random: &mut Random) -> Vec<[String; 2]> {
        let [from, to] = [self.from, self.to].map(|time| time.map(|time| random.spelled(time)));
        let options = [("--tag", self.tag.clone()), ("--from", from), ("--to", to)];
        options.into_iter().filter_map(|(name, value)| Some([name.to_string(), value?])).collect()
    }

    /// The log with other fields in many of the intervals that are not chosen.
    pub fn with_wrong_fields(&self, random: &mut Random, log: &[u8]) -> Vec<u8> {
        let mut changed = Vec::new();
        let mut base = 0;
        for line in log.split_inclusive(|byte| *byte == b'\n') {
            match line.strip_suffix(b"\n").and_then(entry) {
                Some(Entry::BaseTime(time)) => base = time,
                Some(Entry::Interval(interval)) if !self.chooses(base, &interval) && random.one_in(2) => {
                    let front = interval.field.as_ptr().addr() - line.as_ptr().addr();
                    changed.extend_from_slice(&line[..front]);
                    changed.extend_from_slice(random.one_of(&WRONG_FIELDS).as_bytes());
                    changed.push(b'\n');
                    continue;
                }
                _ => {}
            }
            changed.extend_from_slice(line);
        }
        changed
    }
}

/// The tags of a log's intervals, and their times in nanoseconds since the epoch.
fn timed_intervals(log: &[u8]) -> Vec<(Option<&[u8]>, u128)> {
    let mut base = 0;
    let mut intervals = Vec::new();
    for entry in Reading::of(log).flatten() {
        match entry {
            Entry::Nothing => {}
            Entry::BaseTime(time) => base = time,
            Entry::Interval(interval) => intervals.push((interval.tag, base + interval.start)),
        }
    }
    intervals
}

/// Most often the tag of an interval, or the empty text for an interval without one.
fn tag_near(random: &mut Random, intervals: &[(Option<&[u8]>, u128)]) -> String {
    let text = if intervals.is_empty() || random.one_in(8) {
        tag(random)
    } else {
        let (tag, _) = intervals[random.below(intervals.len() as u64) as usize];
        String::from_utf8_lossy(tag.unwrap_or_default()).into_owned()
    };
    // No argument holds the byte 0.
    text.replace('\0', "")
}

/// Most often the millisecond in which an interval begins, or one beside it.
fn time_near(random: &mut Random, intervals: &[(Option<&[u8]>, u128)]) -> u64 {
    if intervals.is_empty() || random.one_in(16) {
        return random.number(64);
    }
    let (_, nanos) = intervals[random.below(intervals.len() as u64) as usize];
    let time = u64::try_from(nanos / NANOS_OF_A_MILLISECOND).unwrap_or(u64::MAX);
    match random.below(8) {
        0 => time.saturating_sub(1),
        1 | 2 => time.saturating_add(1),
        _ => time,
    }
}

/// Puts the options of a filter in front of the digits, and maybe a type. Seldom are they wrong.
pub fn put_options(random: &mut Random, arguments: &mut Vec<String>, filter: &Filter, may_be_wrong: bool) {
    if arguments.is_empty() {
        return;
    }
    let mut options = filter.options(random);
    if random.one_in(2) {
        options.push(["--into".to_string(), random.one_of(&COUNTERS).to_string()]);
    }
    for last in (1..options.len()).rev() {
        options.swap(last, random.below(last as u64 + 1) as usize);
    }
    arguments.splice(1..1, options.into_flattened());
    if may_be_wrong && random.one_in(12) {
        put_wrong_option(random, arguments);
    }
}

/// Puts an option more, or a part of one, which is most often wrong.
pub fn put_wrong_option(random: &mut Random, arguments: &mut Vec<String>) {
    let right = [["--into", "u8"], ["--tag", "a"], ["--from", "0"], ["--to", "5000"]];
    let option = match random.below(4) {
        0 => vec![random.one_of(&NAMES)],
        1 => right[random.below(4) as usize].to_vec(),
        _ => WRONG_OPTIONS[random.below(WRONG_OPTIONS.len() as u64) as usize].to_vec(),
    };
    let at = match random.below(4) {
        0 => random.below(arguments.len() as u64 + 1) as usize,
        1 => arguments.len(),
        _ => arguments.len().min(1),
    };
    arguments.splice(at..at, option.into_iter().map(str::to_string));
}
