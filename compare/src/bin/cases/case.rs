//! Random cases.

use crate::arguments::{arguments, right_arguments};
use crate::damage::mutate;
use crate::logs;
use crate::options::{Filter, put_options};
use crate::random::Random;
use crate::records;

/// What a case is for.
#[derive(Clone, Copy, PartialEq)]
pub enum Kind {
    Report,
    Log,
    /// Merging of logs of a few lines, whose histograms may be damaged.
    Merge,
    /// Merging of logs of many lines, of which one may be damaged.
    Lines,
    /// Merging of logs of a few lines, each of them damaged, whose outcomes come from the grammar.
    Grammar,
}

impl Kind {
    /// A random kind whose outcomes come from another program.
    fn any(random: &mut Random) -> Kind {
        match random.below(16) {
            0..=3 => Kind::Report,
            4..=8 => Kind::Log,
            9..=14 => Kind::Merge,
            _ => Kind::Lines,
        }
    }
}

/// What cases are taken.
#[derive(Clone, Copy)]
pub enum Choice {
    Any,
    Of(Kind),
    /// Inputs of each command, whose bytes are changed, cut, doubled and spliced. Half of them are logs to be merged.
    Mutated,
    /// Logs to be merged alone.
    MutatedLogs,
}

impl Choice {
    /// The choice of a name.
    pub fn from_name(name: &str) -> Option<Choice> {
        match name {
            "report" => Some(Choice::Of(Kind::Report)),
            "log" => Some(Choice::Of(Kind::Log)),
            "merge" => Some(Choice::Of(Kind::Merge)),
            "lines" => Some(Choice::Of(Kind::Lines)),
            "grammar" => Some(Choice::Of(Kind::Grammar)),
            "mutated" => Some(Choice::Mutated),
            "mutated_logs" => Some(Choice::MutatedLogs),
            _ => None,
        }
    }
}

/// Arguments and an input.
pub struct Case {
    pub arguments: Vec<String>,
    pub input: Vec<u8>,
    /// The intervals that the arguments choose, of a case by the grammar.
    pub filter: Option<Filter>,
}

impl Case {
    /// A case of a choice.
    pub fn new(random: &mut Random, choice: Choice) -> Case {
        match choice {
            Choice::Any => {
                let kind = Kind::any(random);
                Case::of_kind(random, kind)
            }
            Choice::Of(kind) => Case::of_kind(random, kind),
            Choice::Mutated if random.one_in(2) => Case::of_mutated_lines(random),
            Choice::Mutated | Choice::MutatedLogs => Case::of_mutated_log(random),
        }
    }

    fn of_kind(random: &mut Random, kind: Kind) -> Case {
        match kind {
            Kind::Report | Kind::Log => {
                Case { arguments: arguments(random, kind), input: records::input(random, kind), filter: None }
            }
            Kind::Merge => Case::of_merge(random, kind, logs::log),
            Kind::Lines => Case::of_merge(random, kind, logs::long_log),
            Kind::Grammar => Case::of_grammar(random),
        }
    }

    /// A merge of a log, in which many of the intervals that are not chosen have wrong fields.
    fn of_merge(random: &mut Random, kind: Kind, log: fn(&mut Random) -> Vec<u8>) -> Case {
        let log = log(random);
        let filter = Filter::new(random, &log);
        let mut arguments = arguments(random, kind);
        put_options(random, &mut arguments, &filter, kind == Kind::Merge);
        Case { arguments, input: filter.with_wrong_fields(random, &log), filter: None }
    }

    fn of_grammar(random: &mut Random) -> Case {
        let input = logs::damaged_log(random);
        let filter = Filter::new(random, &input);
        let mut arguments = ["merge", "0", "1/2"].map(str::to_string).to_vec();
        put_options(random, &mut arguments, &filter, false);
        Case { arguments, input, filter: Some(filter) }
    }

    /// A report or a log of damaged lines.
    fn of_mutated_lines(random: &mut Random) -> Case {
        let (kind, sort): (_, fn(&mut Random) -> Vec<u8>) = if random.one_in(2) {
            (Kind::Report, |random| records::input(random, Kind::Report))
        } else {
            (Kind::Log, |random| records::input(random, Kind::Log))
        };
        let mut input = sort(random);
        mutate(random, &mut input, sort);
        Case { arguments: right_arguments(random, kind), input, filter: None }
    }

    /// A merge of a log that is damaged in its histograms' bytes, in its text, or in both.
    fn of_mutated_log(random: &mut Random) -> Case {
        let is_text_damaged = random.one_in(2);
        let mut input = logs::log_of_mutated_fields(random, if is_text_damaged { 8 } else { 2 });
        if is_text_damaged {
            mutate(random, &mut input, logs::sound_log);
        }
        let filter = Filter::new(random, &input);
        let mut arguments = right_arguments(random, Kind::Merge);
        put_options(random, &mut arguments, &filter, false);
        Case { arguments, input, filter: None }
    }

    /// Whether a program that makes corrections value by value would take long.
    pub fn has_long_corrections(&self) -> bool {
        let lines = self.input.split(|byte| *byte == b'\n');
        let missing = lines.filter_map(records::missing_values).fold(0, u64::saturating_add);
        self.arguments.first().is_some_and(|name| name != "merge") && missing > MOST_MISSING
    }
}

/// How many missing values are recorded one by one in some tenths of a second.
const MOST_MISSING: u64 = 20_000_000;
