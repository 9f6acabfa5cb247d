//! Compares two programs on random cases: arguments, and lines on standard input.
//!
//!     cases HDR OTHER SEED COUNT [report | log | merge | lines | grammar | mutated | mutated_logs]
//!
//! The last argument chooses the kind of the cases, which is random without it. `lines` is for merging logs of many lines.
//! `grammar` is for logs of damaged lines: there HDR is compared with the grammar of the lines, and OTHER has no part.
//! `mutated` is for inputs of each command, whose bytes are changed, cut, doubled and spliced; so are the bytes of the logs'
//! histograms. `mutated_logs` is for those of `merge` alone.
//!
//! HDR has to end within five seconds, with a status of 0, 1 or 2, and with an error and no output where that is not 0, but
//! for whole intervals of a log. Prints each case in which it does not, or in which standard output, standard error or the
//! exit status differ, then how many differ, and how many lines of logs were read by HDR as right or as wrong. The exit
//! status is 1 where some cases differ. The text of a failed read is not compared. Not compared are cases whose corrections
//! would take OTHER long. A case depends on SEED, its kind and its own number alone.

mod arguments;
mod case;
mod damage;
mod fields;
mod grammar;
mod logs;
mod model;
mod options;
mod outcome;
mod random;
mod records;

use case::{Case, Choice};
use outcome::Outcome;
use random::Random;
use std::io;
use std::num::NonZero;
use std::process::ExitCode;
use std::sync::atomic::{AtomicU64, Ordering};
use std::thread;

/// Two programs, and the cases that they are compared on.
struct Comparison {
    programs: [String; 2],
    seed: u64,
    count: u64,
    choice: Choice,
}

/// What a comparison found.
#[derive(Default)]
struct Found {
    differing: u64,
    /// The lines of logs that were read.
    lines: u64,
    /// The cases without an expected outcome.
    skipped: u64,
}

impl Found {
    /// The outcome of another program, or that of the grammar for its cases; `None` where there is none, or it takes too long.
    fn expected(&mut self, other: &str, case: &Case, ours: &Outcome) -> io::Result<Option<Outcome>> {
        let theirs = if let Some(filter) = &case.filter {
            model::expected(filter, &case.input).map(|expected| {
                self.lines += expected.lines;
                Outcome::expected(expected.report)
            })
        } else if case.has_long_corrections() {
            None
        } else {
            self.lines += ours.lines_read(case);
            Some(Outcome::of(other, case)?).filter(|outcome| !outcome.is_late)
        };
        self.skipped += u64::from(theirs.is_none());
        Ok(theirs)
    }
}

impl Comparison {
    fn from_arguments(mut arguments: Vec<String>) -> Option<Comparison> {
        let choice = if arguments.len() == 5 { Choice::from_name(&arguments.pop()?)? } else { Choice::Any };
        let [hdr, other, seed, count] = <[String; 4]>::try_from(arguments).ok()?;
        Some(Comparison { programs: [hdr, other], seed: seed.parse().ok()?, count: count.parse().ok()?, choice })
    }

    /// Takes a case, and prints it where the outcome is wrong by itself, or differs from that of the other program or
    /// the grammar.
    fn take(&self, number: u64, found: &mut Found) -> io::Result<()> {
        let case = Case::new(&mut Random::of_case(self.seed, number), self.choice);
        let [hdr, other] = &self.programs;
        let ours = Outcome::of(hdr, &case)?;
        let theirs = found.expected(other, &case, &ours)?;
        let wrong = match &theirs {
            Some(theirs) if ours != *theirs => Some("another outcome"),
            _ => None,
        };
        if let Some(wrong) = ours.wrong(&case).or(wrong) {
            let input = case.input.escape_ascii();
            println!("case {number}: {wrong}: {:?}\n{input}\n-- {ours}", case.arguments);
            if let Some(theirs) = theirs {
                println!("-- {theirs}");
            }
            println!();
            found.differing += 1;
        }
        Ok(())
    }

    /// Takes the cases that are still to be taken.
    fn take_all(&self, taken: &AtomicU64) -> io::Result<Found> {
        let mut found = Found::default();
        loop {
            let number = taken.fetch_add(1, Ordering::Relaxed);
            if number >= self.count {
                return Ok(found);
            }
            self.take(number, &mut found)?;
        }
    }

    /// Takes all cases, on every processor.
    fn run(&self) -> io::Result<Found> {
        let taken = AtomicU64::new(0);
        let threads = thread::available_parallelism().map_or(1, NonZero::get);
        thread::scope(|scope| {
            let works: Vec<_> = (0..threads).map(|_| scope.spawn(|| self.take_all(&taken))).collect();
            let mut all = Found::default();
            for work in works {
                let found = work.join().expect("no thread panics")?;
                all.differing += found.differing;
                all.lines += found.lines;
                all.skipped += found.skipped;
            }
            Ok(all)
        })
    }
}

fn main() -> ExitCode {
    let Some(comparison) = Comparison::from_arguments(std::env::args().skip(1).collect()) else {
        eprintln!("usage: cases HDR OTHER SEED COUNT [report | log | merge | lines | grammar | mutated | mutated_logs]");
        return ExitCode::from(2);
    };
    match comparison.run() {
        Ok(Found { differing, lines, skipped }) => {
            let compared = comparison.count - skipped;
            println!("{compared} compared, {differing} differ, {lines} lines of logs read");
            if differing == 0 { ExitCode::SUCCESS } else { ExitCode::FAILURE }
        }
        Err(error) => {
            eprintln!("cases: {error}");
            ExitCode::from(2)
        }
    }
}
