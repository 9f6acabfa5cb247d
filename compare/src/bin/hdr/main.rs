//! The commands of the program `hdr` over the Rust crate hdrhistogram: the same arguments, lines, output, faults and status.
//!
//! Where the crate differs, this is made good here, in each module beside the call it concerns. Three things stay.
//! A correction takes as long as it has missing values. A lack of memory ends the process. A stream that was closed is
//! /dev/null, as Rust's standard library has it.

mod bytes;
mod fault;
mod field;
mod lines;
mod log;
mod merge;
mod options;
mod report;
mod task;

use fault::Fault;
use report::{Counted, report};
use std::io::{self, Read, Write};
use std::process::ExitCode;
use task::Task;

fn print(text: &str) -> Result<(), Fault> {
    let mut output = io::stdout().lock();
    output.write_all(text.as_bytes()).and_then(|()| output.flush()).map_err(|_| Fault::CannotWrite)
}

/// Runs a command: the arguments are checked first, then the whole input is read, and then its lines go in order.
fn run() -> Result<(), Fault> {
    let arguments: Vec<_> = std::env::args_os().skip(1).map(|argument| argument.into_encoded_bytes()).collect();
    let task = Task::from_arguments(&arguments).ok_or(Fault::WrongUsage)?;
    let mut input = Vec::new();
    io::stdin().lock().read_to_end(&mut input).map_err(|_| Fault::CannotRead)?;
    match task {
        Task::Report { sigfig, quantiles } => {
            print(&report(&Counted::of(lines::histogram_of(sigfig, &input)?), &quantiles))
        }
        Task::Log { sigfig } => log::write_log(sigfig, &input, &mut io::stdout().lock()),
        Task::Merge { options, sigfig, quantiles } => {
            let sum = merge::sum_of(&options, sigfig, &input)?;
            print(&report(&sum.cut(options.greatest()), &quantiles))
        }
    }
}

fn main() -> ExitCode {
    let Err(fault) = run() else {
        return ExitCode::SUCCESS;
    };
    // A failed write to standard error is ignored.
    let _ = writeln!(io::stderr(), "{fault}");
    ExitCode::from(fault.status())
}
