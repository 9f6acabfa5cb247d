//! What a program does with a case.

use crate::case::Case;
use crate::grammar::{Entry, entry};
use std::fmt;
use std::io::{self, Read, Write};
use std::os::unix::process::ExitStatusExt;
use std::process::{Child, Command, ExitStatus, Stdio};
use std::sync::mpsc;
use std::thread;
use std::time::Duration;

/// How long a program may take.
const MOST_TIME: Duration = Duration::from_secs(5);

/// What a program does with a case: its exit status and its two outputs.
#[derive(PartialEq)]
pub struct Outcome {
    status: ExitStatus,
    output: Vec<u8>,
    error: Vec<u8>,
    /// Whether it was stopped, since it took too long.
    pub is_late: bool,
}

impl Outcome {
    pub fn of(program: &str, case: &Case) -> io::Result<Outcome> {
        let mut child = Command::new(program)
            .args(&case.arguments)
            .stdin(Stdio::piped())
            .stdout(Stdio::piped())
            .stderr(Stdio::piped())
            .spawn()
            .map_err(|error| io::Error::new(error.kind(), format!("{program}: {error}")))?;
        let ((output, error), is_late) = exchanged_in_time(&mut child, &case.input)?;
        Ok(Outcome { status: child.wait()?, output, error: without_cause(error), is_late })
    }

    /// The outcome with a report, or with an error.
    pub fn expected(report: Result<String, String>) -> Outcome {
        let exit = |status: i32| ExitStatus::from_raw(status << 8);
        let (status, output, error) = match report {
            Ok(report) => (exit(0), report.into_bytes(), Vec::new()),
            Err(fault) => (exit(1), Vec::new(), fault.into_bytes()),
        };
        Outcome { status, output, error, is_late: false }
    }

    /// What is wrong with the outcome, whatever the input is.
    pub fn wrong(&self, case: &Case) -> Option<&'static str> {
        let writes_log = case.arguments.first().is_some_and(|name| name == "log");
        let (is_whole, is_silent) = (self.error.ends_with(b"\n"), self.error.is_empty());
        match self.status.code() {
            _ if self.is_late => Some("takes too long"),
            None => Some("crashes"),
            Some(0) if is_silent => None,
            Some(0) => Some("an error and status 0"),
            Some(1 | 2) if !self.error.starts_with(b"hdr: ") => Some("no error"),
            Some(1 | 2) if !is_whole && !self.error.ends_with(FAILED) => Some("an error without a line end"),
            Some(1) if writes_log && is_log(&self.output) => None,
            Some(1 | 2) if self.output.is_empty() => None,
            Some(1 | 2) => Some("output beside an error"),
            Some(_) => Some("another status"),
        }
    }

    /// How many lines of the case's log were read.
    pub fn lines_read(&self, case: &Case) -> u64 {
        if case.arguments.first().is_none_or(|name| name != "merge") {
            return 0;
        }
        let is_line_end = |byte: &&u8| **byte == b'\n';
        if self.status.success() {
            return case.input.iter().filter(is_line_end).count() as u64;
        }
        let error = String::from_utf8_lossy(&self.error);
        let offset = error.trim_end().strip_prefix("hdr: log: parse error at byte ").and_then(|text| text.parse().ok());
        // The line at fault is one of them.
        offset.map_or(0, |offset| 1 + case.input.iter().take(offset).filter(is_line_end).count() as u64)
    }
}

/// Whether a text is whole lines of intervals.
fn is_log(text: &[u8]) -> bool {
    text.split_inclusive(|byte| *byte == b'\n')
        .all(|line| line.strip_suffix(b"\n").is_some_and(|line| matches!(entry(line), Some(Entry::Interval(_)))))
}

/// What goes before the cause of a failed read.
const FAILED: &[u8] = b"An i/o operation failed: ";

/// An error's text up to the cause of a failed read, which is left open.
fn without_cause(mut error: Vec<u8>) -> Vec<u8> {
    if let Some(at) = error.windows(FAILED.len()).position(|part| part == FAILED) {
        error.truncate(at + FAILED.len());
    }
    error
}

/// Standard output and standard error.
type Outputs = (Vec<u8>, Vec<u8>);

/// Writes a program's input, and reads its outputs. Stops it if it takes too long, and returns whether it did.
fn exchanged_in_time(child: &mut Child, input: &[u8]) -> io::Result<(Outputs, bool)> {
    let exchange = exchange(child, input);
    thread::scope(|scope| {
        let (send, receive) = mpsc::channel();
        scope.spawn(move || send.send(exchange()));
        match receive.recv_timeout(MOST_TIME) {
            Ok(outputs) => Ok((outputs?, false)),
            Err(_) => {
                child.kill()?;
                Ok((receive.recv().expect("the streams are closed")?, true))
            }
        }
    })
}

/// Returns a function that writes a program's input, and reads its outputs.
fn exchange<'a>(child: &mut Child, input: &'a [u8]) -> impl FnOnce() -> io::Result<Outputs> + Send + 'a {
    let stdin = child.stdin.take().expect("standard input is a pipe");
    let stdout = child.stdout.take().expect("standard output is a pipe");
    let stderr = child.stderr.take().expect("standard error is a pipe");
    move || {
        let (mut stdin, mut stdout, mut stderr) = (stdin, stdout, stderr);
        // A program with wrong arguments may end before it has read anything.
        match stdin.write_all(input) {
            Err(error) if error.kind() != io::ErrorKind::BrokenPipe => return Err(error),
            _ => drop(stdin),
        }
        let (mut output, mut error) = (Vec::new(), Vec::new());
        stdout.read_to_end(&mut output)?;
        stderr.read_to_end(&mut error)?;
        Ok((output, error))
    }
}

impl fmt::Display for Outcome {
    fn fmt(&self, f: &mut fmt::Formatter<'_>) -> fmt::Result {
        let (output, error) = (String::from_utf8_lossy(&self.output), String::from_utf8_lossy(&self.error));
        write!(f, "{}\n{}{}", self.status, output.trim_end(), error.trim_end())
    }
}
