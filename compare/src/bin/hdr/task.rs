//! The task of the arguments.

use crate::lines::number;
use crate::options::Options;
use crate::report::Quantile;

/// The task of the arguments.
pub enum Task<'a> {
    Report { sigfig: u8, quantiles: Vec<Quantile> },
    Log { sigfig: u8 },
    Merge { options: Options<'a>, sigfig: u8, quantiles: Vec<Quantile> },
}

impl<'a> Task<'a> {
    /// The task of the arguments after the program's name; `None` where they are wrong.
    pub fn from_arguments(arguments: &'a [Vec<u8>]) -> Option<Task<'a>> {
        let (name, arguments) = arguments.split_first()?;
        match &name[..] {
            b"report" => {
                let (sigfig, quantiles) = figures(arguments)?;
                Some(Task::Report { sigfig, quantiles })
            }
            b"log" => {
                let [digit] = arguments else {
                    return None;
                };
                Some(Task::Log { sigfig: digits_kept(digit)? })
            }
            b"merge" => {
                let (options, arguments) = Options::from_arguments(arguments)?;
                let (sigfig, quantiles) = figures(arguments)?;
                Some(Task::Merge { options, sigfig, quantiles })
            }
            _ => None,
        }
    }
}

/// The digits that the first argument spells, and the quantiles of the others, of which there is at least one.
fn figures(arguments: &[Vec<u8>]) -> Option<(u8, Vec<Quantile>)> {
    let [digit, first, others @ ..] = arguments else {
        return None;
    };
    let quantiles = [first].into_iter().chain(others).map(|argument| quantile(argument)).collect::<Option<_>>()?;
    Some((digits_kept(digit)?, quantiles))
}

fn digits_kept(argument: &[u8]) -> Option<u8> {
    match argument {
        [digit @ b'0'..=b'5'] => Some(digit - b'0'),
        _ => None,
    }
}

/// The quantile that an argument spells.
fn quantile(argument: &[u8]) -> Option<Quantile> {
    let (num, left) = number(argument)?;
    let (den, left) = number(left.strip_prefix(b"/")?)?;
    (den > 0 && left.is_empty()).then_some(Quantile { num, den })
}
