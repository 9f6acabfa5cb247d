//! The arguments of a case.

use crate::case::Kind;
use crate::options::put_wrong_option;
use crate::random::Random;

const WRONG_NAMES: [&str; 11] = ["", "Report", "repor", "reports", "Log", "logs", "lo", "Merge", "merg", "merge ", "3"];
const WRONG_DIGITS: [&str; 9] = ["", "6", "9", "03", "-1", "x", "3 ", "255", "\u{663}"];
const WRONG_QUANTILES: [&str; 18] = [
    "", "/", "1", "1/", "/2", "1/0", "0/0", "1/2/3", "1//2", "+1/2", "-1/2", "1/+2", "1/-2", " 1/2", "1/2 ", "0.5",
    "1/18446744073709551616", "18446744073709551616/1",
];

/// The arguments of a case but for options.
pub fn arguments(random: &mut Random, kind: Kind) -> Vec<String> {
    let mut arguments = right_arguments(random, kind);
    // Cases of many lines are for their lines.
    if kind != Kind::Lines {
        damage(random, &mut arguments);
    }
    arguments
}

/// The arguments of a case but for options, most often right.
pub fn right_arguments(random: &mut Random, kind: Kind) -> Vec<String> {
    let name = match kind {
        Kind::Report => "report",
        Kind::Log => "log",
        Kind::Merge | Kind::Lines | Kind::Grammar => "merge",
    };
    // Histograms of four and five digits take long.
    let digits = if random.one_in(8) { random.below(6) } else { random.below(4) };
    let mut arguments = vec![name.to_string(), digits.to_string()];
    let has_quantiles = match kind {
        Kind::Report | Kind::Merge => !random.one_in(32),
        Kind::Log => random.one_in(48),
        Kind::Lines | Kind::Grammar => true,
    };
    let quantiles = if has_quantiles { 1 + random.below(4) } else { 0 };
    arguments.extend((0..quantiles).map(|_| quantile(random)));
    arguments
}

/// Makes some arguments wrong.
fn damage(random: &mut Random, arguments: &mut Vec<String>) {
    if random.one_in(12) {
        let at = random.below(arguments.len() as u64) as usize;
        let wrong = match at {
            0 => random.one_of(&WRONG_NAMES),
            1 => random.one_of(&WRONG_DIGITS),
            _ => random.one_of(&WRONG_QUANTILES),
        };
        arguments[at] = wrong.to_string();
    }
    if random.one_in(64) {
        arguments.truncate(random.below(3) as usize);
    }
    if random.one_in(128) {
        put_wrong_option(random, arguments);
    }
}

fn quantile(random: &mut Random) -> String {
    const USUAL: [&str; 9] = ["0/1", "0/7", "1/4", "1/2", "9/10", "99/100", "999/1000", "1/1", "5/3"];
    let den = match random.below(4) {
        0 => return random.one_of(&USUAL).to_string(),
        1 => 1 + random.below(100),
        2 => random.near_power(64).max(1),
        _ => random.number(64).max(1),
    };
    let num = match random.below(16) {
        0 => 0,
        1 => den,
        2 => den - 1,
        3 => random.number(64),
        _ => random.below(den),
    };
    format!("{}/{}", random.spelled(num), random.spelled(den))
}
