//! Random damage to whole texts: bytes are changed, cut, doubled and spliced.

use crate::random::Random;
use std::ops::Range;

/// Damages a text at one to four places, in part by texts of the same sort.
pub fn mutate(random: &mut Random, text: &mut Vec<u8>, sort: fn(&mut Random) -> Vec<u8>) {
    for _ in 0..1 + random.below(4) {
        match random.below(8) {
            0..=2 => random.mutate(text, usize::MAX),
            3 => fill(random, text),
            4 => cut(random, text),
            5 => double(random, text),
            6 => exchange(random, text),
            _ => {
                let other = sort(random);
                splice(random, text, &other);
            }
        }
    }
}

/// A part of a text: some bytes, a whole line, or anything.
fn part(random: &mut Random, text: &[u8]) -> Range<usize> {
    let begin = random.below(text.len() as u64 + 1) as usize;
    let left = text.len() - begin;
    match random.below(4) {
        0 | 1 => begin..begin + left.min(1 + random.below(9) as usize),
        2 => line_at(text, begin),
        _ => begin..begin + random.below(left as u64 + 1) as usize,
    }
}

/// The line that holds a place, with its end.
fn line_at(text: &[u8], at: usize) -> Range<usize> {
    let begin = text[..at].iter().rposition(|byte| *byte == b'\n').map_or(0, |end| end + 1);
    let end = text[at..].iter().position(|byte| *byte == b'\n').map_or(text.len(), |length| at + length + 1);
    begin..end
}

/// Puts the same byte over a part.
fn fill(random: &mut Random, text: &mut [u8]) {
    let part = part(random, text);
    let byte = b"\0\x7f\x80\xff09 \n"[random.below(8) as usize];
    text[part].fill(byte);
}

/// Drops a part, or all after a place.
fn cut(random: &mut Random, text: &mut Vec<u8>) {
    let part = part(random, text);
    if random.one_in(2) {
        text.truncate(part.start);
    } else {
        text.drain(part);
    }
}

/// Puts a part once more after itself, or seldom many times.
fn double(random: &mut Random, text: &mut Vec<u8>) {
    let part = part(random, text);
    let most = 2000 / (part.len() + 1);
    let times = if random.one_in(4) { 1 + random.below(most as u64 + 1) as usize } else { 1 };
    let copies = text[part.clone()].repeat(times);
    text.splice(part.end..part.end, copies);
}

/// Puts a part in another place.
fn exchange(random: &mut Random, text: &mut Vec<u8>) {
    let part = part(random, text);
    let moved: Vec<_> = text.drain(part).collect();
    let at = random.below(text.len() as u64 + 1) as usize;
    text.splice(at..at, moved);
}

/// Goes on as another text does, or puts a part of it in.
fn splice(random: &mut Random, text: &mut Vec<u8>, other: &[u8]) {
    let (ours, theirs) = (part(random, text), part(random, other));
    if random.one_in(2) {
        text.truncate(ours.start);
        text.extend_from_slice(&other[theirs.start..]);
    } else {
        text.splice(ours, other[theirs].iter().copied());
    }
}
