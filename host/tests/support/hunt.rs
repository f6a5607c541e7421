//! The hunt for a case on which two subjects differ, and its report.

use std::env;
use std::str::FromStr;

use sleetanvil::case::{Case, Subject};
use sleetanvil::paper;

use super::compare::difference;
use super::generate::Generator;

/// The seed of a run: the environment's `SLEETANVIL_SEED`, or a fixed one.
pub fn seed() -> u64 {
    setting("SLEETANVIL_SEED").unwrap_or(0x51EE_7A4B)
}

/// The number of cases of a run: the environment's `SLEETANVIL_CASES`, or 200,000; a tenth of that
/// without optimization.
pub fn cases() -> u64 {
    let usual = if cfg!(debug_assertions) {
        20_000
    } else {
        200_000
    };
    setting("SLEETANVIL_CASES").unwrap_or(usual)
}

fn setting<T: FromStr>(name: &str) -> Option<T> {
    let text = env::var(name).ok()?;
    match text.parse() {
        Ok(number) => Some(number),
        Err(_) => panic!("{name} is not a number: {text}"),
    }
}

/// A case on which two subjects differ.
pub struct Found {
    pub number: u64,
    pub case: Case,
    pub difference: String,
}

/// The first case out of so many on which two subjects differ, shrunk.
pub fn hunt(left: Subject, right: Subject, seed: u64, cases: u64) -> Option<Found> {
    (0..cases).find_map(|number| {
        let case = Generator::new(seed, number).case();
        difference(&left(&case), &right(&case))?;
        let case = shrink(case, left, right);
        let difference = difference(&left(&case), &right(&case))?;
        Some(Found {
            number,
            case,
            difference,
        })
    })
}

/// Panic with a report of what was found.
pub fn report(found: Option<Found>, seed: u64) {
    if let Some(found) = found {
        panic!(
            "seed {seed}, case {}: the library and the paper's model differ\n{}\n{}",
            found.number, found.difference, found.case
        );
    }
}

/// The case with every record dropped that can go while the subjects still differ.
fn shrink(mut case: Case, left: Subject, right: Subject) -> Case {
    let mut chunk = chunks(&case.log).len();
    while chunk > 0 {
        let mut at = 0;
        while at < chunks(&case.log).len() {
            let mut smaller = case.clone();
            smaller.log = without(&case.log, at, chunk);
            if difference(&left(&smaller), &right(&smaller)).is_some() {
                case = smaller;
            } else {
                at += chunk;
            }
        }
        chunk /= 2;
    }
    case
}

/// A log without so many of its records from one on.
fn without(log: &[u8], at: usize, count: usize) -> Vec<u8> {
    let chunks = chunks(log);
    let kept = chunks.iter().enumerate();
    kept.filter(|(place, _)| !(at..at + count).contains(place))
        .flat_map(|(_, chunk)| chunk.iter().copied())
        .collect()
}

/// The records of a log; what cannot be read is one piece at the end.
fn chunks(log: &[u8]) -> Vec<&[u8]> {
    let mut chunks = Vec::new();
    let mut place = 0;
    while let Ok(Some((_, end))) = paper::next(log, place) {
        chunks.push(&log[place..end]);
        place = end;
    }
    if place < log.len() {
        chunks.push(&log[place..]);
    }
    chunks
}
