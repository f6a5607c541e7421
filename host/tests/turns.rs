//! The keeper's cases that were worked out by hand: library and model print the expected lines.
//!
//! The files stand beside the package, in `../crates/turns`; the head of `stdin` says how a case is
//! written.

mod support;

use std::fmt::Write;

use sleetanvil::raw::{self, RawKeeper};
use support::keeping::{library, model, Call, Subject};
use support::written::Written;

const CASES: Written = Written("turns");

#[test]
fn model_prints_the_cases() {
    CASES.compare(|case| line(case, model));
}

#[test]
fn library_prints_the_cases() {
    CASES.compare(|case| line(case, library));
}

/// The line that is printed for a case.
fn line(case: &str, subject: Subject) -> String {
    let (name, calls) = case.split_once('|').expect("a name and calls");
    let mut line = format!("{name}:");
    let mut keeper = raw::keeper_new();
    let mut letters = calls.chars().filter(|letter| *letter != ' ');
    while let Some(letter) = letters.next() {
        let mut number = |digits| {
            let digits: String = letters.by_ref().take(digits).collect();
            u8::from_str_radix(&digits, 16).expect("hex digits")
        };
        match letter {
            '+' => {
                let (core, tag) = (number(1), number(2));
                let outcome = subject(keeper, Call::Add { core, tag });
                keeper = outcome.keeper;
                write!(line, " +{}", outcome.refusal)
            }
            '*' => {
                let outcome = subject(keeper, Call::Grant);
                keeper = outcome.keeper;
                match outcome.refusal {
                    0 => write!(line, " *{}:{:02x}", outcome.core, outcome.tag),
                    refusal => write!(line, " *{refusal}"),
                }
            }
            '!' => {
                let (core, field, value) = (number(1), number(1), number(2));
                *place(&mut keeper, core, field) = value;
                Ok(())
            }
            '=' => write!(line, "{}", shown(&keeper)),
            other => panic!("{case}: {other}"),
        }
        .expect("a string takes all");
    }
    line
}

/// A field of a keeper, by the numbers of a case.
fn place(keeper: &mut RawKeeper, core: u8, field: u8) -> &mut u8 {
    match (keeper.queues.get_mut(usize::from(core)), field) {
        (None, _) => &mut keeper.last,
        (Some(queue), 8) => &mut queue.head,
        (Some(queue), 9) => &mut queue.length,
        (Some(queue), tag) => &mut queue.tags[usize::from(tag)],
    }
}

/// Every byte of a keeper.
fn shown(keeper: &RawKeeper) -> String {
    let queues = keeper.queues.map(|queue| {
        let tags: String = queue.tags.map(|tag| format!("{tag:02x}")).concat();
        format!(" {} {} {tags}", queue.head, queue.length)
    });
    format!(" ={}{}", keeper.last, queues.concat())
}
