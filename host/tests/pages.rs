//! The parameter page's written cases: library and model print the expected lines.
//!
//! The files stand beside the package, in `../crates/pages`; the head of `stdin` says how a case is
//! written. The expected lines are the model's. Where a case is added, they are written anew from
//! the top of the project by
//!
//! ```text
//! cargo test --release --manifest-path host/Cargo.toml --test pages -- --ignored
//! ```
//!
//! and the difference shows which lines changed.

mod support;

use std::fmt::Write;

use sleetanvil::paper::Part;
use sleetanvil::Geometry;
use support::paging::{library, model, Call, Case, Outcome, Subject};
use support::written::Written;

const CASES: Written = Written("pages");

#[test]
fn model_prints_the_cases() {
    CASES.compare(|case| line(case, &model));
}

#[test]
fn library_prints_the_cases() {
    CASES.compare(|case| line(case, &library));
}

#[test]
#[ignore = "writes the expected lines anew"]
fn expected_lines_anew() {
    CASES.anew(|case| line(case, &model));
}

/// The memory of a case, and how much of it is lent at first.
const MEMORY: usize = 1024;

/// The line that is printed for a case.
fn line(case: &str, subject: Subject) -> String {
    let (name, steps) = case.split_once('|').expect("a name and steps");
    let mut line = format!("{name}:");
    let mut part = Geometry::from(Part::FM25S005BI3);
    let mut memory = vec![0xA5; MEMORY];
    let mut lent = MEMORY;
    let mut letters = steps.chars().filter(|letter| *letter != ' ');
    while let Some(letter) = letters.next() {
        let mut number = |digits| {
            let digits: String = letters.by_ref().take(digits).collect();
            assert!(!digits.contains(char::is_lowercase), "{case}: {digits}");
            u32::from_str_radix(&digits, 16).expect("hex digits")
        };
        match letter {
            'd' => part.data = number(8),
            's' => part.spare = number(8),
            'k' => part.pages = number(8),
            'n' => part.blocks = number(8),
            'l' => {
                lent = number(4) as usize;
                assert!(lent <= MEMORY, "{case}");
            }
            '!' => {
                let (place, byte) = (number(4), number(2));
                memory[place as usize] = byte as u8;
            }
            'm' => {
                let place = lent.min(number(4) as usize);
                let outcome = take(Call::Make(part), &memory[place..lent], subject);
                memory[place..lent].copy_from_slice(&outcome.memory);
                print(&mut line, format!("m{}", outcome.refusal));
            }
            'r' => {
                let outcome = take(Call::Read, &memory[..lent], subject);
                memory[..lent].copy_from_slice(&outcome.memory);
                print(&mut line, format!("r{}", outcome.refusal));
                if outcome.refusal == 0 {
                    print(&mut line, sizes(&outcome));
                }
            }
            'c' => {
                let stretch = stretch(number(4), number(4));
                let outcome = take(Call::Check, &memory[stretch], subject);
                print(&mut line, format!("c{:04x}", outcome.check));
            }
            '=' => {
                let stretch = stretch(number(4), number(4));
                let bytes = memory[stretch].iter().map(|byte| format!("{byte:02x}"));
                print(&mut line, format!("={}", bytes.collect::<String>()));
            }
            other => panic!("{case}: {other}"),
        }
    }
    line
}

/// The copy and its four numbers.
fn sizes(outcome: &Outcome) -> String {
    let copy = outcome.copy;
    let [data, spare, pages, blocks] = outcome.sizes;
    format!("{copy} {data:08x} {spare:04x} {pages:08x} {blocks:08x}")
}

fn print(line: &mut String, what: String) {
    write!(line, " {what}").expect("a string takes all");
}

fn take(call: Call, memory: &[u8], subject: Subject) -> Outcome {
    subject(&Case {
        call,
        memory: memory.to_vec(),
    })
}

/// So many places from one on, cut at the end of the memory.
fn stretch(place: u32, length: u32) -> std::ops::Range<usize> {
    let [from, to] = [place, place + length].map(|end| MEMORY.min(end as usize));
    from..to
}
