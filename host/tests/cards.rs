//! The card's written cases: library and model print the expected lines.
//!
//! The files stand beside the package, in `../crates/cards`; the head of `stdin` says how a case is
//! written. The expected lines are the model's. Where a case is added, they are written anew from
//! the top of the project by
//!
//! ```text
//! cargo test --release --manifest-path host/Cargo.toml --test cards -- --ignored
//! ```
//!
//! and the difference shows which lines changed.

mod support;

use std::fmt::Write;
use std::iter::Peekable;
use std::ops::Range;

use sleetanvil::paper::page;
use support::carding::{library, model, Call, Case, Memory, Outcome, Subject};
use support::written::Written;

const CASES: Written = Written("cards");

#[test]
fn model_prints_the_cases() {
    CASES.compare(|case| line(case, &model));
}

#[test]
fn library_prints_the_cases() {
    CASES.compare(|case| line(case, &library));
}

#[test]
#[ignore = "writes the expected lines anew"]
fn expected_lines_anew() {
    CASES.anew(|case| line(case, &model));
}

/// How long the buffers of cells, protect bits and output are, how much of each is lent at first,
/// and how long a log may be.
const BUFFERS: [usize; 3] = [0x410, 0x88, 0x80];
const LENT: [usize; 3] = [0x400, 0x80, 0x40];
const LOG: usize = 0x80;

/// The line that is printed for a case.
fn line(case: &str, subject: Subject) -> String {
    let (name, steps) = case.split_once('|').expect("a name and steps");
    let mut line = format!("{name}:");
    let mut slot = Slot::new();
    let mut letters = steps.chars().filter(|letter| *letter != ' ').peekable();
    while let Some(letter) = letters.next() {
        let mut number = |digits| number(&mut letters, digits);
        match letter {
            's' => {
                slot.stage = number(1) as u8;
                assert!(slot.stage <= 3, "{case}");
            }
            'l' => slot.lend(0, number(4)),
            'b' => slot.lend(1, number(4)),
            'o' => slot.lend(2, number(4)),
            '!' => {
                let (place, byte) = (number(4), number(2));
                slot.memory.cells[place] = byte as u8;
            }
            '~' => {
                let (place, byte) = (number(4), number(2));
                slot.memory.bits[place] = byte as u8;
            }
            'r' => {
                let mut log = Vec::new();
                while let Some('0'..='9' | 'A'..='F') = letters.peek() {
                    log.push(self::number(&mut letters, 2) as u8);
                }
                assert!(log.len() <= LOG, "{case}");
                print(&mut line, letter, slot.take(Call::Run(log), subject));
            }
            'c' => {
                let command = [number(2), number(2), number(2)].map(|byte| byte as u8);
                print(
                    &mut line,
                    letter,
                    slot.take(Call::Command(command), subject),
                );
            }
            '=' => {
                let stretch = stretch(number(4), number(4), BUFFERS[0]);
                print(&mut line, letter, hex(&slot.memory.cells[stretch]));
            }
            '@' => {
                let stretch = stretch(number(4), number(4), BUFFERS[1]);
                print(&mut line, letter, hex(&slot.memory.bits[stretch]));
            }
            'k' => {
                let checks = slot.memory.named().map(|(_, bytes)| page::check(bytes));
                let checks = checks.map(|check| format!("{check:04x}"));
                print(&mut line, letter, checks.join(","));
            }
            other => panic!("{case}: {other}"),
        }
    }
    line
}

/// A number of so many hex digits.
fn number(letters: &mut Peekable<impl Iterator<Item = char>>, digits: usize) -> usize {
    let digits: String = letters.by_ref().take(digits).collect();
    assert!(!digits.contains(char::is_lowercase), "{digits}");
    usize::from_str_radix(&digits, 16).expect("hex digits")
}

fn print(line: &mut String, letter: char, what: String) {
    write!(line, " {letter}{what}").expect("a string takes all");
}

fn hex(bytes: &[u8]) -> String {
    bytes.iter().map(|byte| format!("{byte:02x}")).collect()
}

/// So many places from one on, cut at an end.
fn stretch(place: usize, length: usize, end: usize) -> Range<usize> {
    place.min(end)..end.min(place + length)
}

/// A card and all memory of a case.
struct Slot {
    stage: u8,
    memory: Memory,
    lent: [usize; 3],
}

impl Slot {
    fn new() -> Self {
        let [cells, bits, out] = BUFFERS;
        Slot {
            stage: 0,
            memory: Memory::plain(cells, bits, out),
            lent: LENT,
        }
    }

    fn lend(&mut self, buffer: usize, length: usize) {
        assert!(length <= BUFFERS[buffer]);
        self.lent[buffer] = length;
    }

    /// A call on what is lent. Gives what is printed of it.
    fn take(&mut self, call: Call, subject: Subject) -> String {
        let [cells, bits, out] = self.lent;
        let memory = Memory {
            cells: self.memory.cells[..cells].to_vec(),
            bits: self.memory.bits[..bits].to_vec(),
            out: self.memory.out[..out].to_vec(),
        };
        let Outcome { answer, memory } = subject(&Case {
            call,
            stage: self.stage,
            memory,
        });
        self.memory.cells[..cells].copy_from_slice(&memory.cells);
        self.memory.bits[..bits].copy_from_slice(&memory.bits);
        self.memory.out[..out].copy_from_slice(&memory.out);
        self.stage = answer.stage;
        let (records, used, written) = (answer.records, answer.used, answer.written);
        let numbers = [
            answer.refusal.into(),
            records,
            used,
            written,
            answer.stage.into(),
        ];
        let numbers = numbers.map(|number: usize| format!("{number:02x}"));
        format!("{}={}", numbers.join(","), hex(&memory.out[..written]))
    }
}
