//! The project's vectors: lines that each say a case, and lines that say what came of it.
//!
//! The program in `crates/vectors` reads the same lines and prints what the proved model does with
//! them. Its expected lines are never copied from the product. Those of document 01 were first
//! worked out by another independent model; [the paper's model](crate::paper) prints the same, and
//! what is added or changed is printed by it, with the program `vectors`. The tests hold the library
//! to them too.
//!
//! A line has a name, the numbers of a setup and a script, with a bar between two; one that begins
//! with # is a comment. The file says in its head what the numbers and the script are.

use std::path::PathBuf;
use std::{env, fs};

use crate::case::{hex, untouched_output, Case, Fill, Outcome, Subject};
use crate::{paper, Geometry, Job, Refusal, State, Stepping};

/// The longest buffer that the program in `crates/vectors` lends.
const LONGEST_BUFFER: usize = 65_536;
/// The longest log that it writes.
const LONGEST_LOG: usize = 2_048;

/// A vector: a case with a name.
#[derive(Clone, Debug)]
pub struct Vector<'a> {
    /// The name.
    pub name: &'a str,
    /// The case.
    pub case: Case,
}

impl<'a> Vector<'a> {
    /// The vector of a line.
    pub fn read(line: &'a str) -> Result<Self, String> {
        let [name, numbers, script] = line.split('|').collect::<Vec<_>>()[..] else {
            return Err(format!("not a name, numbers and a script: {line}"));
        };
        match case(numbers, script) {
            Ok(case) => Ok(Vector { name, case }),
            Err(error) => Err(format!("{name}: {error}")),
        }
    }

    /// The line that says what came of it.
    pub fn line(&self, outcome: &Outcome) -> String {
        let (answer, buffers) = (&outcome.answer, &outcome.buffers);
        let state = &answer.state;
        let (out, rest) = buffers.out.split_at(answer.written);
        let untouched = untouched_output(self.case.room);
        format!(
            "{}: {} records {} used {} written {} regs {:02x} {:02x} {:02x} {:02x} {} {} {} {} {} \
             out {} rest {} cache {} cells {} counts{}",
            self.name,
            answer.refusal.map_or(0, Refusal::number),
            answer.records,
            answer.used,
            answer.written,
            state.a0,
            state.b0,
            state.c0,
            state.d0,
            if state.wp == 1 { "high" } else { "low" },
            if state.selected == 1 {
                "selected"
            } else {
                "released"
            },
            state.count,
            state.column,
            operation(state),
            hex(out),
            changed(&untouched[answer.written..], rest),
            hex(&buffers.cache),
            changed(&self.case.cells.bytes(), &buffers.cells),
            counts(&buffers.counts),
        )
    }
}

/// The vectors of a file.
pub fn read(input: &str) -> Result<Vec<Vector<'_>>, String> {
    input
        .lines()
        .filter(|line| !line.starts_with('#') && !line.is_empty())
        .map(Vector::read)
        .collect()
}

/// The lines of the vectors of a file, as a subject has them.
pub fn print(input: &str, subject: Subject) -> Result<String, String> {
    let lines = read(input)?.into_iter().map(|vector| {
        let outcome = subject(&vector.case);
        vector.line(&outcome) + "\n"
    });
    Ok(lines.collect())
}

/// The project's file of a name: `stdin`, the vectors, or `stdout`, their lines.
///
/// It stands beside the package, in `../crates/vectors`, or in the folder that the environment
/// variable `SLEETANVIL_VECTORS` names.
pub fn file(name: &str) -> Result<String, String> {
    let folder = env::var_os("SLEETANVIL_VECTORS").map_or_else(
        || PathBuf::from(env!("CARGO_MANIFEST_DIR")).join("../crates/vectors"),
        PathBuf::from,
    );
    let file = folder.join(name);
    fs::read_to_string(&file).map_err(|error| format!("{}: {error}", file.display()))
}

/// The case of a setup and a script.
fn case(numbers: &str, script: &str) -> Result<Case, String> {
    let mut case = setup(numbers)?;
    case.log = log(script)?;
    let lent = [case.cells.len, case.cache.len, case.counts.len, case.room];
    if lent.into_iter().any(|length| length > LONGEST_BUFFER) {
        return Err(format!("a buffer of more than {LONGEST_BUFFER} bytes"));
    }
    if case.log.len() > LONGEST_LOG {
        return Err(format!("a log of more than {LONGEST_LOG} bytes"));
    }
    Ok(case)
}

/// The case of a setup, still without its log.
fn setup(numbers: &str) -> Result<Case, String> {
    let numbers: Result<Vec<u32>, String> = numbers.split(' ').map(number).collect();
    let mut numbers = numbers?.into_iter();
    // A number that is missing is 0. A later setting is one more number at the end, and its 0
    // means: as before.
    let mut next = || numbers.next().unwrap_or(0);

    let mut case = Case::bench(&[]);
    case.geometry = Geometry {
        data: next(),
        spare: next(),
        pages: next(),
        blocks: next(),
        ..case.geometry
    };
    let state = &mut case.state;
    state.a0 = next() as u8;
    state.b0 = next() as u8;
    state.c0 = next() as u8;
    state.d0 = next() as u8;
    state.wp = flag(next())?;
    state.selected = flag(next())?;
    state.count = next() as u8;
    state.instruction = paper::State::instruction_of(next() as u8);
    state.first = next() as u8;
    state.second = next() as u8;
    state.third = next() as u8;
    state.column = next() as u16;
    state.job = job(next())?;
    state.row = next() as u16;
    state.units = next() as usize;
    if state.job == 0 && (state.row, state.units) != (0, 0) {
        return Err("a row or units without an operation".into());
    }
    if state.job == Job::Reset.number() && state.row != 0 {
        return Err("a row of a reset, which has none".into());
    }
    let mut fill = || Fill::counting(next() as usize, next() as u8, next() as u8);
    (case.cells, case.cache) = (fill(), fill());
    case.counts = Fill::constant(next() as usize, next() as u8);
    case.room = next() as usize;
    case.geometry.stepping = stepping(next())?;

    match numbers.find(|&number| number != 0) {
        Some(number) => Err(format!("{number:X} stands behind the numbers of a setup")),
        None => Ok(case),
    }
}

/// A number in hex, with capitals; 0 where there is no digit.
fn number(text: &str) -> Result<u32, String> {
    if text.is_empty() {
        return Ok(0);
    }
    let digits = text
        .chars()
        .all(|char| matches!(char, '0'..='9' | 'A'..='F'));
    match u32::from_str_radix(text, 16) {
        Ok(number) if digits => Ok(number),
        _ => Err(format!("not a hex number: {text}")),
    }
}

/// A number that is 0 or 1.
fn flag(number: u32) -> Result<u8, String> {
    match number {
        0 | 1 => Ok(number as u8),
        _ => Err(format!("neither 0 nor 1: {number:X}")),
    }
}

/// The stepping of a number.
fn stepping(number: u32) -> Result<Stepping, String> {
    match number {
        0 => Ok(Stepping::First),
        1 => Ok(Stepping::Second),
        _ => Err(format!("no stepping has the number {number:X}")),
    }
}

/// The job of an instruction's code, as a state has it.
fn job(code: u32) -> Result<u8, String> {
    match code {
        0 => Ok(0),
        0x13 => Ok(1),
        0x10 => Ok(2),
        0xD8 => Ok(3),
        0xFF => Ok(4),
        _ => Err(format!("no operation has the code {code:X}")),
    }
}

/// The log of a script.
fn log(script: &str) -> Result<Vec<u8>, String> {
    let mut log = Vec::new();
    let mut shifting = false;
    let mut chars = script.chars().filter(|char| !char.is_whitespace());
    while let Some(char) = chars.next() {
        match char {
            '[' => log.push(1),
            ']' => log.push(3),
            '(' | ')' => {}
            high => {
                let Some(low) = chars.next() else {
                    return Err(format!("half a byte: {high}"));
                };
                if shifting {
                    log.push(2);
                }
                log.push(number(&String::from_iter([high, low]))? as u8);
            }
        }
        shifting = match char {
            '[' | ')' => true,
            ']' | '(' => false,
            _ => shifting,
        };
    }
    Ok(log)
}

fn operation(state: &State) -> String {
    let Some(operation) = state.operation() else {
        return "idle".into();
    };
    let verb = match operation.job {
        Job::Read => "reads",
        Job::Program => "programs",
        Job::Erase => "erases",
        Job::Reset => "resets",
    };
    format!("{verb} {} {}", operation.row, operation.units)
}

/// How many bytes changed, from where to where, and a hash of their places and contents.
fn changed(before: &[u8], after: &[u8]) -> String {
    let places: Vec<_> = (0..before.len())
        .filter(|&place| before[place] != after[place])
        .collect();
    let (Some(first), Some(last)) = (places.first(), places.last()) else {
        return "0".into();
    };
    let hash = places.iter().fold(0u32, |hash, &place| {
        hash.wrapping_mul(31)
            .wrapping_add((place as u32) << 8 | u32::from(after[place]))
    });
    format!("{} {first}..{last} {hash:08x}", places.len())
}

/// The page counts that are not 0.
fn counts(counts: &[u8]) -> String {
    let counts = counts.iter().enumerate().filter(|(_, &count)| count != 0);
    counts
        .map(|(row, count)| format!(" {row}:{count}"))
        .collect()
}
