//! The card slot: the proved library against the independent model, on every byte of the lent
//! memory; what the request promises, tried on both; and that such tests can fail.
//!
//! Seed and number of cases are those of `differential.rs`; half of that number is enough here. A
//! case on which two subjects differ is shrunk and printed with all that is needed to run it again.

mod support;

use sleetanvil::paper::card::Answer;
use sleetanvil::raw::{self, RawCard};
use support::carding::{command, difference, hunt, library, model, record, records, shrink};
use support::carding::{Call, Case, Generator, Memory, Outcome, Subject, CODE, COUNTER, WORDS};
use support::carding::{COMPARE, COUNT, PROTECT, READ, READ_WITH_BIT, WRITE, WRITE_AND_PROTECT};
use support::hunt::{cases, seed};

#[test]
fn calls_agree() {
    let seed = seed();
    if let Some((number, case)) = hunt(&library, &model, seed, cases() / 2) {
        let case = shrink(case, &library, &model);
        let difference = difference(&case, &library, &model).unwrap_or_default();
        panic!("seed {seed}, case {number}: {difference}\n{case}");
    }
}

/// The plain memory with its right lengths, and some room.
fn plain() -> Memory {
    Memory::plain(1024, 128, 64)
}

fn agree(case: &Case) -> Outcome {
    let outcome = library(case);
    let difference = difference(case, &library, &model);
    assert!(
        difference.is_none(),
        "{}\n{case}",
        difference.unwrap_or_default()
    );
    outcome
}

#[test]
fn fresh_at_power_up() {
    assert_eq!(raw::card_power_up(), RawCard { stage: 0 });
}

/// Every first byte, at addresses with and without a meaning, from every stage, with data that is
/// right for a compare and data that is not: by a run and by its own call.
#[test]
fn every_command() {
    for first in 0..=255 {
        for second in [0x00, 0x0B, 0xFC, 0xFD, 0xFE, 0xFF] {
            for third in [0x12, 0x34, 0xFE, 0xFF] {
                for stage in 0..4 {
                    let mut case = Case {
                        call: Call::Command([first, second, third]),
                        stage,
                        memory: Memory::plain(1024, 128, 2),
                    };
                    let by_call = agree(&case);
                    case.call = Call::Run(case.call.log());
                    assert_eq!(by_call, library(&case), "{case}");
                    let two = first % 64 == 0x0C;
                    assert_eq!(by_call.answer.written, 1 + usize::from(two), "{case}");
                }
            }
        }
    }
}

/// Every counter under every mask, with its protect bit 1 and 0, worked out here.
#[test]
fn every_mask_on_every_counter() {
    let mut memory = plain();
    let Memory { cells, bits, out } = &mut memory;
    for counter in 0..=255_u8 {
        for mask in 0..=255_u8 {
            let one = (counter & !mask).count_ones() == 1;
            for (open, stage) in [(0x20, 0), (0x20, 2), (0x20, 3), (0x00, 1)] {
                (cells[COUNTER], bits[127]) = (counter, 0xDF | open);
                let bytes = [0xF2, 0xFD, mask];
                let answer = raw::card_command(RawCard { stage }, bytes, cells, bits, out);
                let cleared = one && open != 0;
                let after = if cleared { counter & mask } else { counter };
                let stage = match stage {
                    3 => 3,
                    _ => u8::from(cleared),
                };
                let got = (cells[COUNTER], answer.card.stage, answer.refusal, out[0]);
                assert_eq!(
                    got,
                    (after, stage, 0, 0xFF),
                    "{counter:02X}h, mask {mask:02X}h"
                );
            }
        }
    }
    (memory.cells[COUNTER], memory.bits[127], memory.out[0]) = (0xFF, 0xFF, 0xA5);
    assert_eq!(memory, plain());
}

/// Every address: a read, a write, a write with protect bit, the protect bit alone. No other byte
/// and no other bit changes.
#[test]
fn every_address() {
    for address in 0..1024 {
        let mut memory = plain();
        for (place, cell) in memory.cells.iter_mut().enumerate() {
            *cell = (place * 7 + place / 256) as u8;
        }
        let cell = memory.cells[address];
        let (mut written, mut protected) = (memory.clone(), memory.clone());
        written.cells[address] = !cell;
        protected.bits[address / 8] ^= 1 << (address % 8);
        let mut both = protected.clone();
        both.cells[address] = !cell;
        for (word, data, answer, after) in [
            (READ, !cell, &[cell][..], &memory),
            (READ_WITH_BIT, !cell, &[cell, 1], &memory),
            (WRITE, !cell, &[0xFF], &written),
            (WRITE_AND_PROTECT, !cell, &[0xFF], &both),
            (PROTECT, cell, &[0xFF], &protected),
            (PROTECT, !cell, &[0xFF], &memory),
        ] {
            let case = Case {
                call: Call::Command(command(word, address, data)),
                stage: 3,
                memory: memory.clone(),
            };
            let outcome = agree(&case);
            assert_eq!(outcome.written(), answer, "{case}");
            assert_eq!(outcome.memory.cells, after.cells, "{case}");
            assert_eq!(outcome.memory.bits, after.bits, "{case}");
            let [mut again, mut shown] = [case.clone(), case];
            again.memory = outcome.memory.clone();
            again.call = Call::Command(command(WRITE, address, 0x5A));
            let byte = if outcome.memory.is_open(address) {
                0x5A
            } else {
                after.cells[address]
            };
            shown.memory = agree(&again).memory;
            shown.call = Call::Command(command(READ_WITH_BIT, address, 0x00));
            let bit = u8::from(outcome.memory.is_open(address));
            assert_eq!(agree(&shown).written(), [byte, bit], "{shown}");
        }
    }
}

/// Nothing is done and nothing is touched.
fn refused_at_once(case: &Case, refusal: u8) {
    let answer = Answer {
        records: 0,
        used: 0,
        written: 0,
        stage: case.stage,
        refusal,
    };
    let memory = case.memory.clone();
    assert_eq!(agree(case), Outcome { answer, memory }, "{case}");
}

/// A command that would clear a bit, then one of a kind that is not in the table.
const STOPS: [u8; 5] = [0x20, 0xF2, 0xFD, 0xFE, 0x05];

/// Every stage under right and wrong lengths, with a log and with none.
#[test]
fn every_stage_and_length() {
    for stage in 0..=255 {
        for cells in [0, 1, 128, 1022, 1023, 1024, 1025, 1026, 2048] {
            for bits in [0, 1, 126, 127, 128, 129, 130, 1024] {
                let refusal = match (cells, bits, stage) {
                    (1024, 128, 0..=3) => continue,
                    (1024, 128, _) => 5,
                    (1024, ..) => 18,
                    _ => 17,
                };
                let mut case = Case {
                    call: Call::Run(STOPS.to_vec()),
                    stage,
                    memory: Memory::plain(cells, bits, 2),
                };
                refused_at_once(&case, refusal);
                if stage % 16 < 5 {
                    case.call = Call::Run(Vec::new());
                    refused_at_once(&case, refusal);
                    case.call = Call::Command([0xF2, 0xFD, 0xFE]);
                    refused_at_once(&case, refusal);
                    case.memory.out.clear();
                    refused_at_once(&case, refusal);
                }
            }
        }
    }
}

/// Every kind before, between and after commands.
#[test]
fn every_kind() {
    for kind in 0..=255 {
        for before in 0..3 {
            for behind in [
                &[][..],
                &[0x00],
                &[0xCE, 0xFE, 0x00],
                &[0x0E, 0x00, 0x00, 0x06],
            ] {
                let log = [
                    &[0x20, 0x0E, 0x00, 0x00].repeat(before),
                    &[kind][..],
                    behind,
                ]
                .concat();
                let case = Case {
                    call: Call::Run(log),
                    stage: 1,
                    memory: plain(),
                };
                let answer = agree(&case).answer;
                if ![0x06, 0x20].contains(&kind) {
                    let got = (answer.refusal, answer.records, answer.used, answer.written);
                    assert_eq!(got, (6, before, 4 * before, before), "{case}");
                }
            }
        }
    }
}

/// A log that goes through all stages, with each command of the table.
fn whole_log() -> Vec<u8> {
    let commands = [
        command(READ_WITH_BIT, CODE[0], 0x00),
        command(COUNT, COUNTER, 0xFE),
        command(COMPARE, CODE[0], 0x12),
        command(COMPARE, CODE[1], 0x34),
        command(READ_WITH_BIT, CODE[1], 0x00),
        command(WRITE, COUNTER, 0xFF),
        command(WRITE_AND_PROTECT, 0x107, 0x55),
        command(READ_WITH_BIT, 0x107, 0x00),
        command(PROTECT, 0x108, 0xFF),
        command(0x3F, 0x108, 0xFF),
        command(READ, CODE[0], 0x00),
        command(READ_WITH_BIT, 0x108, 0x00),
    ];
    let mut log: Vec<u8> = commands.into_iter().flat_map(record).collect();
    log.push(0x06);
    log.extend(record(command(READ_WITH_BIT, CODE[0], 0x00)));
    log.push(0x06);
    log
}

/// Every room from none to more than enough: the run stops before the record that finds none.
#[test]
fn every_room() {
    let log = whole_log();
    let all = records(&log);
    let needs: Vec<usize> = all
        .iter()
        .map(|record| match record {
            [0x06] => 0,
            [_, first, ..] if first % 64 == READ_WITH_BIT => 2,
            _ => 1,
        })
        .collect();
    let enough: usize = needs.iter().sum();
    for room in 0..enough + 3 {
        let case = Case {
            call: Call::Run(log.clone()),
            stage: 0,
            memory: Memory::plain(1024, 128, room),
        };
        let mut fit = 0;
        let mut written = 0;
        while fit < needs.len() && written + needs[fit] <= room {
            written += needs[fit];
            fit += 1;
        }
        let refusal = if fit < needs.len() { 9 } else { 0 };
        let used = all[..fit].concat().len();
        let outcome = agree(&case);
        let answer = outcome.answer;
        let got = (answer.refusal, answer.records, answer.used, answer.written);
        assert_eq!(got, (refusal, fit, used, written), "{case}");
        assert!(outcome.memory.out[written..]
            .iter()
            .all(|byte| *byte == 0xA5));
    }
}

/// Every place at which a log can be cut.
#[test]
fn every_cut() {
    let log = whole_log();
    for length in 0..=log.len() {
        let case = Case {
            call: Call::Run(log[..length].to_vec()),
            stage: 0,
            memory: plain(),
        };
        let answer = agree(&case).answer;
        let whole = answer.used == length;
        assert_eq!(answer.refusal, if whole { 0 } else { 7 }, "{case}");
    }
}

/// What the request promises, each by its name.
mod promises {
    use super::*;

    /// A record, and the card before and after it.
    pub struct Step {
        pub record: Vec<u8>,
        pub before: Case,
        pub after: Outcome,
    }

    impl Step {
        /// The bytes of the command, if the record is one.
        fn command(&self) -> Option<[u8; 3]> {
            match self.record[..] {
                [0x20, first, second, third] => Some([first, second, third]),
                _ => None,
            }
        }

        fn counter(&self) -> [u8; 2] {
            [&self.before.memory, &self.after.memory].map(|memory| memory.cells[COUNTER])
        }

        /// A counter command that cleared a bit.
        fn clears(&self) -> bool {
            let [before, after] = self.counter();
            matches!(self.command(), Some([0xF2, 0xFD, _])) && before != after
        }

        /// A compare with what the cell has at that moment.
        fn right(&self, address: usize) -> bool {
            let right = command(COMPARE, address, self.before.memory.cells[address]);
            self.command() == Some(right)
        }

        fn opens(&self) -> bool {
            self.before.stage != 3 && self.after.answer.stage == 3
        }
    }

    /// A log fed record by record, up to the one that is refused.
    pub fn steps(case: &Case, subject: Subject) -> Vec<Step> {
        let mut before = case.clone();
        let mut steps = Vec::new();
        for record in records(&case.call.log()) {
            before.call = Call::Run(record.to_vec());
            let after = subject(&before);
            let mut next = before.clone();
            next.stage = after.answer.stage;
            next.memory = after.memory.clone();
            next.memory.out.drain(..after.answer.written);
            let refused = after.answer.refusal != 0;
            steps.push(Step {
                record: record.to_vec(),
                before,
                after,
            });
            before = next;
            if refused {
                break;
            }
        }
        steps
    }

    /// A log fed in parts gives the same as the whole.
    fn parts(case: &Case, steps: &[Step], whole: &Outcome) -> bool {
        let mut joined = Outcome {
            answer: Answer {
                records: 0,
                used: 0,
                written: 0,
                stage: case.stage,
                refusal: 0,
            },
            memory: case.memory.clone(),
        };
        let mut out = Vec::new();
        for step in steps {
            let (answer, part) = (&mut joined.answer, step.after.answer);
            answer.records += part.records;
            answer.used += part.used;
            answer.written += part.written;
            (answer.stage, answer.refusal) = (part.stage, part.refusal);
            out.extend(step.after.written());
            joined.memory.cells.clone_from(&step.after.memory.cells);
            joined.memory.bits.clone_from(&step.after.memory.bits);
        }
        joined.memory.out[..out.len()].copy_from_slice(&out);
        joined == *whole
    }

    /// A byte whose protect bit is 0 never changes, and its bit stays 0.
    fn protected(case: &Case, _: &[Step], whole: &Outcome) -> bool {
        let closed = (0..1024).filter(|address| !case.memory.is_open(*address));
        closed.into_iter().all(|address| {
            let kept = case.memory.cells[address] == whole.memory.cells[address];
            kept && !whole.memory.is_open(address)
        })
    }

    /// No protect bit becomes 1.
    fn irreversible(case: &Case, _: &[Step], whole: &Outcome) -> bool {
        let mut bits = case.memory.bits.iter().zip(&whole.memory.bits);
        bits.all(|(before, after)| before & after == *after)
    }

    /// Until the code has passed only the counter changes, and it only loses bits, one at a time.
    fn only_counter(_: &Case, steps: &[Step], _: &Outcome) -> bool {
        let mut closed = steps.iter().filter(|step| step.before.stage != 3);
        closed.all(|step| {
            let [before, after] = step.counter();
            let mut cells = step.before.memory.cells.clone();
            cells[COUNTER] = after;
            let lost = before & after == after && (before ^ after).count_ones() <= 1;
            let known = before == after || step.clears();
            let bits = step.before.memory.bits == step.after.memory.bits;
            lost && known && bits && cells == step.after.memory.cells
        })
    }

    /// A counter command puts in the counter AND its mask exactly if that clears one bit of a
    /// counter that may change.
    fn counts(_: &Case, steps: &[Step], _: &Outcome) -> bool {
        steps.iter().all(|step| {
            let Some([0xF2, 0xFD, mask]) = step.command() else {
                return true;
            };
            let [before, after] = step.counter();
            let one = (before & !mask).count_ones() == 1;
            let may = step.before.memory.is_open(COUNTER) && step.after.answer.refusal == 0;
            after == if one && may { before & mask } else { before }
        })
    }

    /// The code passes exactly after a counter bit newly cleared and right compares of both its
    /// bytes, one behind the other.
    fn passes(case: &Case, steps: &[Step], _: &Outcome) -> bool {
        // What the stage says of the records before the log.
        let was = |steps_before: u8| case.stage == steps_before;
        (0..steps.len()).all(|place| {
            let cleared = match place {
                0 => was(2),
                1 => was(1),
                _ => steps[place - 2].clears(),
            };
            let first = match place {
                0 => was(2),
                _ => steps[place - 1].right(CODE[0]),
            };
            let step = &steps[place];
            let done = step.after.answer.refusal == 0;
            let passing = cleared && first && step.right(CODE[1]) && done;
            step.before.stage == 3 || step.opens() == passing
        })
    }

    /// It holds until power is lost, and a power loss changes no byte and no bit.
    fn power(_: &Case, steps: &[Step], _: &Outcome) -> bool {
        steps.iter().all(|step| {
            let stages = [step.before.stage, step.after.answer.stage];
            match step.record[..] {
                [0x06] => stages[1] == 0 && step.before.memory == step.after.memory,
                _ => stages[0] != 3 || stages[1] == 3,
            }
        })
    }

    /// Each command answers one byte, FFh but for a read; a read with protect bit answers two.
    fn answers(_: &Case, steps: &[Step], _: &Outcome) -> bool {
        steps.iter().all(|step| {
            let (before, written) = (&step.before, step.after.written());
            let Some([first, second, _]) = step.command() else {
                return written.is_empty();
            };
            let room = if first % 64 == READ_WITH_BIT { 2 } else { 1 };
            if before.memory.out.len() < room {
                return step.after.answer.refusal == 9 && written.is_empty();
            }
            let address = usize::from(first / 64) * 256 + usize::from(second);
            let hidden = before.stage != 3 && CODE.contains(&address);
            let cell = if hidden {
                0x00
            } else {
                before.memory.cells[address]
            };
            match first % 64 {
                READ => written == [cell],
                READ_WITH_BIT => written == [cell, before.memory.is_open(address).into()],
                _ => written == [0xFF],
            }
        })
    }

    /// Counter bits cleared before the code passes, and those then left, are those of the
    /// beginning.
    fn tries(case: &Case, steps: &[Step], whole: &Outcome) -> bool {
        if case.stage == 3 {
            return true;
        }
        let opening = steps.iter().position(Step::opens);
        let before = &steps[..opening.unwrap_or(steps.len())];
        let left = match opening {
            Some(place) => steps[place].counter()[0],
            None => whole.memory.cells[COUNTER],
        };
        let tries = before.iter().filter(|step| step.clears()).count();
        let bits = |counter: u8| counter.count_ones() as usize;
        let spent = bits(case.memory.cells[COUNTER]) == 0 || !case.memory.is_open(COUNTER);
        tries + bits(left) == bits(case.memory.cells[COUNTER])
            && !(spent && case.stage == 0 && opening.is_some())
    }

    /// Two cards that differ in the code alone, under a log that opens neither: the same in all but
    /// their codes, which stay, and their stages.
    fn hidden(case: &Case, subject: Subject, twin: [u8; 2]) -> bool {
        let mut other = case.clone();
        for (place, byte) in CODE.into_iter().zip(twin) {
            other.memory.cells[place] = byte;
        }
        let opens = |case: &Case| {
            let passed = |step: &Step| step.after.answer.stage == 3;
            case.stage == 3 || steps(case, subject).iter().any(passed)
        };
        if opens(case) || opens(&other) {
            return true;
        }
        let [ends, mut others] = [case, &other].map(subject);
        for (place, byte) in CODE.into_iter().zip(twin) {
            if others.memory.cells[place] != byte {
                return false;
            }
            others.memory.cells[place] = case.memory.cells[place];
        }
        others.answer.stage = ends.answer.stage;
        others == ends
    }

    type Promise = fn(&Case, &[Step], &Outcome) -> bool;

    const PROMISES: [(&str, Promise); 9] = [
        ("parts", parts),
        ("protected", protected),
        ("irreversible", irreversible),
        ("only the counter", only_counter),
        ("counts", counts),
        ("passes", passes),
        ("power", power),
        ("answers", answers),
        ("tries", tries),
    ];

    /// The promises that a subject breaks on the sound case of a number.
    pub fn broken(subject: Subject, seed: u64, number: u64) -> Vec<&'static str> {
        let mut generator = Generator::new(seed, number);
        let case = generator.sound_case();
        let twin = [generator.rng.byte(), generator.rng.byte()];
        let (steps, whole) = (steps(&case, subject), subject(&case));
        let kept = |promise: Promise| promise(&case, &steps, &whole);
        let mut broken: Vec<_> = PROMISES
            .into_iter()
            .filter(|(_, promise)| !kept(*promise))
            .map(|(name, _)| name)
            .collect();
        if !hidden(&case, subject, twin) {
            broken.push("hidden");
        }
        broken
    }

    #[test]
    fn the_library_keeps_them() {
        keeps(&library, 1);
    }

    #[test]
    fn the_model_keeps_them() {
        keeps(&model, 2);
    }

    fn keeps(subject: Subject, stream: u64) {
        let seed = seed() ^ stream;
        for number in 0..cases() / 100 {
            let broken = broken(subject, seed, number);
            let case = || Generator::new(seed, number).sound_case();
            assert!(
                broken.is_empty(),
                "seed {seed}, case {number}: {broken:?}\n{}",
                case()
            );
        }
    }
}

/// That the tests can fail: models that are wrong in one thing.
mod wrong {
    use super::*;

    /// What a command was towards passing.
    #[derive(Clone, Copy, Debug, PartialEq, Eq)]
    enum Event {
        Cleared,
        NotCleared,
        /// Compares of the first and of the second code byte.
        Right(usize),
        Wrong(usize),
        Read,
        /// A write of a byte or of a protect bit.
        Write,
        Foreign,
        Unknown,
    }
    use Event::{Cleared, Foreign, NotCleared, Read, Right, Unknown, Write, Wrong};

    /// What a command finds.
    #[derive(Clone, Copy)]
    struct View {
        /// Its row in the table, from 0; 7 if it has none.
        row: usize,
        stage: u8,
        address: usize,
        data: u8,
        cell: u8,
        /// Whether the protect bit is 1.
        open: bool,
    }

    /// Something that is said of a command, or of a number.
    type Judge = fn(&View) -> bool;
    type Byte = fn(&View) -> u8;
    type Limit = fn(usize) -> bool;

    /// The row of a power loss.
    const LOSS: usize = 8;

    /// The request, rule by rule, so that each can be another one.
    #[derive(Clone, Copy)]
    struct Rules {
        table: Table,
        counter: Counter,
        passing: Passing,
        protection: Protection,
        answers: Answers,
        log: Log,
        checks: Checks,
        /// What is done to the outcome at the end.
        after: fn(&Case, &mut Outcome),
    }

    #[derive(Clone, Copy)]
    struct Table {
        words: [u8; 7],
        /// The bits of a control word that are looked at.
        looked_at: u8,
        /// The control word and A9 A8 of a first byte, and A7 to A0 of a second.
        word: fn(u8) -> u8,
        quarter: fn(u8) -> u8,
        low: fn(u8) -> u8,
        /// What the counter command changes at an address, if it is one of its own.
        counter: fn(usize) -> Option<usize>,
        /// Which code byte a compare of an address looks at, if any, and where these stand.
        code: fn(usize) -> Option<usize>,
        code_at: [usize; 2],
    }

    #[derive(Clone, Copy)]
    struct Counter {
        /// Whether a mask does something to a counter, and what is put in it.
        takes: fn(u8, u8) -> bool,
        puts: fn(u8, u8) -> u8,
        may: Judge,
    }

    #[derive(Clone, Copy)]
    struct Passing {
        /// Stage, event and next stage, where they are not the right ones.
        steps: &'static [(u8, Event, u8)],
        /// What a power loss makes of each stage, and does to the memory.
        loss: [u8; 4],
        loses: fn(&mut Memory),
    }

    #[derive(Clone, Copy)]
    struct Protection {
        /// Byte and bit of an address's protect bit.
        place: fn(usize) -> (usize, usize),
        /// What becomes of the byte with a protect bit.
        clears: fn(u8, usize) -> u8,
        write: Judge,
        /// What a write puts in the cell.
        puts: Byte,
        /// Whether a write protects its byte, if it is done and if it is not.
        by_write: Judge,
        by_no_write: Judge,
        alone: Judge,
    }

    #[derive(Clone, Copy)]
    struct Answers {
        /// A read's answer, its second byte, and the answer of all others.
        read: Byte,
        second: Byte,
        second_first: bool,
        other: Byte,
        /// How many bytes a row answers, and for how many it asks.
        gives: fn(usize) -> usize,
        asks: fn(usize) -> usize,
        acts_without_room: bool,
    }

    #[derive(Clone, Copy)]
    struct Log {
        /// The kinds, each with the length of its body.
        kinds: &'static [(u8, usize)],
        /// The numbers in their order.
        order: [u8; 3],
    }

    #[derive(Clone, Copy)]
    struct Checks {
        cells: Limit,
        bits: Limit,
        stage: Limit,
        /// The numbers in their order.
        order: [u8; 3],
        of_empty_logs: bool,
    }

    const RIGHT: Rules = Rules {
        table: TABLE,
        counter: COUNTS,
        passing: PASSING,
        protection: PROTECTION,
        answers: ANSWERS,
        log: LOG,
        checks: CHECKS,
        after: |_, _| {},
    };

    const TABLE: Table = Table {
        words: WORDS,
        looked_at: 0x3F,
        word: |first| first & 0x3F,
        quarter: |first| first >> 6,
        low: |second| second,
        counter: |address| (address == 1021).then_some(1021),
        code: |address| address.checked_sub(1022),
        code_at: CODE,
    };

    const COUNTS: Counter = Counter {
        takes: |counter, mask| lost(counter, mask) == 1,
        puts: |counter, mask| counter & mask,
        may: |view| view.open,
    };

    const PASSING: Passing = Passing {
        steps: &[],
        loss: [0; 4],
        loses: |_| {},
    };

    const PROTECTION: Protection = Protection {
        place: |address| (address / 8, address % 8),
        clears: |byte, bit| byte & !(1 << bit),
        write: writable,
        puts: |view| view.data,
        by_write: |view| view.row == 0,
        by_no_write: |_| false,
        alone: |view| view.stage == 3 && same(view),
    };

    const ANSWERS: Answers = Answers {
        read: shown,
        second: |view| view.open.into(),
        second_first: false,
        other: |_| 0xFF,
        gives: length,
        asks: length,
        acts_without_room: false,
    };

    const LOG: Log = Log {
        kinds: &[(0x20, 3), (0x06, 0)],
        order: [6, 7, 9],
    };

    const CHECKS: Checks = Checks {
        cells: |cells| cells == 1024,
        bits: |bits| bits == 128,
        stage: |stage| stage <= 3,
        order: [17, 18, 5],
        of_empty_logs: true,
    };

    /// How many bits of a counter a mask clears.
    fn lost(counter: u8, mask: u8) -> u32 {
        (counter & !mask).count_ones()
    }

    fn writable(view: &View) -> bool {
        view.stage == 3 && view.open
    }

    /// Whether the data are what the cell has.
    fn same(view: &View) -> bool {
        view.cell == view.data
    }

    fn is_hidden(view: &View) -> bool {
        view.address >= 1022 && view.stage != 3
    }

    fn shown(view: &View) -> u8 {
        if is_hidden(view) {
            0x00
        } else {
            view.cell
        }
    }

    /// The cell where something holds, and else 00h.
    fn only(holds: bool, view: &View) -> u8 {
        u8::from(holds) * view.cell
    }

    fn length(row: usize) -> usize {
        match row {
            3 => 2,
            LOSS => 0,
            _ => 1,
        }
    }

    const fn table(table: Table) -> Rules {
        Rules { table, ..RIGHT }
    }

    const fn counter_at(counter: fn(usize) -> Option<usize>) -> Rules {
        table(Table { counter, ..TABLE })
    }

    const fn code(code: fn(usize) -> Option<usize>) -> Rules {
        table(Table { code, ..TABLE })
    }

    const fn quarter(quarter: fn(u8) -> u8) -> Rules {
        table(Table { quarter, ..TABLE })
    }

    const fn looked_at(looked_at: u8) -> Rules {
        table(Table { looked_at, ..TABLE })
    }

    const fn code_at(code_at: [usize; 2]) -> Rules {
        table(Table { code_at, ..TABLE })
    }

    const fn counter(counter: Counter) -> Rules {
        Rules { counter, ..RIGHT }
    }

    const fn takes(takes: fn(u8, u8) -> bool) -> Rules {
        counter(Counter { takes, ..COUNTS })
    }

    const fn puts(puts: fn(u8, u8) -> u8) -> Rules {
        counter(Counter { puts, ..COUNTS })
    }

    const fn may_count(may: Judge) -> Rules {
        counter(Counter { may, ..COUNTS })
    }

    const fn passing(passing: Passing) -> Rules {
        Rules { passing, ..RIGHT }
    }

    const fn steps(steps: &'static [(u8, Event, u8)]) -> Rules {
        passing(Passing { steps, ..PASSING })
    }

    const fn loss(loss: [u8; 4]) -> Rules {
        passing(Passing { loss, ..PASSING })
    }

    const fn loses(loses: fn(&mut Memory)) -> Rules {
        passing(Passing { loses, ..PASSING })
    }

    const fn protection(protection: Protection) -> Rules {
        Rules {
            protection,
            ..RIGHT
        }
    }

    const fn place(place: fn(usize) -> (usize, usize)) -> Rules {
        protection(Protection {
            place,
            ..PROTECTION
        })
    }

    const fn clears(clears: fn(u8, usize) -> u8) -> Rules {
        protection(Protection {
            clears,
            ..PROTECTION
        })
    }

    const fn write(write: Judge) -> Rules {
        protection(Protection {
            write,
            ..PROTECTION
        })
    }

    const fn written(puts: Byte) -> Rules {
        protection(Protection { puts, ..PROTECTION })
    }

    const fn by_write(by_write: Judge) -> Rules {
        protection(Protection {
            by_write,
            ..PROTECTION
        })
    }

    const fn by_no_write(by_no_write: Judge) -> Rules {
        protection(Protection {
            by_no_write,
            ..PROTECTION
        })
    }

    const fn alone(alone: Judge) -> Rules {
        protection(Protection {
            alone,
            ..PROTECTION
        })
    }

    const fn answers(answers: Answers) -> Rules {
        Rules { answers, ..RIGHT }
    }

    const fn read(read: Byte) -> Rules {
        answers(Answers { read, ..ANSWERS })
    }

    const fn second(second: Byte) -> Rules {
        answers(Answers { second, ..ANSWERS })
    }

    const fn other(other: Byte) -> Rules {
        answers(Answers { other, ..ANSWERS })
    }

    const fn gives(gives: fn(usize) -> usize) -> Rules {
        answers(Answers {
            gives,
            asks: gives,
            ..ANSWERS
        })
    }

    const fn asks(asks: fn(usize) -> usize) -> Rules {
        answers(Answers { asks, ..ANSWERS })
    }

    const fn kinds(kinds: &'static [(u8, usize)]) -> Rules {
        let log = Log { kinds, ..LOG };
        Rules { log, ..RIGHT }
    }

    const fn order(order: [u8; 3]) -> Rules {
        let log = Log { order, ..LOG };
        Rules { log, ..RIGHT }
    }

    const fn checks(checks: Checks) -> Rules {
        Rules { checks, ..RIGHT }
    }

    const fn cells(cells: Limit) -> Rules {
        checks(Checks { cells, ..CHECKS })
    }

    const fn bits(bits: Limit) -> Rules {
        checks(Checks { bits, ..CHECKS })
    }

    const fn stage(stage: Limit) -> Rules {
        checks(Checks { stage, ..CHECKS })
    }

    const fn first_order(order: [u8; 3]) -> Rules {
        checks(Checks { order, ..CHECKS })
    }

    const fn after(after: fn(&Case, &mut Outcome)) -> Rules {
        Rules { after, ..RIGHT }
    }

    /// Where nothing is done, and where the run stops before a record.
    fn nothing_done(outcome: &Outcome) -> bool {
        [5, 17, 18].contains(&outcome.answer.refusal)
    }

    fn stopped(outcome: &Outcome) -> bool {
        [6, 7, 9].contains(&outcome.answer.refusal)
    }

    type Impostors = &'static [(&'static str, Rules)];

    #[rustfmt::skip]
    const OF_COMMANDS: Impostors = &[
        ("does not look at s0", looked_at(0x3E)),
        ("does not look at s1", looked_at(0x3D)),
        ("does not look at s2", looked_at(0x3B)),
        ("does not look at s3", looked_at(0x37)),
        ("does not look at s4", looked_at(0x2F)),
        ("does not look at s5", looked_at(0x1F)),
        ("has s0 the highest of the six",
            table(Table { word: |first| first.reverse_bits() >> 2, ..TABLE })),
        ("has the address in the lowest bits",
            table(Table { word: |first| first >> 2, quarter: |first| first & 3, ..TABLE })),
        ("has A0 the highest of the eight", table(Table { low: u8::reverse_bits, ..TABLE })),
        ("exchanges A8 and A9", quarter(|first| [0, 2, 1, 3][usize::from(first >> 6)])),
        ("takes A8 for 1", quarter(|first| first >> 6 | 1)),
        ("takes A9 for 1", quarter(|first| first >> 6 | 2)),
        ("takes A8 for 0", quarter(|first| first >> 6 & 2)),
        ("takes A9 for 0", quarter(|first| first >> 6 & 1)),
        ("takes the counter command anywhere", counter_at(|_| Some(1021))),
        ("counts at any address", counter_at(Some)),
        ("counts at 253 of each quarter",
            counter_at(|address| (address % 256 == 253).then_some(1021))),
        ("counts at 1020", counter_at(|address| (address == 1020).then_some(1020))),
        ("counts at the code too", counter_at(|address| (address >= 1021).then_some(1021))),
        ("never counts", counter_at(|_| None)),
        ("compares at 1021 too", code(|address| [1021, 1023, 1022].into_iter()
            .position(|place| place == address).map(|which| which % 2))),
        ("compares the first byte at 1021",
            code(|address| [1021, 1023].into_iter().position(|place| place == address))),
        ("compares anywhere", code(|address| Some(address % 2))),
        ("compares in each quarter", code(|address| (address % 256).checked_sub(254))),
        ("compares in the other order",
            code(|address| [1023, 1022].into_iter().position(|place| place == address))),
        ("never compares the second byte", code(|address| (address == 1022).then_some(0))),
        ("has the code at 1021 and 1022", code_at([1021, 1022])),
        ("has one code byte for both", code_at([1022, 1022])),
        ("has the code's bytes exchanged", code_at([1023, 1022])),
        ("has the second code byte first, address and all", table(Table {
            code: |address| [1023, 1022].into_iter().position(|place| place == address),
            code_at: [1023, 1022],
            ..TABLE
        })),
    ];

    #[rustfmt::skip]
    const OF_COUNTER: Impostors = &[
        ("takes two bits cleared", takes(|counter, mask| [1, 2].contains(&lost(counter, mask)))),
        ("takes any bits cleared", takes(|counter, mask| lost(counter, mask) > 0)),
        ("takes no bit cleared", takes(|counter, mask| lost(counter, mask) < 2)),
        ("takes every mask", takes(|_, _| true)),
        ("asks for a mask with one 0",
            takes(|counter, mask| mask.count_zeros() == 1 && lost(counter, mask) == 1)),
        ("takes a mask with one 0",
            takes(|counter, mask| mask.count_zeros() == 1 || lost(counter, mask) == 1)),
        ("counts the mask's 0s", takes(|_, mask| mask.count_zeros() == 1)),
        ("keeps the last bit",
            takes(|counter, mask| lost(counter, mask) == 1 && counter & mask != 0)),
        ("takes two bits cleared for a step alone", counter(Counter {
            takes: |counter, mask| [1, 2].contains(&lost(counter, mask)),
            puts: |counter, mask| if lost(counter, mask) == 1 { counter & mask } else { counter },
            ..COUNTS
        })),
        ("clears the bits that are 1 in the mask", counter(Counter {
            takes: |counter, mask| lost(counter, !mask) == 1,
            puts: |counter, mask| counter & !mask,
            ..COUNTS
        })),
        ("puts in the mask", puts(|_, mask| mask)),
        ("clears the lowest bit", puts(|counter, _| counter & (counter - 1))),
        ("takes the step without clearing", puts(|counter, _| counter)),
        ("counts a protected counter", may_count(|_| true)),
        ("does not count when passed", may_count(|view| view.open && view.stage != 3)),
        ("counts when fresh alone", may_count(|view| view.open && view.stage == 0)),
        ("writes the counter before passing",
            write(|view| view.open && (view.stage == 3 || view.address == 1021))),
        ("writes FFh to the counter before passing", write(|view| {
            view.open && (view.stage == 3 || view.address == 1021 && view.data == 0xFF)
        })),
        ("writes no counter", write(|view| writable(view) && view.address != 1021)),
        ("writes nothing but FFh to the counter",
            write(|view| writable(view) && (view.address != 1021 || view.data == 0xFF))),
        ("writes a protected counter",
            write(|view| view.stage == 3 && (view.open || view.address == 1021))),
    ];

    #[rustfmt::skip]
    const OF_PASSING: Impostors = &[
        ("keeps a step after an unknown command", steps(&[(1, Unknown, 1), (2, Unknown, 2)])),
        ("keeps a step after a foreign address", steps(&[(1, Foreign, 1), (2, Foreign, 2)])),
        ("keeps a step after a read", steps(&[(1, Read, 1), (2, Read, 2)])),
        ("keeps a step after an ignored write", steps(&[(1, Write, 1), (2, Write, 2)])),
        ("keeps a step after a wrong first byte", steps(&[(1, Wrong(0), 1), (2, Wrong(0), 2)])),
        ("keeps a step after a wrong second byte", steps(&[(1, Wrong(1), 1), (2, Wrong(1), 2)])),
        ("falls one step back by a wrong byte", steps(&[(2, Wrong(0), 1), (2, Wrong(1), 1)])),
        ("falls one step back by a read", steps(&[(2, Read, 1)])),
        ("keeps a step after a mask that clears none",
            steps(&[(1, NotCleared, 1), (2, NotCleared, 2)])),
        ("takes a mask that clears none for a step",
            steps(&[(0, NotCleared, 1), (1, NotCleared, 1), (2, NotCleared, 1)])),
        ("keeps the first byte over a new counter bit", steps(&[(2, Cleared, 2)])),
        ("starts anew by a counter bit after the first byte", steps(&[(2, Cleared, 0)])),
        ("starts anew by a second counter bit", steps(&[(1, Cleared, 0)])),
        ("keeps the first byte over a compare of it", steps(&[(2, Right(0), 2)])),
        ("falls one step back by a compare of the first byte", steps(&[(2, Right(0), 1)])),
        ("passes by the first byte twice", steps(&[(2, Right(0), 3)])),
        ("passes by the second byte alone", steps(&[(1, Right(1), 3)])),
        ("takes the bytes in any order", steps(&[(1, Right(1), 2), (2, Right(0), 3)])),
        ("keeps the counter bit over an early second byte", steps(&[(1, Right(1), 1)])),
        ("takes the first byte without a counter bit", steps(&[(0, Right(0), 2)])),
        ("passes by the first byte alone", steps(&[(1, Right(0), 3)])),
        ("takes a wrong first byte", steps(&[(1, Wrong(0), 2)])),
        ("passes by a wrong second byte", steps(&[(2, Wrong(1), 3)])),
        ("never passes", steps(&[(2, Right(1), 0)])),
        ("closes by a right compare", steps(&[(3, Right(0), 0), (3, Right(1), 0)])),
        ("closes by a wrong compare", steps(&[(3, Wrong(0), 0), (3, Wrong(1), 0)])),
        ("closes by a counter bit", steps(&[(3, Cleared, 1)])),
        ("closes by a mask that clears none", steps(&[(3, NotCleared, 0)])),
        ("closes by a write", steps(&[(3, Write, 0)])),
        ("closes by a read", steps(&[(3, Read, 0)])),
        ("closes by an unknown command", steps(&[(3, Unknown, 0)])),
        ("keeps the passing over a power loss", loss([0, 0, 0, 3])),
        ("keeps the steps over a power loss", loss([0, 1, 2, 0])),
        ("keeps the counter bit over a power loss", loss([0, 1, 1, 0])),
        ("keeps the stage over a power loss", loss([0, 1, 2, 3])),
        ("erases the cells by a power loss", loses(|memory| memory.cells.fill(0xFF))),
        ("erases the counter by a power loss", loses(|memory| memory.cells[1021] = 0xFF)),
        ("opens the bytes by a power loss", loses(|memory| memory.bits.fill(0xFF))),
    ];

    #[rustfmt::skip]
    const OF_MEMORY: Impostors = &[
        ("has the highest protect bit first", place(|address| (address / 8, 7 - address % 8))),
        ("has a protect bit in byte a mod 128", place(|address| (address % 128, address / 128))),
        ("has one protect bit for eight bytes", place(|address| (address / 8, 0))),
        ("has protect bits for 256 bytes", place(|address| (address % 256 / 8, address % 8))),
        ("sets the protect bit", clears(|byte, bit| byte | 1 << bit)),
        ("turns the protect bit round", clears(|byte, bit| byte ^ 1 << bit)),
        ("clears eight protect bits", clears(|_, _| 0x00)),
        ("clears the other seven protect bits", clears(|byte, bit| byte & 1 << bit)),
        ("clears no protect bit", clears(|byte, _| byte)),
        ("writes a protected byte", write(|view| view.stage == 3)),
        ("writes a protected byte with protect bit",
            write(|view| view.stage == 3 && (view.open || view.row == 0))),
        ("writes a protected byte without protect bit",
            write(|view| view.stage == 3 && (view.open || view.row == 1))),
        ("writes before passing", write(|view| view.open)),
        ("writes with protect bit before passing",
            write(|view| view.open && (view.stage == 3 || view.row == 0))),
        ("writes after the first code byte", write(|view| view.open && view.stage >= 2)),
        ("writes no code", write(|view| writable(view) && view.address < 1022)),
        ("writes the code before passing",
            write(|view| view.open && (view.stage == 3 || view.address >= 1022))),
        ("writes protected bytes alone", write(|view| view.stage == 3 && !view.open)),
        ("writes like a flash", written(|view| view.cell & view.data)),
        ("writes FFh", written(|_| 0xFF)),
        ("writes the data turned round", written(|view| !view.data)),
        ("leaves the protect bit by a write with it", by_write(|_| false)),
        ("clears the protect bit by each write", by_write(|_| true)),
        ("clears it by the other write", by_write(|view| view.row == 1)),
        ("protects by a write before passing", by_no_write(|view| view.row == 0)),
        ("protects without comparison", alone(|view| view.stage == 3)),
        ("protects what differs", alone(|view| view.stage == 3 && !same(view))),
        ("protects before passing", alone(same)),
        ("protects the counter before passing",
            alone(|view| same(view) && (view.stage == 3 || view.address == 1021))),
        ("protects after the first code byte", alone(|view| same(view) && view.stage >= 2)),
        ("protects no code",
            alone(|view| same(view) && view.stage == 3 && view.address < 1022)),
        ("protects no counter",
            alone(|view| same(view) && view.stage == 3 && view.address != 1021)),
        ("protects nothing alone", alone(|_| false)),
    ];

    #[rustfmt::skip]
    const OF_ANSWERS: Impostors = &[
        ("shows the code", read(|view| view.cell)),
        ("shows the first code byte",
            read(|view| only(!is_hidden(view) || view.address == 1022, view))),
        ("shows the second code byte",
            read(|view| only(!is_hidden(view) || view.address == 1023, view))),
        ("shows the code with its protect bit",
            read(|view| only(!is_hidden(view) || view.row == 3, view))),
        ("shows the code after its first byte",
            read(|view| only(!is_hidden(view) || view.stage == 2, view))),
        ("shows a protected code", read(|view| only(!is_hidden(view) || !view.open, view))),
        ("hides the code when it has passed", read(|view| only(view.address < 1022, view))),
        ("hides the code with FFh", read(|view| if is_hidden(view) { 0xFF } else { view.cell })),
        ("hides the counter", read(|view| only(view.address < 1021 || view.stage == 3, view))),
        ("hides in each quarter",
            read(|view| only(view.address % 256 < 254 || view.stage == 3, view))),
        ("hides all", read(|view| only(view.stage == 3, view))),
        ("reads FFh", read(|_| 0xFF)),
        ("reads with data 00h alone", read(|view| if view.data == 0 { shown(view) } else { 0xFF })),
        ("has the protect bit turned round", second(|view| (!view.open).into())),
        ("has FFh for an open byte", second(|view| if view.open { 0xFF } else { 0x00 })),
        ("has the protect bit at the top", second(|view| u8::from(view.open) << 7)),
        ("hides the code's protect bits",
            second(|view| u8::from(view.open && !is_hidden(view)))),
        ("has the protect bit first", answers(Answers { second_first: true, ..ANSWERS })),
        ("answers 00h", other(|_| 0x00)),
        ("answers the data", other(|view| view.data)),
        ("answers the cell", other(|view| view.cell)),
        ("answers 00h to a compare", other(|view| if view.row == 6 { 0x00 } else { 0xFF })),
        ("answers 00h to an unknown command", other(|view| if view.row == 7 { 0 } else { 0xFF })),
        ("answers two bytes to each read", gives(|row| length(if row == 4 { 3 } else { row }))),
        ("answers one byte to each command", gives(|row| length(row).min(1))),
        ("answers two bytes to each command", gives(|row| 2 * length(row).min(1))),
        ("answers no unknown command", gives(|row| length(if row == 7 { LOSS } else { row }))),
        ("answers reads alone", gives(|row| [2, 1, 0][[3, 4, row].iter()
            .position(|other| *other == row).unwrap_or(2)])),
        ("answers a power loss", gives(|row| length(if row == LOSS { 7 } else { row }))),
        ("asks for one byte where two come", asks(|row| length(row).min(1))),
        ("asks for two bytes where one comes", asks(|row| 2 * length(row).min(1))),
        ("asks for two bytes for each read", asks(|row| length(if row == 4 { 3 } else { row }))),
        ("asks for no room for an unknown command",
            asks(|row| length(if row == 7 { LOSS } else { row }))),
        ("asks for no room for a write", asks(|row| length(if row < 3 { LOSS } else { row }))),
        ("asks for room for a power loss", asks(|row| length(if row == LOSS { 7 } else { row }))),
        ("asks for no room", asks(|_| 0)),
        ("acts without room", answers(Answers { acts_without_room: true, ..ANSWERS })),
    ];

    #[rustfmt::skip]
    const OF_REFUSALS: Impostors = &[
        ("refuses with 18 before 17", first_order([18, 17, 5])),
        ("refuses with 5 before 17", first_order([5, 17, 18])),
        ("refuses with 5 before 18", first_order([17, 5, 18])),
        ("takes more cells", cells(|cells| cells >= 1024)),
        ("takes fewer cells", cells(|cells| cells <= 1024)),
        ("takes 1,023 cells", cells(|cells| [1023, 1024].contains(&cells))),
        ("takes 1,025 cells", cells(|cells| [1024, 1025].contains(&cells))),
        ("takes no 1,024 cells", cells(|cells| cells > 1024)),
        ("takes more protect bits", bits(|bits| bits >= 128)),
        ("takes fewer protect bits", bits(|bits| bits <= 128)),
        ("takes 127 bytes of protect bits", bits(|bits| [127, 128].contains(&bits))),
        ("takes 129 bytes of protect bits", bits(|bits| [128, 129].contains(&bits))),
        ("takes 1,024 bytes of protect bits", bits(|bits| [128, 1024].contains(&bits))),
        ("takes stage 4", stage(|stage| stage <= 4)),
        ("takes any stage", stage(|_| true)),
        ("takes a stage by its two lowest bits", stage(|stage| stage % 128 <= 3)),
        ("takes no stage 3", stage(|stage| stage < 3)),
        ("checks nothing for an empty log", checks(Checks { of_empty_logs: false, ..CHECKS })),
        ("refuses with 7 before 6", order([7, 6, 9])),
        ("refuses with 9 before 7", order([6, 9, 7])),
        ("refuses with 9 before 6", order([9, 6, 7])),
        ("takes kind 21h", kinds(&[(0x20, 3), (0x06, 0), (0x21, 3)])),
        ("takes kind 00h", kinds(&[(0x20, 3), (0x06, 0), (0x00, 0)])),
        ("takes kind 05h", kinds(&[(0x20, 3), (0x06, 0), (0x05, 1)])),
        ("takes kind 07h", kinds(&[(0x20, 3), (0x06, 0), (0x07, 1)])),
        ("takes kind FFh", kinds(&[(0x20, 3), (0x06, 0), (0xFF, 0)])),
        ("takes document 01's kinds",
            kinds(&[(0x20, 3), (0x06, 0), (0x01, 0), (0x02, 1), (0x03, 0), (0x04, 2), (0x05, 1)])),
        ("knows no power loss", kinds(&[(0x20, 3)])),
        ("has commands of two bytes", kinds(&[(0x20, 2), (0x06, 0)])),
        ("has commands of four bytes", kinds(&[(0x20, 4), (0x06, 0)])),
        ("has a power loss with a body", kinds(&[(0x20, 3), (0x06, 1)])),
        ("has document 01's number for the cells", after(|_, outcome| {
            if outcome.answer.refusal == 17 {
                outcome.answer.refusal = 2;
            }
        })),
        ("takes a cut body for the end", after(|_, outcome| {
            if outcome.answer.refusal == 7 {
                outcome.answer.refusal = 0;
            }
        })),
        ("returns a fresh card where it stops", after(|_, outcome| {
            if stopped(outcome) {
                outcome.answer.stage = 0;
            }
        })),
        ("returns a fresh card where nothing is done", after(|_, outcome| {
            if nothing_done(outcome) {
                outcome.answer.stage = 0;
            }
        })),
        ("counts the refused record", after(|_, outcome| {
            outcome.answer.records += usize::from(stopped(outcome));
        })),
        ("uses the refused kind", after(|_, outcome| {
            outcome.answer.used += usize::from(stopped(outcome));
        })),
        ("counts no power loss", after(|case, outcome| {
            let log = case.call.log();
            let done = records(&log[..outcome.answer.used]);
            outcome.answer.records -= done.iter().filter(|record| record.len() == 1).count();
        })),
        ("counts up to 16 records", after(|_, outcome| {
            outcome.answer.records = outcome.answer.records.min(16);
        })),
        ("fills the rest of the output", after(|_, outcome| {
            let written = outcome.answer.written;
            outcome.memory.out[written..].fill(0xFF);
        })),
        ("writes the output where nothing is done", after(|_, outcome| {
            if nothing_done(outcome) {
                outcome.memory.out.fill(0xFF);
            }
        })),
        ("writes the byte that finds room", after(|_, outcome| {
            let written = outcome.answer.written;
            if let (9, Some(byte)) = (outcome.answer.refusal, outcome.memory.out.get_mut(written)) {
                *byte = 0xFF;
            }
        })),
        ("undoes all as it stops", after(|case, outcome| {
            if stopped(outcome) {
                outcome.memory.cells.clone_from(&case.memory.cells);
            }
        })),
    ];

    impl Rules {
        fn take(&self, case: &Case) -> Outcome {
            let mut outcome = Outcome {
                answer: Answer {
                    records: 0,
                    used: 0,
                    written: 0,
                    stage: case.stage,
                    refusal: self.first_refusal(case),
                },
                memory: case.memory.clone(),
            };
            let log = case.call.log();
            while outcome.answer.used < log.len() && outcome.answer.refusal == 0 {
                self.record(&log, &mut outcome);
            }
            (self.after)(case, &mut outcome);
            outcome
        }

        fn first_refusal(&self, case: &Case) -> u8 {
            let checks = &self.checks;
            if case.call.log().is_empty() && !checks.of_empty_logs {
                return 0;
            }
            let holds = |number| match number {
                17 => (checks.cells)(case.memory.cells.len()),
                18 => (checks.bits)(case.memory.bits.len()),
                _ => (checks.stage)(case.stage.into()),
            };
            let failed = checks.order.into_iter().find(|number| !holds(*number));
            failed.unwrap_or(0)
        }

        fn record(&self, log: &[u8], outcome: &mut Outcome) {
            let Outcome { answer, memory } = outcome;
            let rest = &log[answer.used..];
            let known = self.log.kinds.iter().find(|(kind, _)| *kind == rest[0]);
            let body = known.map_or(3, |(_, length)| *length);
            let row = match rest {
                [0x06, ..] => LOSS,
                [_, first, ..] => self.row(*first),
                _ => 7,
            };
            let holds = |number| match number {
                6 => known.is_some(),
                7 => rest.len() > body,
                _ => memory.out.len() - answer.written >= (self.answers.asks)(row),
            };
            let failed = self.log.order.into_iter().find(|number| !holds(*number));
            answer.refusal = failed.unwrap_or(0);
            if failed == Some(9) && self.answers.acts_without_room && rest[0] == 0x20 {
                self.command(&rest[1..], &mut answer.stage, memory);
            }
            if failed.is_some() {
                return;
            }
            answer.records += 1;
            answer.used += 1 + body;
            let bytes = match rest[0] {
                0x20 => self.command(&rest[1..], &mut answer.stage, memory),
                0x06 => {
                    answer.stage = self.passing.loss[usize::from(answer.stage & 3)];
                    (self.passing.loses)(memory);
                    [0xFF; 2]
                }
                _ => return,
            };
            let room = memory.out[answer.written..].iter_mut();
            for (place, byte) in room.zip(bytes).take((self.answers.gives)(row)) {
                *place = byte;
                answer.written += 1;
            }
        }

        /// A command's row in the table; 7 if it has none.
        fn row(&self, first: u8) -> usize {
            let word = (self.table.word)(first);
            let alike = |other: &u8| (other ^ word) & self.table.looked_at == 0;
            self.table.words.iter().position(alike).unwrap_or(7)
        }

        fn command(&self, body: &[u8], stage: &mut u8, memory: &mut Memory) -> [u8; 2] {
            let high = usize::from((self.table.quarter)(body[0])) << 8;
            let address = high | usize::from((self.table.low)(body[1]));
            let data = body.get(2).copied().unwrap_or(0xFF);
            let view = self.view(self.row(body[0]), *stage, address, data, memory);
            let answers = &self.answers;
            let bytes = match view.row {
                3 if answers.second_first => [(answers.second)(&view), (answers.read)(&view)],
                3 | 4 => [(answers.read)(&view), (answers.second)(&view)],
                _ => [(answers.other)(&view), 0xFF],
            };
            *stage = self.next(*stage, self.act(&view, memory));
            bytes
        }

        fn next(&self, stage: u8, event: Event) -> u8 {
            let mut others = self.passing.steps.iter();
            let other = others.find(|(at, by, _)| (*at, *by) == (stage, event));
            match (stage, event) {
                _ if other.is_some() => other.map_or(0, |(.., next)| *next),
                (3, _) => 3,
                (_, Cleared) => 1,
                (1, Right(0)) => 2,
                (2, Right(1)) => 3,
                _ => 0,
            }
        }

        fn view(&self, row: usize, stage: u8, address: usize, data: u8, memory: &Memory) -> View {
            let (byte, bit) = (self.protection.place)(address);
            let byte = memory.bits.get(byte).copied().unwrap_or(0xFF);
            View {
                row,
                stage,
                address,
                data,
                cell: memory.cells.get(address).copied().unwrap_or(0xFF),
                open: byte & 1 << bit != 0,
            }
        }

        fn act(&self, view: &View, memory: &mut Memory) -> Event {
            match view.row {
                0 | 1 => self.write(view, memory),
                2 => {
                    if (self.protection.alone)(view) {
                        self.protect(view, memory);
                    }
                    Write
                }
                3 | 4 => Read,
                5 => self.count(view, memory),
                6 => match (self.table.code)(view.address) {
                    None => Foreign,
                    Some(which) => {
                        let cell = memory.cells.get(self.table.code_at[which]);
                        match cell == Some(&view.data) {
                            true => Right(which),
                            false => Wrong(which),
                        }
                    }
                },
                _ => Unknown,
            }
        }

        fn write(&self, view: &View, memory: &mut Memory) -> Event {
            let protects = if (self.protection.write)(view) {
                set(memory, view.address, (self.protection.puts)(view));
                (self.protection.by_write)(view)
            } else {
                (self.protection.by_no_write)(view)
            };
            if protects {
                self.protect(view, memory);
            }
            Write
        }

        fn count(&self, view: &View, memory: &mut Memory) -> Event {
            let Some(place) = (self.table.counter)(view.address) else {
                return Foreign;
            };
            let view = self.view(5, view.stage, place, view.data, memory);
            if !(self.counter.takes)(view.cell, view.data) || !(self.counter.may)(&view) {
                return NotCleared;
            }
            set(memory, place, (self.counter.puts)(view.cell, view.data));
            Cleared
        }

        fn protect(&self, view: &View, memory: &mut Memory) {
            let (byte, bit) = (self.protection.place)(view.address);
            if let Some(byte) = memory.bits.get_mut(byte) {
                *byte = (self.protection.clears)(*byte, bit);
            }
        }
    }

    fn set(memory: &mut Memory, address: usize, byte: u8) {
        if let Some(cell) = memory.cells.get_mut(address) {
            *cell = byte;
        }
    }

    /// How many cases are enough to find each.
    const CASES: u64 = 4000;

    fn each_is_found(impostors: &[(&str, Rules)]) {
        for (name, rules) in impostors {
            let found = hunt(&|case| rules.take(case), &model, 1, CASES);
            assert!(found.is_some(), "not found: a model that {name}");
        }
    }

    #[test]
    fn each_command_is_found() {
        each_is_found(OF_COMMANDS);
    }

    /// Each two commands of the table exchanged.
    #[test]
    fn each_exchange_is_found() {
        for left in 0..7 {
            for right in 0..left {
                let mut rules = RIGHT;
                rules.table.words.swap(left, right);
                let found = hunt(&|case| rules.take(case), &model, 1, CASES);
                assert!(
                    found.is_some(),
                    "not found: rows {left} and {right} exchanged"
                );
            }
        }
    }

    #[test]
    fn each_counter_is_found() {
        each_is_found(OF_COUNTER);
    }

    #[test]
    fn each_passing_is_found() {
        each_is_found(OF_PASSING);
    }

    #[test]
    fn each_memory_is_found() {
        each_is_found(OF_MEMORY);
    }

    #[test]
    fn each_answer_is_found() {
        each_is_found(OF_ANSWERS);
    }

    #[test]
    fn each_refusal_is_found() {
        each_is_found(OF_REFUSALS);
    }

    #[test]
    fn the_rules_themselves_are_not() {
        assert!(hunt(&|case| RIGHT.take(case), &model, 1, CASES).is_none());
    }

    #[test]
    fn what_is_found_is_shrunk() {
        let rules = may_count(|_| true);
        let take = |case: &Case| rules.take(case);
        let (_, case) = hunt(&take, &model, 1, CASES).expect("it is found");
        let case = shrink(case, &take, &model);
        assert!(case.call.log().len() <= 4, "{case}");
        let plain = Memory::plain(1024, 128, case.memory.out.len());
        let changed = |(left, right): &(&u8, &u8)| left != right;
        assert_eq!(case.memory.cells, plain.cells, "{case}");
        let bits = case.memory.bits.iter().zip(&plain.bits);
        assert_eq!(bits.filter(changed).count(), 1, "{case}");
    }

    /// A wrong model by its name.
    fn named(name: &str) -> Rules {
        let lists = [
            OF_COMMANDS,
            OF_COUNTER,
            OF_PASSING,
            OF_MEMORY,
            OF_ANSWERS,
            OF_REFUSALS,
        ];
        let mut all = lists.into_iter().flatten();
        let found = all.find(|(other, _)| *other == name);
        found.unwrap_or_else(|| panic!("no such model: {name}")).1
    }

    /// Each promise is broken by some of them, and the test of it notices.
    #[test]
    fn each_broken_promise_is_found() {
        for (promise, name) in BREAKERS {
            let rules = named(name);
            let take = |case: &Case| rules.take(case);
            let mut numbers = 0..2000;
            let found = numbers.any(|number| promises::broken(&take, 2, number).contains(promise));
            assert!(found, "{promise} holds for a model that {name}");
        }
    }

    const BREAKERS: &[(&str, &str)] = &[
        ("parts", "counts up to 16 records"),
        ("protected", "writes a protected byte with protect bit"),
        ("protected", "writes a protected byte without protect bit"),
        ("protected", "counts a protected counter"),
        ("protected", "sets the protect bit"),
        ("irreversible", "turns the protect bit round"),
        ("irreversible", "opens the bytes by a power loss"),
        ("only the counter", "writes before passing"),
        (
            "only the counter",
            "writes FFh to the counter before passing",
        ),
        ("only the counter", "protects before passing"),
        ("only the counter", "takes two bits cleared"),
        ("only the counter", "counts at any address"),
        ("counts", "asks for a mask with one 0"),
        ("counts", "keeps the last bit"),
        ("counts", "does not count when passed"),
        ("passes", "keeps a step after a read"),
        ("passes", "keeps a step after an unknown command"),
        ("passes", "keeps a step after a wrong second byte"),
        ("passes", "takes the first byte without a counter bit"),
        ("passes", "takes the bytes in any order"),
        ("passes", "keeps the steps over a power loss"),
        ("passes", "starts anew by a second counter bit"),
        ("passes", "never passes"),
        ("power", "keeps the passing over a power loss"),
        ("power", "erases the counter by a power loss"),
        ("power", "closes by a wrong compare"),
        ("answers", "hides the code when it has passed"),
        ("answers", "has the protect bit turned round"),
        ("answers", "answers 00h to a compare"),
        ("tries", "takes any bits cleared"),
        ("tries", "writes the counter before passing"),
        ("hidden", "shows the code"),
        ("hidden", "shows the second code byte"),
        ("hidden", "protects before passing"),
    ];
}

/// That the generator leaves nothing out.
mod completeness {
    use super::*;

    const CASES: u64 = 12_000;

    /// Each refusal, alone and before others, and calls of both kinds.
    #[test]
    fn every_refusal_is_reached() {
        let mut seen = [0; 19];
        let (mut commands, mut several, mut of_two) = (0, 0, 0);
        for number in 0..CASES {
            let case = Generator::new(seed() ^ 3, number).case();
            let answer = model(&case).answer;
            seen[usize::from(answer.refusal)] += 1;
            commands += u32::from(matches!(case.call, Call::Command(_)));
            let wrong = [
                case.memory.cells.len() != 1024,
                case.memory.bits.len() != 128,
                case.stage > 3,
            ];
            several += u32::from(wrong.iter().filter(|wrong| **wrong).count() > 1);
            let left = case.memory.out.len() - answer.written;
            of_two += u32::from(answer.refusal == 9 && left == 1);
        }
        for refusal in [0, 5, 6, 7, 9, 17, 18] {
            assert!(seen[refusal] > 20, "{refusal}: {seen:?}");
        }
        let others = [commands, several, of_two];
        assert!(others.iter().all(|&seen| seen > 40), "{others:?}");
    }

    /// Each row of the table, known and not, at each stage; and each step from stage to stage.
    #[test]
    fn every_step_is_reached() {
        let mut rows = [[0; 8]; 4];
        let mut stages = [[0; 4]; 4];
        let mut losses = [0; 4];
        for number in 0..CASES {
            let case = Generator::new(seed() ^ 4, number).sound_case();
            for step in promises::steps(&case, &model) {
                let (before, answer) = (usize::from(step.before.stage), step.after.answer);
                let after = usize::from(answer.stage);
                match step.record[..] {
                    [0x06] => losses[before] += 1,
                    [0x20, first, ..] if answer.refusal == 0 => {
                        let word = first % 64;
                        let row = WORDS.iter().position(|other| *other == word);
                        rows[before][row.unwrap_or(7)] += 1;
                        stages[before][after] += 1;
                    }
                    _ => {}
                }
            }
        }
        assert!(rows.iter().flatten().all(|&seen| seen > 20), "{rows:?}");
        assert!(losses.iter().all(|&seen| seen > 50), "{losses:?}");
        let steps = [
            (0, 0),
            (0, 1),
            (1, 0),
            (1, 1),
            (1, 2),
            (2, 0),
            (2, 1),
            (2, 3),
            (3, 3),
        ];
        for (before, after) in steps {
            assert!(stages[before][after] > 20, "{stages:?}");
        }
        assert_eq!(
            stages.iter().flatten().filter(|seen| **seen > 0).count(),
            steps.len()
        );
    }

    /// Each thing that a counter command, a write and a protecting can meet.
    #[test]
    fn every_meeting_is_reached() {
        let mut cleared = [[0; 3]; 2];
        let (mut writes, mut protects) = ([[0; 2]; 2], [[[0; 2]; 2]; 2]);
        let mut of_counter = 0;
        for number in 0..CASES {
            let case = Generator::new(seed() ^ 5, number).sound_case();
            for step in promises::steps(&case, &model) {
                let [0x20, first, second, third] = step.record[..] else {
                    continue;
                };
                let memory = &step.before.memory;
                let address = usize::from(first / 64) * 256 + usize::from(second);
                let (cell, open) = (memory.cells[address], memory.is_open(address));
                let passed = usize::from(step.before.stage == 3);
                match first % 64 {
                    COUNT if address == COUNTER => {
                        let bits = (cell & !third).count_ones().min(2);
                        cleared[usize::from(open)][bits as usize] += 1;
                    }
                    WRITE | WRITE_AND_PROTECT => {
                        writes[passed][usize::from(open)] += 1;
                        of_counter += u32::from(address == COUNTER && passed == 1 && third == 0xFF);
                    }
                    PROTECT => {
                        protects[passed][usize::from(open)][usize::from(cell == third)] += 1;
                    }
                    _ => {}
                }
            }
        }
        assert!(
            cleared.iter().flatten().all(|&seen| seen > 50),
            "{cleared:?}"
        );
        assert!(writes.iter().flatten().all(|&seen| seen > 50), "{writes:?}");
        assert!(
            protects.iter().flatten().flatten().all(|&seen| seen > 10),
            "{protects:?}"
        );
        assert!(of_counter > 50, "{of_counter}");
    }
}
