//! The proved library against the paper's own model, on many thousands of random cases.
//!
//! The seed is fixed; the environment variable `SLEETANVIL_SEED` names another, and
//! `SLEETANVIL_CASES` another number of cases. A case on which the two differ is shrunk and printed
//! with all that is needed to run it again.

mod support;

use std::collections::BTreeMap;

use sleetanvil::case::{hex, model, model_on, untouched_output, Buffers, Case, Fill, Outcome};
use sleetanvil::lent;
use sleetanvil::raw::{self, RawRecord};
use sleetanvil::{paper, Answer, Geometry, Log, Record, Refusal, State, Stepping};
use support::compare::{answer_difference, bytes_difference, difference, library, library_on};
use support::generate::{cache_read, Generator};
use support::hunt::{cases, hunt, report, seed};
use support::rng::Rng;

#[test]
fn runs_agree() {
    report(hunt(library, model, seed(), cases()), seed());
}

#[test]
fn single_events_agree() {
    let seed = seed() ^ 1;
    for number in 0..cases() / 4 {
        let mut generator = Generator::new(seed, number);
        let mut case = generator.case();
        let event = any_event(&mut generator.rng);
        case.room = generator.rng.below(3);
        case.log = event.bytes();
        let by_event = |case: &Case| {
            let mut buffers = case.buffers();
            let answer = event.call(&case.geometry, case.state, &mut buffers);
            Outcome { answer, buffers }
        };
        if let Some(difference) = difference(&by_event(&case), &model(&case)) {
            panic!("seed {seed}, case {number}, {event:?}: {difference}\n{case}");
        }
    }
}

#[test]
fn event_by_event_is_the_whole_run() {
    let seed = seed() ^ 2;
    for number in 0..cases() / 10 {
        let case = Generator::new(seed, number).sound_case();
        if let Some(difference) = difference(&event_by_event(&case), &library(&case)) {
            panic!("seed {seed}, case {number}: {difference}\n{case}");
        }
    }
}

/// A transfer or a piece of one against the model's own, and against the model's run of its records.
#[test]
fn transfers_agree() {
    let seed = seed() ^ 10;
    let (mut stopped, mut round) = (0, 0);
    for number in 0..cases() / 4 {
        let mut generator = Generator::new(seed, number);
        let mut case = generator.case();
        let di = any_transfer(&mut generator.rng, &case.geometry);
        case.room = match generator.rng.below(4) {
            0 => generator.rng.within(0, di.len()),
            1 => di.len() + generator.rng.below(3),
            _ => di.len(),
        };
        let whole = generator.rng.percent(60);
        let mut log = Log::new();
        if whole {
            log.transfer(&di);
        } else {
            log.extend(di.iter().map(|&byte| Record::Shift(byte)));
        }
        case.log = log.as_bytes().to_vec();

        let got = transfer_of_library(&case, &di, whole);
        let run = Outcome {
            answer: Answer {
                used: 0,
                ..model(&case).answer
            },
            ..model(&case)
        };
        for (expected, of) in [
            (transfer_of_model(&case, &di, whole), "calls"),
            (run, "run"),
        ] {
            if let Some(difference) = difference(&got, &expected) {
                panic!("seed {seed}, case {number}, the model's {of}: {difference}\n{case}");
            }
        }
        stopped += u64::from(got.answer.refusal == Some(Refusal::NoRoom));
        round += u64::from(whole && goes_round(&case, &di, got.answer.written));
    }
    assert!(stopped > 0, "no transfer stopped for want of room");
    assert!(round > 0, "no transfer read past the page's end");
}

/// Whether so many bytes of a transfer of its own read on past the page's end.
fn goes_round(case: &Case, di: &[u8], bytes: usize) -> bool {
    let [0x03 | 0x0B, high, low, ..] = *di else {
        return false;
    };
    let column = usize::from(u16::from_be_bytes([high & 0x0F, low]));
    let heard = (case.state.selected, case.state.job) == (0, 0);
    heard && column < case.cache.len && bytes > 4 + case.cache.len - column
}

/// The bytes of a transfer: any, those of an instruction with a column and much data, or those of a
/// cache read.
fn any_transfer(rng: &mut Rng, geometry: &Geometry) -> Vec<u8> {
    if rng.percent(20) {
        return cache_read(rng, geometry);
    }
    let codes = [
        0x03, 0x0B, 0x02, 0x84, 0x0F, 0x9F, 0x1F, 0x13, 0x10, 0xD8, 0x06, 0xFF,
    ];
    let page = (u64::from(geometry.data) + u64::from(geometry.spare)).min(4200) as usize;
    let length = match rng.below(4) {
        0 => rng.below(6),
        1 => 4 + rng.below(page + 8),
        _ => 1 + rng.below(12),
    };
    let mut di: Vec<u8> = (0..length).map(|_| rng.byte()).collect();
    if let (Some(first), true) = (di.first_mut(), rng.percent(80)) {
        *first = rng.pick(&codes);
    }
    if di.len() > 2 && rng.percent(70) {
        // A column or a row in the part, mostly.
        di[1] = (page / 256) as u8 & rng.byte();
        di[2] = rng.below(page.min(255) + 2) as u8;
    }
    di
}

fn transfer_of_library(case: &Case, di: &[u8], whole: bool) -> Outcome {
    let mut buffers = case.buffers();
    let (mut memory, out) = buffers.lent();
    let call = if whole { lent::transfer } else { lent::shifts };
    let answer = call(&case.geometry, case.state, di, &mut memory, out);
    Outcome { answer, buffers }
}

fn transfer_of_model(case: &Case, di: &[u8], whole: bool) -> Outcome {
    let mut buffers = case.buffers();
    let (memory, out) = buffers.lent_to_paper();
    let call = if whole {
        paper::transfer
    } else {
        paper::shifts
    };
    let answer = call(&case.geometry.into(), case.state.into(), di, memory, out).into();
    Outcome { answer, buffers }
}

/// A transfer cut off for want of room, the rest of its bytes and a deselect are the whole transfer.
#[test]
fn a_transfer_in_pieces_is_the_whole_transfer() {
    let seed = seed() ^ 11;
    for number in 0..cases() / 10 {
        let mut generator = Generator::new(seed, number);
        let mut case = generator.sound_case();
        let mut di = any_transfer(&mut generator.rng, &case.geometry);
        di.push(generator.rng.byte());
        case.room = di.len();
        let whole = transfer_of_library(&case, &di, true);

        let room = generator.rng.below(di.len());
        let mut pieces = case.buffers();
        let mut rest = pieces.out.split_off(room);
        let (mut memory, out) = pieces.lent();
        let first = lent::transfer(&case.geometry, case.state, &di, &mut memory, out);
        assert_eq!(
            (first.refusal, first.written),
            (Some(Refusal::NoRoom), room)
        );
        assert!(first.state.is_selected());
        let left = &di[room..];
        let second = lent::shifts(&case.geometry, first.state, left, &mut memory, &mut rest);
        assert_eq!((second.refusal, second.written), (None, left.len()));
        let last = lent::deselect(&case.geometry, second.state, &mut memory);
        pieces.out.append(&mut rest);
        let answer = Answer {
            records: first.records + second.records + last.records,
            used: 0,
            written: first.written + second.written,
            ..last
        };
        let pieces = Outcome {
            answer,
            buffers: pieces,
        };
        if let Some(difference) = difference(&pieces, &whole) {
            panic!("seed {seed}, case {number}, room {room}: {difference}\n{case}");
        }
    }
}

/// Work of any number of units: the model's own, and a run of work records cut at random.
#[test]
fn work_agrees() {
    let seed = seed() ^ 12;
    for number in 0..cases() / 10 {
        let mut generator = Generator::new(seed, number);
        let mut case = generator.case();
        let rng = &mut generator.rng;
        let units = match rng.below(4) {
            0 => rng.below(60) as u64,
            1 => u64::from(rng.word()),
            2 => rng.below(1 << 21) as u64,
            _ => rng.next(),
        };
        let mut by_library = case.buffers();
        let (mut memory, _) = by_library.lent();
        let answer = lent::work(&case.geometry, case.state, units, &mut memory);
        let library = Outcome {
            answer,
            buffers: by_library,
        };
        let mut by_model = case.buffers();
        let (memory, _) = by_model.lent_to_paper();
        let answer = paper::work(&case.geometry.into(), case.state.into(), units, memory).into();
        let expected = Outcome {
            answer,
            buffers: by_model,
        };
        if let Some(difference) = difference(&library, &expected) {
            panic!("seed {seed}, case {number}, {units} units: {difference}\n{case}");
        }

        if units < 1 << 21 {
            case.log.clear();
            let mut left = units;
            while left > 0 {
                let some = left.min(1 + rng.below(65_535) as u64);
                case.log
                    .extend([&[4], &(some as u16).to_le_bytes()[..]].concat());
                left -= some;
            }
            let run = model(&case);
            assert_eq!(run.answer.state, library.answer.state, "{case}");
            assert_eq!(run.answer.refusal, library.answer.refusal, "{case}");
            assert_eq!(run.buffers, library.buffers, "{case}");
        }
    }
}

/// What is told between two events: the next byte, the units left, the length of a job.
#[test]
fn what_is_told_between_events_agrees() {
    let seed = seed() ^ 13;
    for number in 0..cases() / 4 {
        let mut generator = Generator::new(seed, number);
        let case = generator.case();
        let (geometry, part) = (case.geometry, case.geometry.into());
        let cache = case.cache.bytes();
        let peeked = lent::peek(&geometry, case.state, &cache);
        for byte in [0x00, generator.rng.byte(), 0xFF] {
            let expected = paper::peek(&part, case.state.into(), &cache, byte);
            let expected = expected.map_err(|refusal| Refusal::from_number(refusal as u8));
            assert_eq!(peeked.map_err(Some), expected, "case {number}\n{case}");
        }
        assert_eq!(
            case.state.units_left(&geometry),
            paper::units_left(&part, case.state.into()),
            "case {number}\n{case}"
        );
        let job = generator.rng.below(6) as u8;
        assert_eq!(
            raw::operation_length(geometry, job),
            paper::operation_length(&part, job),
            "case {number}, job {job}\n{case}"
        );
    }
}

/// Blank memory, of right lengths and of wrong ones.
#[test]
fn blank_memory_agrees() {
    let seed = seed() ^ 14;
    let mut refused = 0;
    for number in 0..cases() / 20 {
        let case = Generator::new(seed, number).case();
        let (mut library, mut model) = (case.buffers(), case.buffers());
        let (mut memory, _) = library.lent();
        let got = lent::blank(&case.geometry, &mut memory).err();
        let (memory, _) = model.lent_to_paper();
        let expected = paper::blank(&case.geometry.into(), memory);
        let expected = expected.and_then(|refusal| Refusal::from_number(refusal as u8));
        assert_eq!(got, expected, "case {number}\n{case}");
        assert_eq!(library, model, "case {number}\n{case}");
        refused += u64::from(got.is_some());
    }
    assert!(refused > 0, "no memory was refused");
}

#[test]
fn the_archive_is_of_this_package() {
    assert_eq!(raw::version(), raw::VERSION);
}

#[test]
fn logs_are_judged_alike() {
    let seed = seed() ^ 9;
    let mut orderly = 0;
    for number in 0..cases() / 4 {
        let mut generator = Generator::new(seed, number);
        let case = if number % 2 == 0 {
            generator.sound_case()
        } else {
            generator.case()
        };
        let (library, library_orderly) = judged_by_library(&case);
        let (model, model_orderly) = judged_by_model(&case);
        if let Some(difference) = difference(&library, &model) {
            panic!("seed {seed}, case {number}: {difference}\n{case}");
        }
        assert_eq!(
            library_orderly, model_orderly,
            "seed {seed}, case {number}: orderly or not\n{case}"
        );
        orderly += u64::from(library_orderly);
    }
    let all = cases() / 4;
    assert!(
        orderly * 100 > all && orderly * 100 < all * 99,
        "{orderly} of {all} cases are orderly"
    );
}

fn judged_by_library(case: &Case) -> (Outcome, bool) {
    let mut buffers = case.buffers();
    let (mut memory, out) = buffers.lent();
    let (answer, orderly) = lent::judge(&case.geometry, case.state, &case.log, &mut memory, out);
    (Outcome { answer, buffers }, orderly)
}

fn judged_by_model(case: &Case) -> (Outcome, bool) {
    let mut buffers = case.buffers();
    let (memory, out) = buffers.lent_to_paper();
    let (part, state) = (case.geometry.into(), case.state.into());
    let (answer, orderly) = paper::judge(&part, state, &case.log, memory, out);
    let answer = answer.into();
    (Outcome { answer, buffers }, orderly)
}

#[test]
fn records_are_read_alike() {
    let seed = seed() ^ 3;
    for number in 0..cases() / 4 {
        let mut generator = Generator::new(seed, number);
        let geometry = generator.sound_geometry();
        let mut log = generator.log(&geometry);
        log.truncate(200);
        let far = [log.len() + 1, usize::MAX - 1, usize::MAX];
        for place in (0..=log.len()).chain(far) {
            let found = raw::next(&log, place);
            let got = (found.record, found.refusal, found.place);
            let nothing = raw_record(0, 0, 0);
            let expected = match paper::next(&log, place) {
                Ok(Some((record, next))) => {
                    let (kind, byte, units) = record.numbers();
                    (raw_record(kind, byte, units), 0, next)
                }
                Ok(None) => (nothing, 0, place),
                Err(refusal) => (nothing, refusal as u8, place),
            };
            assert_eq!(got, expected, "place {place} of log {}", hex(&log));
        }
    }
}

#[test]
fn records_are_written_alike() {
    let seed = seed() ^ 4;
    for number in 0..cases() {
        let mut rng = Rng::new(seed, number);
        let kind = if rng.percent(90) {
            rng.below(8) as u8
        } else {
            rng.byte()
        };
        let byte = if rng.percent(50) {
            rng.below(3) as u8
        } else {
            rng.byte()
        };
        let record = raw_record(kind, byte, rng.word());
        let mut written = untouched_output(rng.below(9));
        let place = match rng.below(10) {
            0 => usize::MAX - rng.below(4),
            _ => rng.below(written.len() + 3),
        };
        let mut expected = written.clone();

        let wrote = raw::write(record, &mut written, place);
        let expected_place = paper::Record::of_kind(kind, byte, record.units)
            .ok_or(paper::Refusal::BadKind)
            .and_then(|record| paper::write(record, &mut expected, place));
        let expected_answer = match expected_place {
            Ok(next) => (0, next),
            Err(refusal) => (refusal as u8, place),
        };
        let what = format!("{record:?} at {place} of {} bytes", written.len());
        assert_eq!((wrote.refusal, wrote.place), expected_answer, "{what}");
        assert_eq!(written, expected, "{what}");
    }
}

#[test]
fn geometries_and_states_are_judged_alike() {
    let seed = seed() ^ 5;
    for number in 0..cases() {
        let mut generator = Generator::new(seed, number);
        let geometry = if generator.rng.percent(50) {
            generator.sound_geometry()
        } else {
            generator.unsound_geometry()
        };
        let part = paper::Part::from(geometry);
        assert_eq!(geometry.is_sound(), part.is_sound(), "{geometry:?}");
        let lengths = [
            geometry.cells_len(),
            geometry.cache_len(),
            geometry.counts_len(),
        ];
        assert_eq!(lengths, part.lengths().unwrap_or([0; 3]), "{geometry:?}");
        let state = if generator.rng.percent(50) {
            generator.sound_state(&geometry)
        } else {
            generator.unsound_state(&geometry)
        };
        assert_eq!(
            state.is_sound(&geometry),
            paper::State::from(state).is_sound(&part),
            "{geometry:?} {state:?}"
        );
    }
}

#[test]
fn named_parts_and_power_up_agree() {
    let real = paper::Part::FM25S005BI3;
    assert_eq!(paper::Part::from(Geometry::fm25s005bi3()), real);
    assert_eq!(paper::Part::from(Geometry::bench()), paper::Part::BENCH);
    assert_eq!(
        paper::State::from(State::power_up()),
        paper::State::POWER_UP
    );
}

/// Logs on the real part, one after the other on the same 71 million cells. The second half of them runs
/// on the second stepping, which takes the first one's state as it is.
#[test]
fn the_real_part_agrees() {
    const LOGS: u64 = 400;
    let seed = seed() ^ 6;
    let mut case = Case::power_up(Geometry::fm25s005bi3(), &[]);
    let mut left = real_part(&case);
    let mut right = left.clone();
    for number in 0..LOGS {
        let mut generator = Generator::new(seed, number);
        if number == LOGS / 2 {
            case.geometry.stepping = Stepping::Second;
        }
        if generator.rng.percent(30) {
            case.state = generator.sound_state(&case.geometry);
        }
        case.log = generator.log(&case.geometry);
        left.out = untouched_output(case.log.len() / 2);
        right.out = left.out.clone();
        let answers = [library_on(&case, &mut left), model_on(&case, &mut right)];
        // The cells take long to compare.
        let whole = number % 4 == 0 || number == LOGS - 1;
        let difference = answer_difference(&answers[0], &answers[1]).or_else(|| {
            let buffers = left.named().into_iter().zip(right.named());
            buffers
                .filter(|((name, _), _)| whole || *name != "cells")
                .find_map(|((name, left), (_, right))| bytes_difference(name, left, right))
        });
        if let Some(difference) = difference {
            panic!(
                "seed {seed}, log {number}: {difference}\n{:?}\n{}",
                case.state,
                hex(&case.log)
            );
        }
        case.state = answers[0].state;
    }
}

/// Both steppings.
const STEPPINGS: [Stepping; 2] = [Stepping::First, Stepping::Second];

/// Small parts of both steppings: pages per block and blocks, of few blocks and of some more.
fn small_parts() -> impl Iterator<Item = Geometry> {
    let few = (1..=17).map(|blocks| (1, blocks));
    let more = [
        (2, 5),
        (3, 8),
        (1, 31),
        (1, 64),
        (1, 65),
        (1, 127),
        (1, 128),
    ];
    few.chain(more).flat_map(|(pages, blocks)| {
        STEPPINGS.map(|stepping| Geometry {
            data: 1,
            spare: 0,
            pages,
            blocks,
            stepping,
            ..Geometry::bench()
        })
    })
}

/// Each block is erased, and its last page programmed; the status is read behind each.
fn try_each_block(geometry: &Geometry, log: &mut Log) {
    for block in 0..geometry.blocks {
        for (code, page) in [(0xD8, 0), (0x10, geometry.pages - 1)] {
            let [_, _, high, low] = (block * geometry.pages + page).to_be_bytes();
            log.transfer(&[0x06]);
            log.transfer(&[code, 0x00, high, low]);
            log.transfer(&[0x0F, 0xC0, 0x00]);
            log.push(Record::Work(geometry.pages as u16));
        }
    }
}

/// Every value written to A0h on every small part, and every one handed in there: what is read back,
/// what is refused, and which blocks an erase and a program find open.
#[test]
fn every_value_of_a0_agrees() {
    for geometry in small_parts() {
        let idle = State {
            a0: 0x00,
            c0: 0x00,
            job: 0,
            ..State::power_up()
        };
        let mut handed_in = Log::new();
        try_each_block(&geometry, &mut handed_in);
        let mut refused = 0;
        for value in 0..=0xFF {
            let mut written = Log::new();
            written.transfer(&[0x1F, 0xA0, value]);
            written.transfer(&[0x0F, 0xA0, 0x00]);
            try_each_block(&geometry, &mut written);
            let with_value = State { a0: value, ..idle };
            for (state, log) in [(idle, &written), (with_value, &handed_in)] {
                let power_up = Case::power_up(geometry, log.as_bytes());
                let case = Case {
                    state,
                    cells: Fill::counting(power_up.cells.len, 3, 7),
                    cache: Fill::constant(power_up.cache.len, 0x5A),
                    counts: Fill::constant(power_up.counts.len, 2),
                    ..power_up
                };
                let (library, model) = (library(&case), model(&case));
                if let Some(difference) = difference(&library, &model) {
                    panic!("A0h {value:02X}h: {difference}\n{case}");
                }
                refused += usize::from(model.answer.refusal == Some(Refusal::BadState));
            }
        }
        // Of the eight bits, five are in the mask of the first stepping, and six in that of the second.
        let sound = match geometry.stepping {
            Stepping::First => 32,
            Stepping::Second => 64,
        };
        assert_eq!(refused, 256 - sound, "{geometry:?}");
    }
}

/// A case's memory, the cells partly written.
fn real_part(case: &Case) -> Buffers {
    let mut rng = Rng::new(7, 7);
    let mut buffers = case.buffers();
    for cells in buffers.cells.chunks_exact_mut(8).step_by(3) {
        cells.copy_from_slice(&rng.next().to_le_bytes());
    }
    buffers
}

/// One call of a single-event function.
#[derive(Clone, Copy, Debug)]
enum Event {
    Select,
    Shift(u8),
    Deselect,
    Work(u16),
    Level(u8),
    Power,
}

impl Event {
    fn of(record: paper::Record) -> Self {
        match record {
            paper::Record::Select => Event::Select,
            paper::Record::Shift(byte) => Event::Shift(byte),
            paper::Record::Deselect => Event::Deselect,
            paper::Record::Work(units) => Event::Work(units),
            paper::Record::Level(level) => Event::Level(level),
            paper::Record::Power => Event::Power,
        }
    }

    /// The record's bytes, of which the call is a run.
    fn bytes(self) -> Vec<u8> {
        match self {
            Event::Select => vec![1],
            Event::Shift(byte) => vec![2, byte],
            Event::Deselect => vec![3],
            Event::Work(units) => [&[4], &units.to_le_bytes()[..]].concat(),
            Event::Level(level) => vec![5, level],
            Event::Power => vec![6],
        }
    }

    fn call(self, geometry: &Geometry, state: State, buffers: &mut Buffers) -> Answer {
        let (mut memory, out) = buffers.lent();
        let memory = &mut memory;
        match self {
            Event::Select => lent::select(geometry, state, memory),
            Event::Shift(byte) => lent::shift(geometry, state, byte, memory, out),
            Event::Deselect => lent::deselect(geometry, state, memory),
            Event::Work(units) => lent::work(geometry, state, units.into(), memory),
            Event::Level(level) => lent::level(geometry, state, level, memory),
            Event::Power => lent::power(geometry, state, memory),
        }
    }
}

fn any_event(rng: &mut Rng) -> Event {
    match rng.below(8) {
        0 => Event::Select,
        1 | 2 => Event::Shift(rng.byte()),
        3 => Event::Deselect,
        4 => Event::Work(rng.below(60) as u16),
        5 => Event::Work(rng.word()),
        6 => Event::Level(rng.pick(&[0, 1, 1, 2, 255])),
        _ => Event::Power,
    }
}

/// The library, one call a record.
fn event_by_event(case: &Case) -> Outcome {
    record_by_record(case, library_on, |record, state, buffers| {
        Event::of(record).call(&case.geometry, state, buffers)
    })
}

/// A case in steps: the checks, which are a run of an empty log, and then record after record.
fn record_by_record(
    case: &Case,
    check: fn(&Case, &mut Buffers) -> Answer,
    mut step: impl FnMut(paper::Record, State, &mut Buffers) -> Answer,
) -> Outcome {
    let mut buffers = case.buffers();
    let nothing = Case {
        log: Vec::new(),
        ..case.clone()
    };
    let mut answer = check(&nothing, &mut buffers);
    let mut done = std::mem::take(&mut buffers.out);
    while answer.refusal.is_none() {
        let record = match paper::next(&case.log, answer.used) {
            Ok(Some((record, _))) => record,
            Ok(None) => break,
            Err(refusal) => {
                answer.refusal = Refusal::from_number(refusal as u8);
                break;
            }
        };
        buffers.out = done.split_off(answer.written);
        let one = step(record, answer.state, &mut buffers);
        done.append(&mut buffers.out);
        answer = Answer {
            records: answer.records + one.records,
            used: answer.used + one.used,
            written: answer.written + one.written,
            ..one
        };
    }
    buffers.out = done;
    Outcome { answer, buffers }
}

/// The model on one record.
fn model_step(
    geometry: &Geometry,
    record: paper::Record,
    state: State,
    buffers: &mut Buffers,
) -> Answer {
    let log = Event::of(record).bytes();
    let (memory, out) = buffers.lent_to_paper();
    paper::run(&(*geometry).into(), state.into(), &log, memory, out).into()
}

/// Whether a reset takes effect with a record.
fn resets(state: &State, record: paper::Record) -> bool {
    let risen = state.selected == 1 && record == paper::Record::Deselect;
    risen && (state.instruction, state.count) == (0xFF, 1)
}

/// What a program or an erase that takes effect asks of the protection.
#[derive(Clone, Copy)]
struct Asked {
    stepping: Stepping,
    /// All blocks.
    blocks: usize,
    /// 10h or D8h.
    code: u16,
    /// A0h as it acts.
    a0: u8,
    /// The row, which is in the array.
    row: usize,
    /// Its block.
    block: usize,
}

impl Asked {
    /// The question of a record, if it is one: chip select rises, WEL is 1, the row is in the array.
    fn of(geometry: &Geometry, state: &State, record: paper::Record) -> Option<Self> {
        let risen = state.selected == 1 && record == paper::Record::Deselect;
        let acts = matches!(state.instruction, 0x10 | 0xD8) && state.count == 4;
        let row = usize::from(u16::from_be_bytes([state.second, state.third]));
        let (pages, blocks) = (geometry.pages as usize, geometry.blocks as usize);
        let asks = risen && acts && state.c0 & 0x02 != 0 && row < pages * blocks;
        asks.then(|| Asked {
            stepping: geometry.stepping,
            blocks,
            code: state.instruction,
            a0: state.a0,
            row,
            block: row / pages,
        })
    }

    /// The BP number.
    fn number(&self) -> usize {
        usize::from(self.a0 >> 3 & 7)
    }

    fn inverted(&self) -> bool {
        self.a0 & 0x04 != 0
    }

    /// Whether the stepping has CMP, and it is 1.
    fn complemented(&self) -> bool {
        self.stepping == Stepping::Second && self.a0 & 0x02 != 0
    }

    /// How many blocks the BP number counts off.
    fn counted(&self) -> usize {
        match self.number() {
            0 => 0,
            number => self.blocks >> (7 - number),
        }
    }

    /// Whether the block is among so many at an end, the lowest or the highest.
    fn is_among(&self, count: usize, lowest: bool) -> bool {
        if lowest {
            self.block < count
        } else {
            self.block + count >= self.blocks
        }
    }

    /// Whether the block is protected where there is no CMP.
    fn is_protected_plain(&self) -> bool {
        self.is_among(self.counted(), self.inverted())
    }

    /// Whether the block is protected.
    fn is_protected(&self) -> bool {
        let turned = self.complemented() && (1..=6).contains(&self.number());
        self.is_protected_plain() != turned
    }

    /// Whether the block is at either side of the border between protected and open blocks. The BP
    /// number is from 1 to 6.
    fn is_at_the_border(&self) -> bool {
        let border = match self.inverted() {
            true => self.counted(),
            false => self.blocks - self.counted(),
        };
        self.block == border || self.block + 1 == border
    }
}

/// Whether a write of A0h comes with a record.
fn writes_a0(state: &State, record: paper::Record) -> bool {
    let risen = state.selected == 1 && record == paper::Record::Deselect;
    risen && (state.instruction, state.count, state.first) == (0x1F, 3, 0xA0)
}

/// Whether BRWD and a low WP# lock A0h.
fn is_locked(state: &State) -> bool {
    state.a0 & 0x80 != 0 && state.wp == 0
}

/// Whether a program or an erase in progress is in a block that is protected by CMP.
fn works_under_cmp(geometry: &Geometry, state: &State) -> bool {
    let row = usize::from(state.row);
    let asked = Asked {
        stepping: geometry.stepping,
        blocks: geometry.blocks as usize,
        code: 0,
        a0: state.a0,
        row,
        block: row / geometry.pages as usize,
    };
    matches!(state.job, 2 | 3) && asked.is_protected() && !asked.is_protected_plain()
}

/// Whether a record is a shift that a cache read answers.
fn answers_from_cache(state: &State, record: paper::Record) -> bool {
    let reading = state.selected == 1 && state.instruction == 0x03 && state.count >= 4;
    reading && matches!(record, paper::Record::Shift(_))
}

fn raw_record(kind: u8, byte: u8, units: u16) -> RawRecord {
    RawRecord { kind, byte, units }
}

/// That these tests can fail: models that are nearly right are found out.
mod impostors {
    use super::*;
    use sleetanvil::case::Subject;
    use sleetanvil::Job;

    const IMPOSTORS: &[(&str, Subject)] = &[
        ("refuses all logs", refuses_all),
        ("shifts out FFh always", shifts_out_ff),
        ("leaves cells untouched", leaves_cells),
        ("stores the cache over the cell", stores_over),
        ("does a whole erase in its first unit", hasty),
        ("is a unit late", late),
        ("invents records", invents_records),
        ("fills the cache for 84h", fills_for_84),
        ("ignores WP#", ignores_wp),
        ("judges no page count", judges_no_count),
        ("clears WEL on reset", clears_wel_on_reset),
        ("writes past the output", writes_past),
        ("forgets the third byte", forgets_third),
        ("resets at once", resets_at_once),
        ("resets in 7 units", resets_in_7),
        ("resets in 9 units", resets_in_9),
        ("resets in no more units than a page has", resets_by_page),
        ("resets at once from idle", resets_at_once_from_idle),
        ("goes on with a reset at a second one", goes_on_with_a_reset),
        (
            "resumes behind a reset what it stopped",
            resumes_behind_a_reset,
        ),
        (
            "writes a cache byte by a unit of a reset",
            writes_while_resetting,
        ),
        ("hears a command within a reset", hears_while_resetting),
        ("takes a reset with 8 units done", takes_8_units),
        ("takes a reset with a row", takes_a_row),
        ("keeps the row of what a reset stopped", keeps_the_row),
        ("reads FFh past the page", reads_ff_past_the_page),
        ("goes round in a load", goes_round_in_a_load),
        ("goes round one late", goes_round_late),
        ("goes round one early", goes_round_early),
        ("goes round to column 1", goes_round_to_1),
        ("goes round behind the data bytes", goes_round_at_the_spare),
        ("takes a column address of P for 0", takes_p_for_0),
        ("goes round from a column of P", goes_round_from_p),
        ("goes round from a column of 4,096", goes_round_from_4096),
        ("takes a column address modulo P", takes_columns_modulo),
        ("takes a column handed in modulo P", takes_states_modulo),
        ("goes round by 03h alone", goes_round_by_03),
        ("goes round by 0Bh alone", goes_round_by_0b),
        ("goes round once in a transfer", goes_round_once),
        (
            "goes round by a later answer alone",
            goes_round_by_later_answers,
        ),
        (
            "goes round by the first answer alone",
            goes_round_by_the_first_answer,
        ),
        ("goes round on no page of one byte", not_on_the_shortest),
        ("goes round on no page of 4,096 bytes", not_on_the_longest),
        ("tells column P behind the last byte", tells_column_p),
        ("moves the column by the idle byte", moves_by_the_idle_byte),
        ("takes every part for the first stepping", all_first),
        ("takes every part for the second stepping", all_second),
        ("drops CMP as A0h is written", drops_cmp),
        ("keeps bit 1 on the first stepping", keeps_bit_1),
        ("complements with b 0 too", complements_with_0),
        ("complements with b 7 too", complements_with_7),
        ("does not complement with b 1", not_with_1),
        ("does not complement with b 6", not_with_6),
        (
            "complements only where a block is counted off",
            not_with_none_counted,
        ),
        ("ignores INV with CMP", ignores_inv_with_cmp),
        ("takes CMP for a second INV", takes_cmp_for_inv),
        ("takes INV for CMP", takes_inv_for_cmp),
        ("complements at the wrong end", at_the_wrong_end),
        ("complements for erases alone", for_erases_alone),
        ("complements for programs alone", for_programs_alone),
        ("rounds what CMP protects down", rounds_down_with_cmp),
        ("protects a block more with CMP", one_more_with_cmp),
        ("protects a block less with CMP", one_less_with_cmp),
        ("protects all with CMP", all_with_cmp),
        ("protects none with CMP", none_with_cmp),
        ("keeps CMP through a power loss", keeps_cmp_without_power),
        ("clears CMP by a reset", clears_cmp_by_reset),
        ("writes CMP though A0h is locked", writes_locked_cmp),
        ("reads CMP back as 0", reads_no_cmp),
        ("takes bit 1 handed in on the first stepping", takes_bit_1),
        ("takes bit 0 handed in on the second stepping", takes_bit_0),
        ("takes bit 6 handed in on the second stepping", takes_bit_6),
        ("refuses CMP handed in on the second stepping", refuses_cmp),
        (
            "stops what works in a block that CMP protects",
            stops_where_protected,
        ),
    ];

    #[test]
    fn each_is_found() {
        for (name, impostor) in IMPOSTORS {
            let found = hunt(*impostor, model, 1, 4000);
            assert!(found.is_some(), "not found: a model that {name}");
        }
    }

    #[test]
    fn the_model_itself_is_not() {
        let in_steps = |case: &Case| with_next_columns(case, |right, _| right);
        let by_address = |case: &Case| with_column_addresses(case, |column, _| column);
        let by_the_rule = |case: &Case| with_protection(case, |asked| asked.is_protected());
        for subject in [model, in_steps, by_address, by_the_rule] {
            assert!(hunt(subject, model, 1, 2000).is_none());
        }
    }

    #[test]
    fn what_is_found_is_shrunk() {
        let found = hunt(late, model, 1, 4000).expect("it is found");
        assert!(found.case.log.len() <= 20, "{}", found.case);
    }

    fn refuses_all(case: &Case) -> Outcome {
        let mut empty = case.clone();
        empty.log.clear();
        let mut outcome = model(&empty);
        if !case.log.is_empty() {
            outcome.answer.refusal.get_or_insert(Refusal::BadKind);
        }
        outcome
    }

    fn shifts_out_ff(case: &Case) -> Outcome {
        let mut outcome = model(case);
        let written = outcome.answer.written;
        outcome.buffers.out[..written].fill(0xFF);
        outcome
    }

    fn leaves_cells(case: &Case) -> Outcome {
        let mut outcome = model(case);
        outcome.buffers.cells = case.cells.bytes();
        outcome
    }

    /// Cells that were programmed on erased ones cannot tell; those that had a 0 already can.
    fn stores_over(case: &Case) -> Outcome {
        let mut erased = case.clone();
        erased.cells.first = 0xFF;
        erased.cells.step = 0;
        let (mut outcome, other) = (model(case), model(&erased));
        let before = case.cells.bytes();
        let cells = outcome.buffers.cells.iter_mut();
        for ((cell, other), before) in cells.zip(other.buffers.cells).zip(before) {
            if other != 0xFF && *cell != before {
                *cell = other;
            }
        }
        outcome
    }

    fn hasty(case: &Case) -> Outcome {
        let mut outcome = model(case);
        if outcome.answer.state.job == 3 && outcome.answer.state.units > 0 {
            let pages = case.geometry.pages as usize;
            let length = pages * case.cache.len;
            let first = usize::from(outcome.answer.state.row) / pages * length;
            outcome.buffers.cells[first..first + length].fill(0xFF);
        }
        outcome
    }

    fn late(case: &Case) -> Outcome {
        on_other_log(case, |record| match record {
            paper::Record::Work(units) => paper::Record::Work(units.saturating_sub(1)),
            other => other,
        })
    }

    fn invents_records(case: &Case) -> Outcome {
        let mut outcome = model(case);
        if outcome.answer.refusal == Some(Refusal::NoRoom) {
            outcome.answer.records += 1;
        }
        outcome
    }

    fn fills_for_84(case: &Case) -> Outcome {
        let mut first = false;
        let mut outcome = on_other_log(case, |record| {
            let was_first = std::mem::replace(&mut first, record == paper::Record::Select);
            match record {
                paper::Record::Shift(0x84) if was_first => paper::Record::Shift(0x02),
                other => other,
            }
        });
        outcome.answer = model(case).answer;
        outcome
    }

    fn ignores_wp(case: &Case) -> Outcome {
        let mut outcome = on_other_log(case, |record| match record {
            paper::Record::Level(_) => paper::Record::Level(1),
            other => other,
        });
        outcome.answer.state.wp = model(case).answer.state.wp;
        outcome
    }

    fn judges_no_count(case: &Case) -> Outcome {
        let mut other = case.clone();
        other.counts.below = 1;
        let mut outcome = model(&other);
        outcome.buffers.counts = model(case).buffers.counts;
        outcome
    }

    fn clears_wel_on_reset(case: &Case) -> Outcome {
        with_changes(case, |before, record, after, _| {
            if resets(before, record) {
                after.c0 &= !0x02;
            }
        })
    }

    fn writes_past(case: &Case) -> Outcome {
        let mut outcome = model(case);
        if let Some(byte) = outcome.buffers.out.get_mut(outcome.answer.written) {
            *byte = 0xFF;
        }
        outcome
    }

    fn forgets_third(case: &Case) -> Outcome {
        let mut outcome = model(case);
        outcome.answer.state.third = case.state.third;
        outcome
    }

    fn resets_at_once(case: &Case) -> Outcome {
        with_changes(case, |before, record, after, _| {
            if resets(before, record) {
                make_idle(after);
            }
        })
    }

    fn resets_in_7(case: &Case) -> Outcome {
        with_changes(case, |_, _, after, _| {
            if is_resetting(after) && after.units == 7 {
                make_idle(after);
            }
        })
    }

    fn resets_in_9(case: &Case) -> Outcome {
        let mut one_more = false;
        record_by_record(case, model_on, |mut record, before, buffers| {
            if let paper::Record::Work(units @ 1..) = &mut record {
                if is_resetting(&before) && one_more {
                    *units -= 1;
                    one_more = false;
                }
            }
            one_more |= resets(&before, record);
            model_step(&case.geometry, record, before, buffers)
        })
    }

    fn resets_by_page(case: &Case) -> Outcome {
        with_changes(case, |_, _, after, buffers| {
            if is_resetting(after) && after.units >= buffers.cache.len() {
                make_idle(after);
            }
        })
    }

    fn resets_at_once_from_idle(case: &Case) -> Outcome {
        with_changes(case, |before, record, after, _| {
            if resets(before, record) && before.job == 0 {
                make_idle(after);
            }
        })
    }

    fn goes_on_with_a_reset(case: &Case) -> Outcome {
        with_changes(case, |before, record, after, _| {
            if resets(before, record) && is_resetting(before) {
                after.units = before.units;
            }
        })
    }

    fn resumes_behind_a_reset(case: &Case) -> Outcome {
        let mut stopped = None;
        with_changes(case, |before, record, after, _| {
            if resets(before, record) {
                let again = is_resetting(before) || before.job == 0;
                stopped = if again { stopped } else { Some(*before) };
            } else if !is_resetting(after) {
                if let (Some(stopped), true) = (stopped.take(), after.job == 0) {
                    (after.job, after.row, after.units) = (stopped.job, stopped.row, stopped.units);
                    after.c0 |= 0x01;
                }
            }
        })
    }

    fn writes_while_resetting(case: &Case) -> Outcome {
        with_changes(case, |before, record, _, buffers| {
            if is_resetting(before) && matches!(record, paper::Record::Work(1..)) {
                buffers.cache[before.units % case.cache.len] = 0xFF;
            }
        })
    }

    /// While a transfer goes on that should be ignored, the model is told of no reset; its units are
    /// counted here, and it is put back behind the transfer.
    fn hears_while_resetting(case: &Case) -> Outcome {
        let mut aside = None;
        let put_back = |after: &mut State, aside: Option<usize>| {
            if let (Some(units), 0) = (aside, after.job) {
                (after.job, after.units) = (Job::Reset.number(), units);
                after.c0 |= 0x01;
            }
        };
        let mut outcome = record_by_record(case, model_on, |record, mut before, buffers| {
            let begins = before.selected == 1 && before.count == 0;
            match (record, aside) {
                (paper::Record::Shift(0x0F | 0x9F | 0xFF), _) => {}
                (paper::Record::Shift(_), None) if begins && is_resetting(&before) => {
                    aside = Some(before.units);
                    make_idle(&mut before);
                }
                (paper::Record::Work(units), Some(done)) => {
                    aside = Some(done + usize::from(units)).filter(|&done| done < 8);
                }
                _ => {}
            }
            let mut answer = model_step(&case.geometry, record, before, buffers);
            if answer.state.selected == 0 {
                put_back(&mut answer.state, aside.take());
            }
            answer
        });
        put_back(&mut outcome.answer.state, aside);
        outcome
    }

    fn takes_8_units(case: &Case) -> Outcome {
        with_state_taken(case, |state| {
            if is_resetting(state) && state.units == 8 {
                make_idle(state);
            }
        })
    }

    fn takes_a_row(case: &Case) -> Outcome {
        with_state_taken(case, |state| {
            if is_resetting(state) {
                state.row = 0;
            }
        })
    }

    fn keeps_the_row(case: &Case) -> Outcome {
        let mut row = case.state.row;
        let mut outcome = with_changes(case, |before, record, _, _| {
            if resets(before, record) {
                row = before.row;
            }
        });
        if is_resetting(&outcome.answer.state) {
            outcome.answer.state.row = row;
        }
        outcome
    }

    fn reads_ff_past_the_page(case: &Case) -> Outcome {
        with_next_columns(case, |_, read| read.column + 1)
    }

    fn goes_round_in_a_load(case: &Case) -> Outcome {
        with_changes(case, |before, record, after, buffers| {
            let data = matches!(before.instruction, 0x02 | 0x84) && before.count >= 3;
            let stored = before.selected == 1 && matches!(record, paper::Record::Shift(_)) && data;
            if stored && usize::from(before.column) + 1 == buffers.cache.len() {
                after.column = 0;
            }
        })
    }

    /// FFh once, and then column 0.
    fn goes_round_late(case: &Case) -> Outcome {
        let mut late = false;
        with_next_columns(case, |right, read| {
            let was_late = std::mem::replace(&mut late, read.is_last()) && read.count > 4;
            if read.is_last() {
                read.page
            } else if was_late && read.column == read.page {
                0
            } else {
                right
            }
        })
    }

    fn goes_round_early(case: &Case) -> Outcome {
        with_next_columns(case, |right, read| {
            if read.column + 2 == read.page {
                0
            } else {
                right
            }
        })
    }

    fn goes_round_to_1(case: &Case) -> Outcome {
        with_next_columns(case, |right, read| if read.is_last() { 1 } else { right })
    }

    fn goes_round_at_the_spare(case: &Case) -> Outcome {
        let data = case.geometry.data as usize;
        with_next_columns(case, |right, read| match read.column + 1 {
            next if next == data => 0,
            next if next == read.page => next,
            _ => right,
        })
    }

    fn takes_p_for_0(case: &Case) -> Outcome {
        with_column_addresses(case, |column, page| if column == page { 0 } else { column })
    }

    fn goes_round_from_p(case: &Case) -> Outcome {
        with_next_columns(
            case,
            |right, read| {
                if read.column == read.page {
                    0
                } else {
                    right
                }
            },
        )
    }

    fn goes_round_from_4096(case: &Case) -> Outcome {
        with_next_columns(case, |right, read| match read.column {
            4096 => 0,
            _ => right,
        })
    }

    fn takes_columns_modulo(case: &Case) -> Outcome {
        with_column_addresses(case, |column, page| column % page)
    }

    fn takes_states_modulo(case: &Case) -> Outcome {
        let mut handed_in = true;
        record_by_record(case, model_on, |record, mut before, buffers| {
            handed_in &= before.selected == 1 && before.count > 0;
            if handed_in && answers_from_cache(&before, record) {
                before.column %= buffers.cache.len() as u16;
            }
            model_step(&case.geometry, record, before, buffers)
        })
    }

    fn goes_round_by_03(case: &Case) -> Outcome {
        with_next_columns(case, |right, read| match read.code {
            Some(0x0B) => read.column + 1,
            _ => right,
        })
    }

    fn goes_round_by_0b(case: &Case) -> Outcome {
        with_next_columns(case, |right, read| match read.code {
            Some(0x03) => read.column + 1,
            _ => right,
        })
    }

    fn goes_round_once(case: &Case) -> Outcome {
        let mut rounds = 0;
        with_next_columns(case, |right, read| {
            if read.count == 4 {
                rounds = 0;
            }
            rounds += usize::from(read.is_last());
            if read.is_last() && rounds > 1 {
                read.page
            } else {
                right
            }
        })
    }

    fn goes_round_by_later_answers(case: &Case) -> Outcome {
        with_next_columns(case, |right, read| match read.count {
            4 => read.column + 1,
            _ => right,
        })
    }

    fn goes_round_by_the_first_answer(case: &Case) -> Outcome {
        with_next_columns(case, |right, read| match read.count {
            4 => right,
            _ => read.column + 1,
        })
    }

    fn not_on_the_shortest(case: &Case) -> Outcome {
        with_next_columns(case, |right, read| match read.page {
            1 => read.column + 1,
            _ => right,
        })
    }

    fn not_on_the_longest(case: &Case) -> Outcome {
        with_next_columns(case, |right, read| match read.page {
            4096 => read.column + 1,
            _ => right,
        })
    }

    /// Right in every byte, and wrong in the state between the page's last and its first.
    fn tells_column_p(case: &Case) -> Outcome {
        let mut at_the_end = false;
        let mut outcome = with_changes(case, |before, record, after, buffers| {
            let last = usize::from(before.column) + 1 == buffers.cache.len();
            match record {
                paper::Record::Shift(_) => {
                    at_the_end = last && answers_from_cache(before, record);
                }
                _ => at_the_end &= after.selected == 1,
            }
        });
        if at_the_end {
            outcome.answer.state.column = case.cache.len as u16;
        }
        outcome
    }

    fn moves_by_the_idle_byte(case: &Case) -> Outcome {
        with_changes(case, |before, record, after, _| {
            let reading = before.selected == 1 && before.instruction == 0x03;
            if reading && before.count == 3 && matches!(record, paper::Record::Shift(_)) {
                after.column = 4096.min(before.column + 1);
            }
        })
    }

    fn all_first(case: &Case) -> Outcome {
        on_stepping(case, Stepping::First)
    }

    fn all_second(case: &Case) -> Outcome {
        on_stepping(case, Stepping::Second)
    }

    fn drops_cmp(case: &Case) -> Outcome {
        with_changes(case, |before, record, after, _| {
            if writes_a0(before, record) && !is_locked(before) {
                after.a0 &= !0x02;
            }
        })
    }

    /// It is only stored there: no block is protected by it.
    fn keeps_bit_1(case: &Case) -> Outcome {
        if case.geometry.stepping == Stepping::Second || case.state.a0 & 0x02 != 0 {
            return model(case);
        }
        let mut other = case.clone();
        other.geometry.stepping = Stepping::Second;
        with_protection(&other, |asked| asked.is_protected_plain())
    }

    fn complements_with_0(case: &Case) -> Outcome {
        with_cmp(case, |asked| asked.number() == 0 || asked.is_protected())
    }

    fn complements_with_7(case: &Case) -> Outcome {
        with_cmp(case, |asked| asked.number() != 7 && asked.is_protected())
    }

    fn not_with_1(case: &Case) -> Outcome {
        with_cmp(case, |asked| match asked.number() {
            1 => asked.is_protected_plain(),
            _ => asked.is_protected(),
        })
    }

    fn not_with_6(case: &Case) -> Outcome {
        with_cmp(case, |asked| match asked.number() {
            6 => asked.is_protected_plain(),
            _ => asked.is_protected(),
        })
    }

    fn not_with_none_counted(case: &Case) -> Outcome {
        with_cmp(case, |asked| asked.counted() > 0 && asked.is_protected())
    }

    fn ignores_inv_with_cmp(case: &Case) -> Outcome {
        with_cmp(case, |asked| {
            let a0 = asked.a0 & !0x04;
            Asked { a0, ..*asked }.is_protected()
        })
    }

    fn takes_cmp_for_inv(case: &Case) -> Outcome {
        with_cmp(case, |asked| {
            asked.is_among(asked.counted(), !asked.inverted())
        })
    }

    /// And the other way round.
    fn takes_inv_for_cmp(case: &Case) -> Outcome {
        with_protection(case, |asked| {
            let others = asked.a0 & !0x06;
            let a0 = match asked.stepping {
                Stepping::First => asked.a0,
                Stepping::Second => others | (asked.a0 & 0x02) << 1 | (asked.a0 & 0x04) >> 1,
            };
            Asked { a0, ..*asked }.is_protected()
        })
    }

    fn at_the_wrong_end(case: &Case) -> Outcome {
        with_cmp(case, |asked| match asked.number() {
            0 => false,
            7 => true,
            _ => asked.is_among(asked.blocks - asked.counted(), asked.inverted()),
        })
    }

    fn for_erases_alone(case: &Case) -> Outcome {
        with_cmp(case, |asked| match asked.code {
            0x10 => asked.is_protected_plain(),
            _ => asked.is_protected(),
        })
    }

    fn for_programs_alone(case: &Case) -> Outcome {
        with_cmp(case, |asked| match asked.code {
            0xD8 => asked.is_protected_plain(),
            _ => asked.is_protected(),
        })
    }

    fn rounds_down_with_cmp(case: &Case) -> Outcome {
        with_other_count(case, |asked| {
            asked.blocks - asked.blocks.div_ceil(1 << (7 - asked.number()))
        })
    }

    fn one_more_with_cmp(case: &Case) -> Outcome {
        with_other_count(case, |asked| asked.blocks - asked.counted() + 1)
    }

    fn one_less_with_cmp(case: &Case) -> Outcome {
        with_other_count(case, |asked| asked.blocks - asked.counted() - 1)
    }

    fn all_with_cmp(case: &Case) -> Outcome {
        with_other_count(case, |asked| asked.blocks)
    }

    fn none_with_cmp(case: &Case) -> Outcome {
        with_other_count(case, |_| 0)
    }

    fn keeps_cmp_without_power(case: &Case) -> Outcome {
        with_changes(case, |before, record, after, _| {
            if record == paper::Record::Power {
                after.a0 |= before.a0 & 0x02;
            }
        })
    }

    fn clears_cmp_by_reset(case: &Case) -> Outcome {
        with_changes(case, |before, record, after, _| {
            if resets(before, record) {
                after.a0 &= !0x02;
            }
        })
    }

    fn writes_locked_cmp(case: &Case) -> Outcome {
        let second = case.geometry.stepping == Stepping::Second;
        with_changes(case, |before, record, after, _| {
            if second && writes_a0(before, record) && is_locked(before) {
                after.a0 = before.a0 & !0x02 | before.second & 0x02;
            }
        })
    }

    fn reads_no_cmp(case: &Case) -> Outcome {
        with_changes(case, |before, record, _, buffers| {
            let reads = (before.selected, before.instruction, before.first) == (1, 0x0F, 0xA0);
            if reads && before.count >= 2 && matches!(record, paper::Record::Shift(_)) {
                buffers.out[0] &= !0x02;
            }
        })
    }

    fn takes_bit_1(case: &Case) -> Outcome {
        with_bit_taken(case, Stepping::First, 0x02)
    }

    fn takes_bit_0(case: &Case) -> Outcome {
        with_bit_taken(case, Stepping::Second, 0x01)
    }

    fn takes_bit_6(case: &Case) -> Outcome {
        with_bit_taken(case, Stepping::Second, 0x40)
    }

    fn refuses_cmp(case: &Case) -> Outcome {
        match case.state.a0 & 0x02 {
            0 => model(case),
            _ => on_stepping(case, Stepping::First),
        }
    }

    fn stops_where_protected(case: &Case) -> Outcome {
        record_by_record(case, model_on, |record, mut before, buffers| {
            let works = matches!(record, paper::Record::Work(1..)) && matches!(before.job, 2 | 3);
            if works && works_under_cmp(&case.geometry, &before) {
                make_idle(&mut before);
            }
            model_step(&case.geometry, record, before, buffers)
        })
    }

    /// The model on the same part of a stepping.
    fn on_stepping(case: &Case, stepping: Stepping) -> Outcome {
        let mut other = case.clone();
        other.geometry.stepping = stepping;
        model(&other)
    }

    /// The model with another rule of protection: for what a program or an erase asks, A0h has all
    /// blocks protected, or none.
    fn with_protection(case: &Case, is_protected: impl Fn(&Asked) -> bool) -> Outcome {
        record_by_record(case, model_on, |record, mut before, buffers| {
            let asked = Asked::of(&case.geometry, &before, record);
            if let Some(asked) = &asked {
                before.a0 = if is_protected(asked) { 0x38 } else { 0x00 };
            }
            let mut answer = model_step(&case.geometry, record, before, buffers);
            if let Some(asked) = asked {
                answer.state.a0 = asked.a0;
            }
            answer
        })
    }

    /// The same where CMP is 1 on the second stepping.
    fn with_cmp(case: &Case, is_protected: impl Fn(&Asked) -> bool) -> Outcome {
        with_protection(case, |asked| {
            if asked.complemented() {
                is_protected(asked)
            } else {
                asked.is_protected()
            }
        })
    }

    /// The same with another number of blocks that CMP protects, at the right end.
    fn with_other_count(case: &Case, count: impl Fn(&Asked) -> usize) -> Outcome {
        with_cmp(case, |asked| match asked.number() {
            1..=6 => asked.is_among(count(asked), !asked.inverted()),
            _ => asked.is_protected(),
        })
    }

    /// An answer of a cache read.
    struct ReadOut {
        /// The first byte of the transfer; none if it was handed in.
        code: Option<u8>,
        /// The count of bytes before it.
        count: u8,
        /// Its column.
        column: usize,
        /// The bytes of a page.
        page: usize,
    }

    impl ReadOut {
        fn is_last(&self) -> bool {
            self.column + 1 == self.page
        }
    }

    /// The model with another column behind the answers of cache reads; it is given the right one.
    fn with_next_columns(case: &Case, mut next: impl FnMut(usize, ReadOut) -> usize) -> Outcome {
        let mut code = None;
        with_changes(case, |before, record, after, buffers| match record {
            paper::Record::Shift(_) if answers_from_cache(before, record) => {
                let read = ReadOut {
                    code,
                    count: before.count,
                    column: before.column.into(),
                    page: buffers.cache.len(),
                };
                after.column = next(after.column.into(), read).min(4096) as u16;
            }
            paper::Record::Shift(byte) if (before.selected, before.count) == (1, 0) => {
                code = Some(byte);
            }
            _ => {}
        })
    }

    /// The model with other columns than those that the two bytes of a cache read name.
    fn with_column_addresses(case: &Case, column: impl Fn(usize, usize) -> usize) -> Outcome {
        with_changes(case, |before, record, after, buffers| {
            let reading = before.selected == 1 && before.instruction == 0x03;
            if reading && before.count == 2 && matches!(record, paper::Record::Shift(_)) {
                after.column = column(after.column.into(), buffers.cache.len()) as u16;
            }
        })
    }

    fn is_resetting(state: &State) -> bool {
        state.job == Job::Reset.number()
    }

    fn make_idle(state: &mut State) {
        (state.job, state.row, state.units) = (0, 0, 0);
        state.c0 &= !0x01;
    }

    /// On a stepping, a bit of A0h that is handed in is dropped, and so the state is not refused for it.
    fn with_bit_taken(case: &Case, stepping: Stepping, bit: u8) -> Outcome {
        let here = case.geometry.stepping == stepping;
        with_state_taken(case, |state| {
            if here {
                state.a0 &= !bit;
            }
        })
    }

    /// The model on a state that was changed, if that is sound; else the state is refused as it was.
    fn with_state_taken(case: &Case, change: impl FnOnce(&mut State)) -> Outcome {
        let mut other = case.clone();
        change(&mut other.state);
        let outcome = model(&other);
        match outcome.answer.refusal {
            Some(refusal) if refusal <= Refusal::BadState => model(case),
            _ => outcome,
        }
    }

    /// The model in steps, with the state behind each record changed, or the memory. The change is
    /// shown the state before the record, the record and the state behind it.
    fn with_changes(
        case: &Case,
        mut change: impl FnMut(&State, paper::Record, &mut State, &mut Buffers),
    ) -> Outcome {
        record_by_record(case, model_on, |record, before, buffers| {
            let mut answer = model_step(&case.geometry, record, before, buffers);
            if answer.refusal.is_none() {
                change(&before, record, &mut answer.state, buffers);
            }
            answer
        })
    }

    /// The model on a log whose records were changed, each to one of the same kind.
    fn on_other_log(
        case: &Case,
        mut change: impl FnMut(paper::Record) -> paper::Record,
    ) -> Outcome {
        let mut other = case.clone();
        let mut place = 0;
        while let Ok(Some((record, next))) = paper::next(&case.log, place) {
            paper::write(change(record), &mut other.log, place).expect("the same length");
            place = next;
        }
        model(&other)
    }
}

/// That the comparison and the generator leave nothing out.
mod completeness {
    use super::*;

    #[test]
    fn each_field_is_compared() {
        type Change = fn(&mut Outcome);
        const CHANGES: &[(&str, Change)] = &[
            ("refusal", |o| o.answer.refusal = Some(Refusal::BadKind)),
            ("records", |o| o.answer.records += 1),
            ("used", |o| o.answer.used += 1),
            ("written", |o| o.answer.written += 1),
            ("state.a0", |o| o.answer.state.a0 ^= 1),
            ("state.b0", |o| o.answer.state.b0 ^= 1),
            ("state.c0", |o| o.answer.state.c0 ^= 1),
            ("state.d0", |o| o.answer.state.d0 ^= 1),
            ("state.wp", |o| o.answer.state.wp ^= 1),
            ("state.selected", |o| o.answer.state.selected ^= 1),
            ("state.count", |o| o.answer.state.count ^= 1),
            ("state.first", |o| o.answer.state.first ^= 1),
            ("state.second", |o| o.answer.state.second ^= 1),
            ("state.third", |o| o.answer.state.third ^= 1),
            ("state.job", |o| o.answer.state.job ^= 1),
            ("state.instruction", |o| o.answer.state.instruction ^= 1),
            ("state.column", |o| o.answer.state.column ^= 1),
            ("state.row", |o| o.answer.state.row ^= 1),
            ("state.units", |o| o.answer.state.units ^= 1),
            ("out[5]", |o| o.buffers.out[5] ^= 1),
            ("cache[19]", |o| o.buffers.cache[19] ^= 1),
            ("counts[31]", |o| o.buffers.counts[31] ^= 1),
            ("cells[639]", |o| o.buffers.cells[639] ^= 1),
        ];
        let right = model(&Case {
            room: 6,
            ..Case::bench(&[1, 2, 0x0F, 3])
        });
        assert_eq!(difference(&right, &right), None);
        for (name, change) in CHANGES {
            let mut left = right.clone();
            change(&mut left);
            let found = difference(&left, &right).expect(name);
            assert!(found.starts_with(&format!("{name}:")), "{name}: {found}");
        }
    }

    #[test]
    fn the_generator_reaches_everything() {
        let mut refusals = [0; 10];
        let mut jobs = [0; 5];
        let mut status = [0; 16];
        let mut instructions = [0; 0x101];
        let (mut changed_cells, mut counted, mut past_room) = (0, 0, 0);
        for number in 0..20_000 {
            let case = Generator::new(seed() ^ 8, number).case();
            let outcome = model(&case);
            let Answer { state, refusal, .. } = outcome.answer;
            refusals[usize::from(refusal.map_or(0, Refusal::number))] += 1;
            if refusal.is_none_or(|refusal| refusal > Refusal::BadState) {
                jobs[usize::from(state.job)] += 1;
                status[usize::from(state.c0)] += 1;
                instructions[usize::from(state.instruction)] += 1;
            }
            changed_cells += u32::from(outcome.buffers.cells != case.cells.bytes());
            counted += u32::from(outcome.buffers.counts != case.counts.bytes());
            past_room += u32::from(case.room > outcome.answer.written);
        }
        assert!(refusals.iter().all(|&seen| seen > 20), "{refusals:?}");
        assert!(jobs.iter().all(|&seen| seen > 200), "{jobs:?}");
        // E_FAIL and P_FAIL are only together where the state was handed in so.
        assert!(status.iter().all(|&seen| seen > 20), "{status:?}");
        for code in support::generate::CODES {
            assert!(instructions[usize::from(code)] > 20, "{code:02X}h");
        }
        assert!(instructions[0x100] > 200);
        let reached = [changed_cells, counted, past_room];
        assert!(reached.iter().all(|&seen| seen > 1500), "{reached:?}");
    }

    /// Logs go on within a reset and behind it, and still get on with their work.
    #[test]
    fn logs_go_on_behind_resets() {
        let mut begun = [0; 4];
        let mut stopped = [0; 5];
        // Transfers begun within a reset, by the units that it has done.
        let mut within = [0; 8];
        let (mut begun_behind, mut power_within, mut ended_within) = (0, 0, 0);
        for number in 0..20_000 {
            let case = Generator::new(seed() ^ 15, number).case();
            let mut behind = false;
            let outcome = record_by_record(&case, model_on, |record, before, buffers| {
                let answer = model_step(&case.geometry, record, before, buffers);
                let after = &answer.state;
                let resetting = before.job == 4;
                match record {
                    _ if answer.refusal.is_some() => {}
                    paper::Record::Shift(_) if before.selected == 1 && before.count == 0 => {
                        if resetting {
                            within[before.units] += 1;
                        }
                        begun_behind += u32::from(behind);
                    }
                    paper::Record::Deselect if resets(&before, record) => {
                        stopped[usize::from(before.job)] += 1;
                    }
                    paper::Record::Deselect if before.job == 0 && after.job != 0 => {
                        begun[usize::from(after.job)] += 1;
                    }
                    paper::Record::Power => power_within += u32::from(resetting),
                    _ => {}
                }
                behind = after.job == 0 && (behind || resetting);
                answer
            });
            let done = outcome.answer.refusal.is_none();
            ended_within += u32::from(done && outcome.answer.state.job == 4);
        }
        let [_, _, programs, erases] = begun;
        assert!(programs > 1900 && erases > 1900, "{begun:?}");
        assert!(stopped.iter().all(|&seen| seen > 200), "{stopped:?}");
        assert!(within.iter().all(|&seen| seen > 20), "{within:?}");
        let reached = [begun_behind, power_within, ended_within];
        assert!(reached.iter().all(|&seen| seen > 20), "{reached:?}");
    }

    /// Logs read on past the page's end, on short pages and on the longest, and from columns past it.
    #[test]
    fn logs_read_past_the_page() {
        // What an answer of a cache read can be, and more than how many of it are seen.
        const REACHED: [(&str, u32); 22] = [
            ("round on a page of 1", 600),
            ("round on a page of 2", 150),
            ("round on a page of 3", 70),
            ("round on a page of 20", 180),
            ("round on a page of 4,096", 40),
            ("round on another page", 900),
            ("round by 03h", 900),
            ("round by 0Bh", 900),
            ("round in a read that was handed in", 250),
            ("round at the first answer", 600),
            ("round at a later one", 1400),
            ("round for the second time, on a page of 2 or more", 200),
            ("round for the second time, on a page of 200 or more", 5),
            ("round behind a load past the end", 750),
            ("no room behind the page's end", 12),
            ("from column P by its address", 150),
            ("from a later column by its address", 450),
            ("from column 4,095 by its address, past the page", 180),
            ("from column P that was handed in", 80),
            ("from column 4,096 that was handed in", 70),
            (
                "from column 4,096 that was handed in, on a page of 4,096",
                1,
            ),
            ("as the second past the page", 800),
        ];
        let mut seen = BTreeMap::new();
        for number in 0..20_000 {
            let case = Generator::new(seed() ^ 16, number).case();
            let mut saw = |what| *seen.entry(what).or_insert(0) += 1;
            let page = case.cache.len;
            let (mut code, mut rounds, mut past, mut loaded) = (None, 0, 0, false);
            record_by_record(&case, model_on, |record, before, buffers| {
                let answer = model_step(&case.geometry, record, before, buffers);
                let paper::Record::Shift(byte) = record else {
                    if before.selected != answer.state.selected {
                        (code, rounds, past) = (Some(0), 0, 0);
                    }
                    return answer;
                };
                let column = usize::from(before.column);
                if before.selected == 1 && before.count == 0 {
                    code = Some(byte);
                }
                if before.selected == 1 && before.count >= 3 && column >= page {
                    loaded |= matches!(before.instruction, 0x02 | 0x84);
                }
                if !answers_from_cache(&before, record) {
                    return answer;
                }
                if answer.refusal.is_some() {
                    if rounds > 0 {
                        saw("no room behind the page's end");
                    }
                } else if column + 1 == page {
                    rounds += 1;
                    saw(match page {
                        1 => "round on a page of 1",
                        2 => "round on a page of 2",
                        3 => "round on a page of 3",
                        20 => "round on a page of 20",
                        4096 => "round on a page of 4,096",
                        _ => "round on another page",
                    });
                    saw(match code {
                        Some(0x0B) => "round by 0Bh",
                        Some(_) => "round by 03h",
                        None => "round in a read that was handed in",
                    });
                    saw(match before.count {
                        4 => "round at the first answer",
                        _ => "round at a later one",
                    });
                    if rounds == 2 && page >= 2 {
                        saw("round for the second time, on a page of 2 or more");
                    }
                    if rounds == 2 && page >= 200 {
                        saw("round for the second time, on a page of 200 or more");
                    }
                    if loaded {
                        saw("round behind a load past the end");
                    }
                } else if column >= page {
                    past += 1;
                    if past == 2 {
                        saw("as the second past the page");
                    }
                    match (code, column, past) {
                        (Some(_), 4095, 1) => {
                            saw("from column 4,095 by its address, past the page")
                        }
                        (Some(_), _, 1) if column == page => saw("from column P by its address"),
                        (Some(_), _, 1) => saw("from a later column by its address"),
                        (None, 4096, 1) if page == 4096 => {
                            saw("from column 4,096 that was handed in, on a page of 4,096")
                        }
                        (None, 4096, 1) => saw("from column 4,096 that was handed in"),
                        (None, _, 1) if column == page => saw("from column P that was handed in"),
                        _ => {}
                    }
                }
                answer
            });
        }
        for (what, least) in REACHED {
            let seen = seen.get(what).copied().unwrap_or(0);
            assert!(seen > least, "{what}: {seen}");
        }
    }

    /// Programs and erases meet CMP with every BP number, from both ends, at the borders and where no
    /// block is counted off; logs set and clear it; states have it, and bits that are in no mask.
    #[test]
    fn logs_meet_cmp() {
        // What can be met, and more than how often it is.
        const REACHED: [(&str, u32); 37] = [
            ("a part of the first stepping", 9000),
            ("a part of the second stepping", 9000),
            ("CMP handed in, taken", 800),
            ("bit 1 handed in on the first stepping, refused", 4),
            ("bit 0 handed in on the second stepping, refused", 4),
            ("bit 6 handed in on the second stepping, refused", 4),
            ("CMP set by a log", 500),
            ("CMP cleared by a log", 300),
            ("CMP locked at 0", 20),
            ("CMP locked at 1", 90),
            ("CMP read back", 200),
            ("bit 1 written on the first stepping", 700),
            ("power lost with CMP", 80),
            ("reset with CMP", 450),
            ("work in a block that CMP protects", 70),
            ("erase begun, INV 0", 10),
            ("erase begun, INV 1", 10),
            ("erase refused, INV 0", 10),
            ("erase refused, INV 1", 10),
            ("erase refused, none counted off, INV 0", 70),
            ("erase refused, none counted off, INV 1", 70),
            ("erase begun, b 0", 30),
            ("erase refused, b 7", 45),
            ("erase begun at the border, of 32 blocks or more", 0),
            ("erase refused at the border, of 32 blocks or more", 0),
            ("erase refused for its row", 40),
            ("program begun, INV 0", 15),
            ("program begun, INV 1", 15),
            ("program refused, INV 0", 15),
            ("program refused, INV 1", 15),
            ("program refused, none counted off, INV 0", 80),
            ("program refused, none counted off, INV 1", 80),
            ("program begun, b 0", 35),
            ("program refused, b 7", 55),
            ("program begun at the border, of 32 blocks or more", 2),
            ("program refused at the border, of 32 blocks or more", 1),
            ("program refused for its row", 40),
        ];
        let mut seen = BTreeMap::new();
        // On the second stepping, by BP number, INV and CMP.
        let mut asked_with = [[[0; 2]; 2]; 8];
        for number in 0..20_000 {
            let case = Generator::new(seed() ^ 17, number).case();
            let mut saw = |what: &str| *seen.entry(what.to_string()).or_insert(0) += 1;
            let second = case.geometry.stepping == Stepping::Second;
            saw(match second {
                false => "a part of the first stepping",
                true => "a part of the second stepping",
            });
            let outcome = record_by_record(&case, model_on, |record, before, buffers| {
                let cmp = before.a0 & 0x02 != 0;
                let asked = Asked::of(&case.geometry, &before, record);
                let full = |asked: Asked| asked.code == 0x10 && buffers.counts[asked.row] >= 4;
                let full = asked.is_some_and(full);
                let answer = model_step(&case.geometry, record, before, buffers);
                if answer.refusal.is_some() {
                    return answer;
                }
                if writes_a0(&before, record) {
                    let one = before.second & 0x02 != 0;
                    match (second, is_locked(&before), cmp, one) {
                        (false, _, _, true) => saw("bit 1 written on the first stepping"),
                        (true, false, false, true) => saw("CMP set by a log"),
                        (true, false, true, false) => saw("CMP cleared by a log"),
                        (true, true, false, true) => saw("CMP locked at 0"),
                        (true, true, true, false) => saw("CMP locked at 1"),
                        _ => {}
                    }
                }
                let works = matches!(record, paper::Record::Work(1..));
                if works && works_under_cmp(&case.geometry, &before) {
                    saw("work in a block that CMP protects");
                }
                if let Some(asked) = asked.filter(|_| second) {
                    let (inv, cmp) = (asked.inverted(), asked.complemented());
                    asked_with[asked.number()][usize::from(inv)][usize::from(cmp)] += 1;
                }
                if !cmp {
                    return answer;
                }
                let reads = (before.selected, before.instruction, before.first) == (1, 0x0F, 0xA0);
                match record {
                    paper::Record::Shift(_) if reads && before.count >= 2 => saw("CMP read back"),
                    paper::Record::Power => saw("power lost with CMP"),
                    _ if resets(&before, record) => saw("reset with CMP"),
                    _ => {}
                }
                let verb = match before.instruction {
                    0x10 => "program",
                    _ => "erase",
                };
                if let Some(asked) = asked.filter(|_| !full) {
                    let refused = answer.state.job == 0;
                    let what = if refused { "refused" } else { "begun" };
                    let inv = u8::from(asked.inverted());
                    saw(&match (asked.number(), asked.counted()) {
                        (b @ (0 | 7), _) => format!("{verb} {what}, b {b}"),
                        (_, 0) => format!("{verb} {what}, none counted off, INV {inv}"),
                        _ => format!("{verb} {what}, INV {inv}"),
                    });
                    let bordered = (1..=6).contains(&asked.number()) && asked.counted() > 0;
                    if bordered && asked.blocks >= 32 && asked.is_at_the_border() {
                        saw(&format!(
                            "{verb} {what} at the border, of 32 blocks or more"
                        ));
                    }
                } else if asked.is_none() && answer.state.c0 & !before.c0 & 0x0C != 0 {
                    saw(&format!("{verb} refused for its row"));
                }
                answer
            });
            let refused = outcome.answer.refusal == Some(Refusal::BadState);
            let others = State {
                a0: 0x00,
                ..case.state
            };
            let by_a0 = paper::State::from(others).is_sound(&case.geometry.into());
            match (second, case.state.a0 & 0x43) {
                _ if !by_a0 => {}
                (false, 0x02) if refused => saw("bit 1 handed in on the first stepping, refused"),
                (true, 0x01) if refused => saw("bit 0 handed in on the second stepping, refused"),
                (true, 0x40) if refused => saw("bit 6 handed in on the second stepping, refused"),
                (true, 0x02) if outcome.answer.records > 0 => saw("CMP handed in, taken"),
                _ => {}
            }
        }
        for (what, least) in REACHED {
            let seen = seen.get(what).copied().unwrap_or(0);
            assert!(seen > least, "{what}: {seen}");
        }
        let fewest = asked_with.iter().flatten().flatten().min();
        assert!(fewest > Some(&40), "{asked_with:?}");
    }
}
