//! What a call costs: one event per call, one transfer per call, a log judged. The library is called as
//! from C; the paper's model stands behind functions with the same structs by value.

use std::hint::black_box;

use sleetanvil::case::Buffers;
use sleetanvil::raw::{self, RawAnswer};
use sleetanvil::{lent, paper, Answer, Geometry, Log, State};

use super::naive::Naive;
use super::{best, check, idle, load, mixed, read_out, Run, Task, Times, TIMES_ROUND};

const POLL: [u8; 3] = [0x0F, 0xC0, 0x00];

/// A row for each kind of call.
pub fn compare(geometry: &Geometry, buffers: &mut Buffers) {
    let page = geometry.cache_len();
    let load_in = load(0x84, &vec![0x5A; page]);
    let ignored = vec![0x00; page];
    let register = [&POLL[..2], &vec![0; page - 2][..]].concat();
    let mut naive = naive(geometry);

    let times = events(geometry, buffers, &mut naive);
    println!(
        "{}",
        times.row("one event per call, polls", "event", POLL.len() + 2)
    );
    for (name, di) in [
        ("one transfer per call, a poll", &POLL[..]),
        ("one transfer per call, a page read out", &read_out(page)),
        (
            "one transfer per call, 4 pages read out",
            &read_out(TIMES_ROUND * page),
        ),
        ("one transfer per call, a page loaded", &load_in),
        ("one transfer per call, a page ignored", &ignored),
        (
            "one transfer per call, a register read for a page",
            &register,
        ),
    ] {
        check_transfer(geometry, buffers, &mut naive, di);
        let times = transfers(geometry, buffers, &mut naive, di);
        println!("{}", times.row(name, "transfer", 1));
    }
    let times = unheard(geometry, buffers, &mut naive, &ignored);
    println!(
        "{}",
        times.row(
            "one piece per call, a page, the chip not selected",
            "piece",
            1
        )
    );
    let mixed = mixed(geometry);
    let times = judgement(geometry, buffers, &mixed);
    println!(
        "{}",
        times.row("judge, mixed driver log", "record", mixed.count)
    );
}

fn naive(geometry: &Geometry) -> Naive {
    let (pages, blocks) = (geometry.pages as usize, geometry.blocks as usize);
    Naive::new(geometry.cache_len(), pages, blocks, geometry.identity)
}

/// All three answer a transfer alike.
fn check_transfer(geometry: &Geometry, buffers: &mut Buffers, naive: &mut Naive, di: &[u8]) {
    naive.cache().copy_from_slice(&buffers.cache);
    let (mut memory, out) = buffers.lent();
    let library = raw::transfer(*geometry, idle(), di, &mut memory, out);
    assert_eq!((library.refusal, library.written), (0, di.len()));
    let by_library = out[..di.len()].to_vec();
    let model = transfer_by_value(*geometry, idle(), di, buffers);
    assert_eq!(library, model);
    assert_eq!(by_library, buffers.out[..di.len()]);
    naive.transfer(di, &mut buffers.out);
    assert_eq!(by_library, buffers.out[..di.len()]);
    assert_eq!(naive.cache()[..], buffers.cache[..]);
}

/// A poll of the status register, event by event.
fn events(geometry: &Geometry, buffers: &mut Buffers, naive: &mut Naive) -> Times {
    let (mut first, mut second) = (idle(), idle());
    let times = best(
        [
            Box::new(|buffers| {
                let (mut memory, out) = buffers.lent();
                first = raw::select(*geometry, first, &mut memory).state;
                for byte in black_box(POLL) {
                    first = raw::shift(*geometry, first, byte, &mut memory, out).state;
                }
                first = raw::deselect(*geometry, first, &mut memory).state;
            }),
            Box::new(|buffers| {
                second = event_by_value(*geometry, second, &[1], buffers).state;
                for byte in black_box(POLL) {
                    second = event_by_value(*geometry, second, &[2, byte], buffers).state;
                }
                second = event_by_value(*geometry, second, &[3], buffers).state;
            }),
            Box::new(|buffers| {
                naive.select();
                for byte in black_box(POLL) {
                    buffers.out[0] = naive.shift(byte);
                }
                naive.deselect();
            }),
        ],
        buffers,
    );
    assert_eq!(first, second);
    with_naive(times)
}

/// The times of library, model and naive model.
pub fn with_naive([library, model, naive]: [f64; 3]) -> Times {
    Times {
        library,
        model,
        naive: Some(naive),
        limit: None,
    }
}

/// One transfer.
fn transfers(geometry: &Geometry, buffers: &mut Buffers, naive: &mut Naive, di: &[u8]) -> Times {
    let (mut first, mut second) = (idle(), idle());
    let times = best(
        [
            Box::new(|buffers| {
                let (mut memory, out) = buffers.lent();
                first = raw::transfer(*geometry, first, black_box(di), &mut memory, out).state;
            }),
            Box::new(|buffers| {
                second = transfer_by_value(*geometry, second, black_box(di), buffers).state;
            }),
            Box::new(|buffers| naive.transfer(black_box(di), &mut buffers.out)),
        ],
        buffers,
    );
    assert_eq!(first, second);
    with_naive(times)
}

/// One piece of a transfer while the chip is not selected. Each answers FFh alone.
fn unheard(geometry: &Geometry, buffers: &mut Buffers, naive: &mut Naive, di: &[u8]) -> Times {
    let (mut first, mut second) = (idle(), idle());
    buffers.out[..di.len()].fill(0);
    let (mut memory, out) = buffers.lent();
    let library = raw::shifts(*geometry, first, di, &mut memory, out);
    assert_eq!((library.refusal, library.written), (0, di.len()));
    assert!(out[..di.len()].iter().all(|byte| *byte == 0xFF));
    buffers.out[..di.len()].fill(0);
    assert_eq!(library, piece_by_value(*geometry, second, di, buffers));
    assert!(buffers.out[..di.len()].iter().all(|byte| *byte == 0xFF));
    let times = best(
        [
            Box::new(|buffers| {
                let (mut memory, out) = buffers.lent();
                first = raw::shifts(*geometry, first, black_box(di), &mut memory, out).state;
            }),
            Box::new(|buffers| {
                second = piece_by_value(*geometry, second, black_box(di), buffers).state;
            }),
            Box::new(|buffers| {
                for (byte, answer) in black_box(di).iter().zip(&mut buffers.out) {
                    *answer = naive.shift(*byte);
                }
            }),
        ],
        buffers,
    );
    assert_eq!(first, second);
    with_naive(times)
}

/// A log judged.
fn judgement(geometry: &Geometry, buffers: &mut Buffers, task: &Task) -> Times {
    let (log, state) = (&task.log, task.states[0]);
    let runs: [Run; 2] = [
        |log, state, geometry, buffers| judge_library(log, state, geometry, buffers).0,
        |log, state, geometry, buffers| judge_paper(log, state, geometry, buffers).0,
    ];
    check(task, geometry, buffers, runs);
    let (_, orderly) = judge_library(log, &state, geometry, buffers);
    let (_, as_model) = judge_paper(log, &state, geometry, buffers);
    assert_eq!(orderly, as_model);
    let [library, model] = best(
        [
            Box::new(|buffers| {
                let (mut memory, out) = buffers.lent();
                let log = black_box(log).as_bytes();
                black_box(raw::judge(*geometry, state, log, &mut memory, out));
            }),
            Box::new(|buffers| {
                let (memory, out) = buffers.lent_to_paper();
                let log = black_box(log).as_bytes();
                let part = (*geometry).into();
                black_box(paper::judge(&part, state.into(), log, memory, out));
            }),
        ],
        buffers,
    );
    Times {
        library,
        model,
        naive: None,
        limit: None,
    }
}

fn judge_library(
    log: &Log,
    state: &State,
    geometry: &Geometry,
    buffers: &mut Buffers,
) -> (Answer, bool) {
    let (mut memory, out) = buffers.lent();
    lent::judge(geometry, *state, log.as_bytes(), &mut memory, out)
}

fn judge_paper(
    log: &Log,
    state: &State,
    geometry: &Geometry,
    buffers: &mut Buffers,
) -> (Answer, bool) {
    let (memory, out) = buffers.lent_to_paper();
    let (part, state) = ((*geometry).into(), (*state).into());
    let (answer, orderly) = paper::judge(&part, state, log.as_bytes(), memory, out);
    (answer.into(), orderly)
}

/// The paper's model on one event, as the library's functions take and give it.
#[inline(never)]
fn event_by_value(part: Geometry, state: State, log: &[u8], buffers: &mut Buffers) -> RawAnswer {
    let (memory, out) = buffers.lent_to_paper();
    raw_answer(paper::run(&part.into(), state.into(), log, memory, out))
}

/// The same on a transfer.
#[inline(never)]
fn transfer_by_value(part: Geometry, state: State, di: &[u8], buffers: &mut Buffers) -> RawAnswer {
    let (memory, out) = buffers.lent_to_paper();
    raw_answer(paper::transfer(&part.into(), state.into(), di, memory, out))
}

/// The same on a piece of a transfer.
#[inline(never)]
fn piece_by_value(part: Geometry, state: State, di: &[u8], buffers: &mut Buffers) -> RawAnswer {
    let (memory, out) = buffers.lent_to_paper();
    raw_answer(paper::shifts(&part.into(), state.into(), di, memory, out))
}

fn raw_answer(answer: paper::Answer) -> RawAnswer {
    RawAnswer {
        state: answer.state.into(),
        records: answer.records,
        used: answer.used,
        written: answer.written,
        refusal: paper::Refusal::number(answer.refusal),
    }
}
