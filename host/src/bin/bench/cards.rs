//! A log of the card: the security code passes, the counter is written anew, every byte is read,
//! each second one with its protect bit, and power is lost. Each run leaves the card as it was.

use std::hint::black_box;

use sleetanvil::case::Buffers;
use sleetanvil::paper::card;
use sleetanvil::raw::{self, RawCard};

use super::{best, Times};

/// The card's memory, and room for all answers.
#[derive(Clone, PartialEq, Eq, Debug)]
struct Slot {
    cells: [u8; 1024],
    bits: [u8; 128],
    out: [u8; 2048],
}

/// The row of the card.
pub fn compare(buffers: &mut Buffers) {
    let (log, records) = log();
    let mut start = Slot {
        cells: std::array::from_fn(|place| place as u8),
        bits: [0x5F; 128],
        out: [0; 2048],
    };
    (start.cells[1021], start.bits[127]) = (0xFF, 0xFF);
    let (mut first, mut second) = (start.clone(), start.clone());
    check(&log, records, &start);
    let [library, model] = best(
        [
            Box::new(|_| {
                black_box(by_library(black_box(&log), &mut first));
            }),
            Box::new(|_| {
                black_box(by_model(black_box(&log), &mut second));
            }),
        ],
        buffers,
    );
    let times = Times {
        library,
        model,
        naive: None,
        limit: None,
    };
    println!("{}", times.row("log of the card", "record", records));
}

/// Both do the whole log, alike, and leave the card as it was.
fn check(log: &[u8], records: usize, start: &Slot) {
    let (mut first, mut second) = (start.clone(), start.clone());
    let library = by_library(log, &mut first);
    let model = by_model(log, &mut second);
    assert_eq!(library, model);
    assert_eq!((model.refusal, model.stage), (0, 0));
    assert_eq!((model.records, model.used), (records, log.len()));
    assert_eq!(first, second);
    assert_eq!((first.cells, first.bits), (start.cells, start.bits));
    let [.., code, second, bit] = first.out[..model.written] else {
        panic!("too few answers");
    };
    assert_eq!([code, second, bit], [0xFE, 0xFF, 0x01]);
}

fn by_library(log: &[u8], slot: &mut Slot) -> card::Answer {
    let Slot { cells, bits, out } = slot;
    let answer = raw::card_run(RawCard { stage: 0 }, log, cells, bits, out);
    card::Answer {
        records: answer.records,
        used: answer.used,
        written: answer.written,
        stage: answer.card.stage,
        refusal: answer.refusal,
    }
}

fn by_model(log: &[u8], slot: &mut Slot) -> card::Answer {
    let Slot { cells, bits, out } = slot;
    card::run(0, log, cells, bits, out)
}

/// The log, and how many records it has.
fn log() -> (Vec<u8>, usize) {
    let mut log = Vec::new();
    for command in [
        [0xF2, 0xFD, 0xFE],
        [0xCD, 0xFE, 0xFE],
        [0xCD, 0xFF, 0xFF],
        [0xF3, 0xFD, 0xFF],
    ] {
        log.push(0x20);
        log.extend(command);
    }
    for address in 0..1024_u16 {
        let [low, high] = address.to_le_bytes();
        let word = [0x0E, 0x0C][usize::from(low & 1)];
        log.extend([0x20, high << 6 | word, low, 0x00]);
    }
    log.push(0x06);
    let records = 4 + 1024 + 1;
    (log, records)
}
