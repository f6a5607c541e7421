//! Document 01's own examples, each worked out from the paper: its replay, its thirteen cases, the
//! protected blocks as the docs have them, and the errors that look right; and document 02's items 2, a
//! reset that takes time, 6, reading past the page's end, and 7, the second stepping.
//!
//! Each is put to the independent model and to the proved library.

mod support;

use std::fs;
use std::ops::Range;
use std::path::Path;

use sleetanvil::case::{model, model_on, Buffers, Case, Fill, Outcome, Subject};
use sleetanvil::{lent, paper, raw, Answer, Geometry, Job, Operation, Refusal, State, Stepping};
use support::compare::{library, library_on};

const BOTH: [(&str, Subject); 2] = [("paper", model), ("library", library)];

const WORK: u8 = 4;

/// The bench part, idle: nothing protected, WEL set or not.
fn idle(status: u8) -> State {
    State {
        a0: 0,
        c0: status,
        job: 0,
        ..State::power_up()
    }
}

/// A case on the bench part.
fn bench(state: State, log: &[u8]) -> Case {
    Case {
        state,
        ..Case::bench(log)
    }
}

/// Select, the bytes, deselect.
fn transfer(bytes: &[u8]) -> Vec<u8> {
    let shifts = bytes.iter().flat_map(|&byte| [2, byte]);
    [1].into_iter().chain(shifts).chain([3]).collect()
}

fn work(units: u16) -> Vec<u8> {
    let [low, high] = units.to_le_bytes();
    vec![WORK, low, high]
}

/// Run a case on both models, and look at each outcome.
fn on_both(case: &Case, look: impl Fn(&Outcome)) {
    for (name, subject) in BOTH {
        println!("{name}:");
        look(&subject(case));
    }
}

fn status_after(state: State, log: &[u8], expected: u8) {
    on_both(&bench(state, log), |outcome| {
        assert_eq!(outcome.answer.refusal, None);
        assert_eq!(outcome.answer.state.c0, expected);
    });
}

#[test]
fn the_replay() {
    const LOG: [u8; 16] = [
        0x04, 0x13, 0x00, 0x01, 0x02, 0x0F, 0x02, 0xC0, 0x02, 0x00, 0x04, 0x01, 0x00, 0x02, 0x00,
        0x03,
    ];
    const STATUS: [u8; 8] = [1, 1, 1, 1, 1, 0, 0, 0];
    const ENDS: [usize; 8] = [3, 4, 6, 8, 10, 13, 15, 16];
    for (&status, &end) in STATUS.iter().zip(&ENDS) {
        status_after(State::power_up(), &LOG[..end], status);
    }
    on_both(&Case::bench(&LOG), |outcome| {
        let answer = outcome.answer;
        assert_eq!((answer.refusal, answer.records), (None, 8));
        assert_eq!((answer.used, answer.written), (16, 4));
        assert_eq!(outcome.buffers.out[..4], [0xFF, 0xFF, 0x01, 0x00]);
    });
}

/// Whether a program in a block is refused as protected, and an erase of it too.
fn is_protected(geometry: Geometry, a0: u8, block: u16, subject: Subject) -> bool {
    let row = block * geometry.pages as u16;
    let [high, low] = row.to_be_bytes();
    let status = |code| {
        let case = Case {
            state: State { a0, ..idle(0x02) },
            ..Case::power_up(geometry, &transfer(&[code, 0, high, low]))
        };
        subject(&case).answer.state.c0
    };
    match (status(0x10), status(0xD8)) {
        (0x08, 0x04) => true,
        (0x01, 0x01) => false,
        (program, erase) => panic!("status {program:02X}h and {erase:02X}h"),
    }
}

fn protected(geometry: Geometry, a0: u8, expected: &[u16]) {
    for (name, subject) in BOTH {
        let blocks: Vec<u16> = (0..geometry.blocks as u16)
            .filter(|&block| is_protected(geometry, a0, block, subject))
            .collect();
        assert_eq!(blocks, expected, "{name}, A0h {a0:02X}h");
    }
}

/// A part of so many blocks, each of one byte.
fn of_blocks(blocks: u32) -> Geometry {
    Geometry {
        data: 1,
        spare: 0,
        pages: 1,
        blocks,
        ..Geometry::bench()
    }
}

/// As many blocks as the FM25S005BI3 has.
fn blocks_512() -> Geometry {
    of_blocks(512)
}

#[test]
fn case_1_the_top_of_512_blocks() {
    let highest: Vec<u16> = (504..512).collect();
    protected(blocks_512(), 1 << 3, &highest);
}

#[test]
fn case_2_three_and_four_of_eight_blocks() {
    protected(Geometry::bench(), 3 << 3, &[]);
    protected(Geometry::bench(), 4 << 3, &[7]);
    protected(Geometry::bench(), 4 << 3 | 4, &[0]);
}

#[test]
fn case_3_none_and_all() {
    let all: Vec<u16> = (0..8).collect();
    for inverted in [0, 4] {
        protected(Geometry::bench(), inverted, &[]);
        protected(Geometry::bench(), 7 << 3 | inverted, &all);
    }
}

/// The lines of the table in `docs/FOR-DRIVERS.md` that begins with a head, one for each BP number:
/// their cells without the number.
fn drivers_table(head: &str) -> Vec<Vec<String>> {
    let page = Path::new(env!("CARGO_MANIFEST_DIR")).join("../docs/FOR-DRIVERS.md");
    let page = fs::read_to_string(page).expect("the page for drivers");
    let table = page.lines().skip_while(|line| !line.starts_with(head));
    let lines = table.skip(2).take_while(|line| line.starts_with('|'));
    let lines: Vec<_> = lines
        .zip(0..)
        .map(|(line, b)| {
            let line = line.trim_matches('|');
            let mut cells = line.split('|').map(|cell| cell.trim().to_string());
            assert_eq!(cells.next(), Some(format!("{b}")), "{line}");
            cells.collect()
        })
        .collect();
    assert_eq!(lines.len(), 8);
    lines
}

/// The blocks that a cell of such a table names.
fn named(which: &str) -> Vec<u16> {
    match which.split_once(" to ") {
        Some((first, last)) => {
            let number = |text: &str| text.parse::<u16>().expect("the number of a block");
            (number(first)..=number(last)).collect()
        }
        None => {
            assert_eq!(which, "none");
            Vec::new()
        }
    }
}

/// The table of protected blocks in `docs/FOR-DRIVERS.md`: each line of it, on both sides.
#[test]
fn the_table_of_protected_blocks() {
    let table = drivers_table("| b | divided by | blocks protected | A0h with INV 0 | which |");
    for (b, line) in (0..).zip(&table) {
        let [divisor, count, a0, which, inverted_a0, inverted] = &line[..] else {
            panic!("{line:?}");
        };
        let divided = divisor.parse().map_or(0, |divisor: usize| 512 / divisor);
        assert_eq!(*count, divided.to_string(), "{line:?}");
        for (a0, which, inv) in [(a0, which, 0), (inverted_a0, inverted, INV)] {
            assert_eq!(*a0, format!("{:02X}h", b << 3 | inv), "{line:?}");
            let blocks = named(which);
            assert_eq!(*count, blocks.len().to_string(), "{line:?}");
            protected(blocks_512(), b << 3 | inv, &blocks);
        }
    }
}

/// The table of the second stepping there: each value of A0h in it, and its blocks.
#[test]
fn the_table_of_the_second_stepping() {
    let table = drivers_table("| b | CMP 0, INV 0 | CMP 0, INV 1 | CMP 1, INV 0 | CMP 1, INV 1 |");
    let part = blocks_512().with_stepping(Stepping::Second);
    for (b, line) in (0..).zip(&table) {
        assert_eq!(line.len(), 4, "{line:?}");
        for (bits, cell) in [0, INV, CMP, CMP | INV].into_iter().zip(line) {
            let a0 = b << 3 | bits;
            let (value, which) = cell.split_once(": ").expect("a value and its blocks");
            assert_eq!(value, format!("{a0:02X}h"), "{line:?}");
            protected(part, a0, &named(which));
        }
    }
}

/// CMP, the bit that A0h has on the second stepping.
const CMP: u8 = 0x02;
const INV: u8 = 0x04;

/// The bench part of the second stepping.
fn second() -> Geometry {
    Geometry::bench().with_stepping(Stepping::Second)
}

/// A case on the bench part of the second stepping.
fn on_second(state: State, log: &[u8]) -> Case {
    Case {
        state,
        ..Case::power_up(second(), log)
    }
}

/// The protected blocks of a BP number, from 0 to 7: plain, with INV, with CMP, with both.
type Protected = [[Range<u16>; 4]; 8];

/// Which blocks are protected on parts of some numbers of blocks, worked out by hand from the words of
/// documents 01 and 02.
const BORDERS: [(u32, Protected); 5] = [
    (
        16,
        [
            [0..0, 0..0, 0..0, 0..0],
            [0..0, 0..0, 0..16, 0..16],
            [0..0, 0..0, 0..16, 0..16],
            [15..16, 0..1, 0..15, 1..16],
            [14..16, 0..2, 0..14, 2..16],
            [12..16, 0..4, 0..12, 4..16],
            [8..16, 0..8, 0..8, 8..16],
            [0..16, 0..16, 0..16, 0..16],
        ],
    ),
    (
        8,
        [
            [0..0, 0..0, 0..0, 0..0],
            [0..0, 0..0, 0..8, 0..8],
            [0..0, 0..0, 0..8, 0..8],
            [0..0, 0..0, 0..8, 0..8],
            [7..8, 0..1, 0..7, 1..8],
            [6..8, 0..2, 0..6, 2..8],
            [4..8, 0..4, 0..4, 4..8],
            [0..8, 0..8, 0..8, 0..8],
        ],
    ),
    (
        512,
        [
            [0..0, 0..0, 0..0, 0..0],
            [504..512, 0..8, 0..504, 8..512],
            [496..512, 0..16, 0..496, 16..512],
            [480..512, 0..32, 0..480, 32..512],
            [448..512, 0..64, 0..448, 64..512],
            [384..512, 0..128, 0..384, 128..512],
            [256..512, 0..256, 0..256, 256..512],
            [0..512, 0..512, 0..512, 0..512],
        ],
    ),
    (
        1,
        [
            [0..0, 0..0, 0..0, 0..0],
            [0..0, 0..0, 0..1, 0..1],
            [0..0, 0..0, 0..1, 0..1],
            [0..0, 0..0, 0..1, 0..1],
            [0..0, 0..0, 0..1, 0..1],
            [0..0, 0..0, 0..1, 0..1],
            [0..0, 0..0, 0..1, 0..1],
            [0..1, 0..1, 0..1, 0..1],
        ],
    ),
    (
        3,
        [
            [0..0, 0..0, 0..0, 0..0],
            [0..0, 0..0, 0..3, 0..3],
            [0..0, 0..0, 0..3, 0..3],
            [0..0, 0..0, 0..3, 0..3],
            [0..0, 0..0, 0..3, 0..3],
            [0..0, 0..0, 0..3, 0..3],
            [2..3, 0..1, 0..2, 1..3],
            [0..3, 0..3, 0..3, 0..3],
        ],
    ),
];

/// Each line of the table, on the second stepping with and without CMP, on the first without it.
#[test]
fn protected_blocks_of_both_steppings() {
    for (blocks, lines) in BORDERS {
        let first = of_blocks(blocks);
        let second = first.with_stepping(Stepping::Second);
        for (b, line) in (0..).zip(lines) {
            for (bits, range) in [0, INV, CMP, CMP | INV].into_iter().zip(line) {
                let a0 = b << 3 | bits;
                let expected: Vec<u16> = range.collect();
                protected(second, a0, &expected);
                if bits & CMP == 0 {
                    protected(first, a0, &expected);
                    // BRWD protects nothing, on either.
                    protected(first, a0 | 0x80, &expected);
                }
                protected(second, a0 | 0x80, &expected);
            }
        }
    }
}

/// With CMP the blocks are counted whole: 127 / 16 is 7, rounded down, so 120 are protected.
#[test]
fn a_remainder_is_protected_with_cmp() {
    let part = of_blocks(127).with_stepping(Stepping::Second);
    let (lowest, highest): (Vec<u16>, Vec<u16>) = ((0..120).collect(), (7..127).collect());
    protected(part, 3 << 3 | CMP, &lowest);
    protected(part, 3 << 3 | CMP | INV, &highest);
}

/// A row outside the array fails for its row, whatever CMP is.
#[test]
fn a_row_outside_fails_with_cmp_too() {
    for a0 in [
        0x00,
        CMP,
        0x20,
        0x20 | CMP,
        0x24 | CMP,
        0x08 | CMP,
        0x38 | CMP,
    ] {
        for row in [0x20, 0xFF] {
            for (code, status) in [(0x10, 0x08), (0xD8, 0x04)] {
                let state = State { a0, ..idle(0x02) };
                let case = on_second(state, &transfer(&[code, 0, 0, row]));
                on_both(&case, |outcome| {
                    assert_eq!(outcome.answer.refusal, None);
                    assert_eq!(outcome.answer.state.c0, status, "A0h {a0:02X}h, row {row}");
                });
            }
        }
    }
}

/// The mask of A0h is BCh on the first stepping and BEh on the second; what is written is read back.
#[test]
fn a0_through_the_mask_of_its_stepping() {
    for (value, by_first, by_second) in [
        (0xFF, 0xBC, 0xBE),
        (0x00, 0x00, 0x00),
        (0x02, 0x00, 0x02),
        (0x3A, 0x38, 0x3A),
        (0x41, 0x00, 0x00),
        (0x43, 0x00, 0x02),
        (0xBE, 0xBC, 0xBE),
        (0xFD, 0xBC, 0xBC),
    ] {
        let log = [
            transfer(&[0x1F, 0xA0, value]),
            transfer(&[0x0F, 0xA0, 0x00, 0x00]),
        ]
        .concat();
        let parts = [(Geometry::bench(), by_first), (second(), by_second)];
        for (geometry, expected) in parts {
            let case = Case {
                state: idle(0x00),
                ..Case::power_up(geometry, &log)
            };
            on_both(&case, |outcome| {
                assert_eq!(outcome.answer.state.a0, expected, "{value:02X}h");
                assert_eq!(outcome.buffers.out[5..7], [expected; 2], "{value:02X}h");
            });
        }
    }
}

/// The other registers have the same masks on both steppings.
#[test]
fn other_masks_do_not_depend_on_the_stepping() {
    let set = |address| transfer(&[0x1F, address, 0xFF]);
    let log = [set(0xB0), set(0xC0), set(0xD0), set(0xA1), set(0x20)].concat();
    on_both(&on_second(idle(0x00), &log), |outcome| {
        let State { a0, b0, c0, d0, .. } = outcome.answer.state;
        assert_eq!([a0, b0, c0, d0], [0x00, 0x11, 0x00, 0x60]);
    });
}

/// All values of A0h handed in: bits 6 and 0 are in no mask, bit 1 in that of the second stepping.
#[test]
fn states_with_bits_of_a0() {
    for a0 in 0..=0xFF {
        let state = State { a0, ..idle(0x00) };
        let outside = a0 & 0x41 != 0;
        let cases = [
            (bench(state, &[]), outside || a0 & 0x02 != 0),
            (on_second(state, &[]), outside),
        ];
        for (case, bad) in cases {
            if bad {
                refused(&case, Refusal::BadState);
            } else {
                on_both(&case, |outcome| {
                    assert_eq!(outcome.answer.refusal, None, "{a0:02X}h");
                    assert_eq!(outcome.answer.state, state, "{a0:02X}h");
                });
            }
            let (geometry, part) = (case.geometry, case.geometry.into());
            assert_eq!(paper::State::from(state).is_sound(&part), !bad, "{a0:02X}h");
            assert_eq!(state.is_sound(&geometry), !bad, "{a0:02X}h");
        }
    }
}

/// The power-up value is 38h on both, so a loss of power clears CMP.
#[test]
fn power_loss_clears_cmp() {
    let state = State {
        a0: 0xBE,
        ..idle(0x02)
    };
    for wp in [0, 1] {
        let case = on_second(State { wp, ..state }, &[6]);
        on_both(&case, |outcome| {
            let power_up = State::power_up();
            assert_eq!(outcome.answer.state, State { wp, ..power_up });
        });
    }
    assert_eq!(State::power_up().a0, 0x38);
}

/// A reset leaves A0h, and with it CMP, within its units and behind them.
#[test]
fn a_reset_leaves_cmp() {
    // b 4 of 8 blocks: with CMP block 7 alone is open.
    let a0 = 0x20 | CMP;
    let state = State { a0, ..idle(0x02) };
    for units in [0, 7, 8] {
        let log = [transfer(&[0xFF]), work(units)].concat();
        on_both(&on_second(state, &log), |outcome| {
            assert_eq!(outcome.answer.state.a0, a0);
        });
    }
    for (row, status) in [(0x1B, 0x04), (0x1C, 0x01)] {
        let log = [transfer(&[0xFF]), work(8), transfer(&[0xD8, 0, 0, row])].concat();
        on_both(&on_second(state, &log), |outcome| {
            assert_eq!(outcome.answer.state.c0, status, "row {row}");
        });
    }
}

/// BRWD and a low WP# lock CMP with the rest of A0h, whether it is 0 or 1.
#[test]
fn brwd_locks_cmp() {
    for (before, value, locked, open) in [
        (0xA2, 0xA0, 0xA2, 0xA0),
        (0xA0, 0xA2, 0xA0, 0xA2),
        (0xBE, 0x00, 0xBE, 0x00),
        (0x22, 0x20, 0x20, 0x20),
        (0x20, 0x22, 0x22, 0x22),
    ] {
        for (wp, expected) in [(0, locked), (1, open)] {
            let state = State {
                a0: before,
                wp,
                ..idle(0x00)
            };
            let case = on_second(state, &transfer(&[0x1F, 0xA0, value]));
            on_both(&case, |outcome| {
                assert_eq!(outcome.answer.state.a0, expected, "{before:02X}h, WP# {wp}");
            });
        }
    }
}

/// An operation that has begun goes on, in a block that A0h protects too: a write of A0h is ignored
/// while it does, and one that was handed in is not asked about its block.
#[test]
fn an_operation_goes_on_whatever_cmp_is() {
    let write = transfer(&[0x1F, 0xA0, 0x20 | CMP]);
    let open = State {
        a0: 0x20,
        ..idle(0x02)
    };
    // Block 1 is open with b 4, and protected with CMP.
    let begun = [transfer(&[0xD8, 0, 0, 5]), work(30), write.clone()].concat();
    let ended = [&begun[..], &work(50), &write].concat();
    for (log, a0, status, cells) in [(begun, 0x20, 0x01, 80..110), (ended, 0x22, 0x00, 80..160)] {
        let case = Case {
            cells: Fill::constant(640, 0x11),
            ..on_second(open, &log)
        };
        on_both(&case, |outcome| {
            let State { a0: after, c0, .. } = outcome.answer.state;
            assert_eq!((after, c0), (a0, status));
            erased_alone(&outcome.buffers.cells, cells.clone());
        });
    }
    let handed_in = State {
        a0: 0x20 | CMP,
        c0: 0x01,
        job: 3,
        row: 5,
        units: 30,
        ..idle(0x00)
    };
    let case = Case {
        cells: Fill::constant(640, 0x11),
        ..on_second(handed_in, &work(50))
    };
    on_both(&case, |outcome| {
        assert_eq!(outcome.answer.state.c0, 0x00);
        erased_alone(&outcome.buffers.cells, 110..160);
    });
}

/// Cells of 11h, of which a range became FFh.
fn erased_alone(cells: &[u8], range: Range<usize>) {
    for (place, &cell) in cells.iter().enumerate() {
        let byte = if range.contains(&place) { 0xFF } else { 0x11 };
        assert_eq!(cell, byte, "cell {place}");
    }
}

/// On the first stepping a log that writes bit 1 does what it does without.
#[test]
fn the_first_stepping_has_no_cmp() {
    for b in 0..8 {
        for inv in [0, INV] {
            let log = |bit| {
                let mut log = transfer(&[0x1F, 0xA0, b << 3 | inv | bit]);
                for block in 0..8 {
                    log.extend(transfer(&[0x06]));
                    log.extend(transfer(&[0xD8, 0, 0, 4 * block]));
                    log.extend(transfer(&[0x0F, 0xC0, 0x00]));
                    log.extend(work(80));
                }
                log
            };
            for (name, subject) in BOTH {
                let with = subject(&bench(idle(0x00), &log(CMP)));
                let without = subject(&bench(idle(0x00), &log(0)));
                assert_eq!(with, without, "{name}, b {b}");
                assert_eq!(with.answer.state.a0, b << 3 | inv, "{name}");
            }
        }
    }
}

#[test]
fn case_4_a_program_is_an_and() {
    let log = [transfer(&[0x10, 0, 0, 5]), work(20)].concat();
    let case = Case {
        cells: Fill::constant(640, 0xA5),
        cache: Fill::constant(20, 0x0F),
        ..bench(idle(0x02), &log)
    };
    on_both(&case, |outcome| {
        let cells = &outcome.buffers.cells;
        assert_eq!(cells[100..120], [0x05; 20]);
        assert!(cells[..100]
            .iter()
            .chain(&cells[120..])
            .all(|&cell| cell == 0xA5));
        assert_eq!(outcome.buffers.counts[5], 1);
        assert_eq!(outcome.answer.state.c0, 0x00);
    });
}

#[test]
fn case_5_no_program_without_wel() {
    status_after(idle(0x00), &transfer(&[0x10, 0, 0, 5]), 0x00);
}

#[test]
fn case_6_no_program_of_a_protected_block() {
    let state = State {
        a0: 0x38,
        ..idle(0x02)
    };
    status_after(state, &transfer(&[0x10, 0, 0, 5]), 0x08);
}

#[test]
fn case_7_the_fifth_program() {
    let program = [transfer(&[0x06]), transfer(&[0x10, 0, 0, 7]), work(20)].concat();
    for (programs, status) in [(4, 0x00), (5, 0x08), (6, 0x08)] {
        on_both(&bench(idle(0x00), &program.repeat(programs)), |outcome| {
            assert_eq!(outcome.answer.state.c0, status);
            assert_eq!(outcome.buffers.counts[7], 4);
        });
    }
}

#[test]
fn case_8_rows_31_and_32() {
    let cells = Fill::counting(640, 3, 7);
    let read = |row| Case {
        cells,
        cache: Fill::constant(20, 0x00),
        ..bench(
            idle(0x00),
            &[transfer(&[0x13, 0, 0, row]), work(20)].concat(),
        )
    };
    on_both(&read(31), |outcome| {
        assert_eq!(outcome.buffers.cache, cells.bytes()[620..]);
    });
    on_both(&read(32), |outcome| {
        assert_eq!(outcome.buffers.cache, [0xFF; 20]);
    });
}

#[test]
fn case_9_wel_with_a_byte_too_many() {
    status_after(idle(0x00), &transfer(&[0x06, 0x00]), 0x00);
    status_after(idle(0x00), &transfer(&[0x06]), 0x02);
}

#[test]
fn case_10_a0_through_its_mask() {
    let case = bench(idle(0x00), &transfer(&[0x1F, 0xA0, 0xFF]));
    on_both(&case, |outcome| {
        assert_eq!(outcome.answer.state.a0, 0xBC);
    });
}

#[test]
fn case_11_power_up_takes_20_units() {
    status_after(State::power_up(), &work(19), 0x01);
    status_after(State::power_up(), &work(20), 0x00);
}

#[test]
fn case_12_an_erase() {
    let log = [transfer(&[0xD8, 0, 0, 5]), work(80)].concat();
    erased(&log, 80..160);
}

#[test]
fn case_13_an_erase_cut_by_reset() {
    let log = [
        transfer(&[0xD8, 0, 0, 5]),
        work(30),
        transfer(&[0xFF]),
        work(80),
    ]
    .concat();
    erased(&log, 80..110);
}

fn erased(log: &[u8], expected: Range<usize>) {
    let case = Case {
        cells: Fill::constant(640, 0x11),
        counts: Fill::constant(32, 3),
        ..bench(idle(0x02), log)
    };
    on_both(&case, |outcome| {
        erased_alone(&outcome.buffers.cells, expected.clone());
        for (row, &count) in outcome.buffers.counts.iter().enumerate() {
            let programs = if (4..8).contains(&row) { 0 } else { 3 };
            assert_eq!(count, programs, "row {row}");
        }
        assert_eq!(outcome.answer.state.c0, 0x00);
        assert_eq!(outcome.answer.state.operation(), None);
    });
}

#[test]
fn oip_drops_with_the_last_unit() {
    let read = transfer(&[0x13, 0, 0, 1]);
    for (units, status) in [(0, 0x01), (1, 0x01), (19, 0x01), (20, 0x00)] {
        let log = [read.clone(), work(units)].concat();
        status_after(idle(0x00), &log, status);
    }
}

#[test]
fn a_zero_stays_a_zero() {
    let log = [transfer(&[0x10, 0, 0, 0]), work(20)].concat();
    let case = Case {
        cells: Fill::constant(640, 0x00),
        cache: Fill::constant(20, 0xFF),
        ..bench(idle(0x02), &log)
    };
    on_both(&case, |outcome| {
        assert_eq!(outcome.buffers.cells, [0x00; 640]);
    });
}

#[test]
fn reset_leaves_wel() {
    let reset = transfer(&[0xFF]);
    status_after(idle(0x0E), &reset, 0x03);
    status_after(idle(0x0E), &[reset, work(8)].concat(), 0x02);
}

/// Parts whose pages have fewer bytes than a reset has units, as many, and more.
fn short_and_long_pages() -> [Geometry; 5] {
    [1, 7, 8, 20, 4096].map(|data| Geometry {
        data,
        spare: 0,
        pages: 2,
        blocks: 1,
        ..Geometry::bench()
    })
}

/// A reset in progress, with so many of its units done.
fn resetting(units: usize) -> State {
    State {
        c0: 0x01,
        job: 4,
        units,
        ..idle(0x00)
    }
}

#[test]
fn a_reset_takes_8_units() {
    for geometry in short_and_long_pages() {
        for units in [0, 1, 7, 8, 9, 65_535] {
            let case = Case {
                state: idle(0x00),
                cells: Fill::counting(geometry.cells_len(), 3, 7),
                cache: Fill::constant(geometry.cache_len(), 0x5A),
                counts: Fill::constant(geometry.counts_len(), 3),
                ..Case::power_up(geometry, &[transfer(&[0xFF]), work(units)].concat())
            };
            let state = if units < 8 {
                resetting(units.into())
            } else {
                idle(0x00)
            };
            on_both(&case, |outcome| {
                assert_eq!(outcome.answer.refusal, None);
                assert_eq!(outcome.answer.state, state, "{geometry:?}");
                let mut buffers = case.buffers();
                buffers.out[0] = 0xFF;
                assert_eq!(outcome.buffers, buffers, "{geometry:?}");
            });
        }
    }
}

#[test]
fn a_reset_is_told_as_an_operation() {
    let reset = Operation {
        job: Job::Reset,
        row: 0,
        units: 0,
    };
    for code in [0x13, 0x10, 0xD8] {
        let log = [transfer(&[code, 0, 0, 5]), work(3), transfer(&[0xFF])].concat();
        on_both(&bench(idle(0x02), &log), |outcome| {
            assert_eq!(outcome.answer.state.operation(), Some(reset), "{code:02X}h");
        });
    }
    for geometry in short_and_long_pages() {
        let part = geometry.into();
        assert_eq!(paper::operation_length(&part, 4), 8);
        assert_eq!(raw::operation_length(geometry, 4), 8);
        for units in [0, 1, 7] {
            let state = resetting(units);
            assert_eq!(paper::units_left(&part, state.into()), 8 - units);
            assert_eq!(state.units_left(&geometry), 8 - units);
        }
    }
    let unsound = Geometry {
        data: 0,
        ..Geometry::bench()
    };
    assert_eq!(paper::operation_length(&unsound.into(), 4), 0);
    assert_eq!(raw::operation_length(unsound, 4), 0);
    assert_eq!(paper::units_left(&unsound.into(), resetting(7).into()), 0);
    assert_eq!(resetting(7).units_left(&unsound), 0);
}

#[test]
fn a_reset_within_a_reset_starts_anew() {
    let first = [transfer(&[0xFF]), work(5)].concat();
    for (units, state) in [
        (0, resetting(0)),
        (3, resetting(3)),
        (7, resetting(7)),
        (8, idle(0x00)),
    ] {
        let log = [&first[..], &transfer(&[0xFF]), &work(units)].concat();
        on_both(&bench(idle(0x00), &log), |outcome| {
            assert_eq!(outcome.answer.state, state);
        });
    }
    let too_long = [&first[..], &transfer(&[0xFF, 0xFF])].concat();
    on_both(&bench(idle(0x00), &too_long), |outcome| {
        assert_eq!(outcome.answer.state, resetting(5));
    });
}

#[test]
fn commands_within_a_reset_are_ignored() {
    let (reset, enable) = (transfer(&[0xFF]), transfer(&[0x06]));
    let ignored = [
        [&reset[..], &enable, &work(8)].concat(),
        [&reset[..], &work(7), &enable, &work(1)].concat(),
        [&reset[..], &[1, 2, 0x06], &work(8), &[3]].concat(),
    ];
    for log in ignored {
        status_after(idle(0x00), &log, 0x00);
    }
    let heard = [
        [&reset[..], &work(8), &enable].concat(),
        [&reset[..], &[1], &work(8), &[2, 0x06, 3]].concat(),
    ];
    for log in heard {
        status_after(idle(0x00), &log, 0x02);
    }
}

#[test]
fn a_reset_clears_the_fail_bits_at_once() {
    for (before, within) in [(0x04, 0x01), (0x08, 0x01), (0x0C, 0x01), (0x0E, 0x03)] {
        status_after(idle(before), &transfer(&[0xFF]), within);
    }
}

#[test]
fn status_and_identity_are_told_within_a_reset() {
    let log = [
        transfer(&[0xFF]),
        transfer(&[0x0F, 0xC0, 0x00]),
        transfer(&[0x9F, 0x00, 0x00, 0x00]),
        work(8),
        transfer(&[0x0F, 0xC0, 0x00]),
    ]
    .concat();
    on_both(&bench(idle(0x02), &log), |outcome| {
        let out = &outcome.buffers.out[1..outcome.answer.written];
        let expected = [0xFF, 0xFF, 0x03, 0xFF, 0xFF, 0x5A, 0x01, 0xFF, 0xFF, 0x02];
        assert_eq!(out, expected);
    });
}

#[test]
fn power_loss_within_a_reset() {
    let log = [&transfer(&[0xFF])[..], &work(5), &[6]].concat();
    on_both(&bench(idle(0x02), &log), |outcome| {
        assert_eq!(outcome.answer.state, State::power_up());
    });
    status_after(idle(0x00), &[&log[..], &work(19)].concat(), 0x01);
    status_after(idle(0x00), &[&log[..], &work(20)].concat(), 0x00);
}

#[test]
fn states_with_a_reset_in_progress() {
    let sound = |state| {
        on_both(&bench(state, &[]), |outcome| {
            assert_eq!(
                (outcome.answer.refusal, outcome.answer.state),
                (None, state)
            );
        });
    };
    let in_a_transfer = |instruction| State {
        selected: 1,
        count: 1,
        instruction,
        ..resetting(3)
    };
    sound(resetting(0));
    sound(resetting(7));
    sound(in_a_transfer(0x0F));

    let without_oip = State {
        c0: 0x00,
        ..resetting(0)
    };
    let with_a_row = State {
        row: 1,
        ..resetting(0)
    };
    for state in [
        resetting(8),
        resetting(usize::MAX),
        in_a_transfer(0x06),
        without_oip,
        with_a_row,
    ] {
        refused(&bench(state, &[]), Refusal::BadState);
    }
    for geometry in short_and_long_pages() {
        for (units, sound) in [(7, true), (8, false)] {
            let state = resetting(units);
            assert_eq!(paper::State::from(state).is_sound(&geometry.into()), sound);
            assert_eq!(state.is_sound(&geometry), sound);
        }
    }
}

/// Demand 3: a reset's own units are busy ones.
#[test]
fn orderly_logs_with_resets() {
    let reset = transfer(&[0xFF]);
    let poll = transfer(&[0x0F, 0xC0, 0x00]);
    let enable = transfer(&[0x06]);
    let cases = [
        (true, [&reset[..], &work(8)].concat()),
        (
            true,
            [&reset[..], &poll, &work(7), &poll, &work(1), &poll].concat(),
        ),
        (
            true,
            [&reset[..], &work(8), &enable, &reset, &work(8)].concat(),
        ),
        (false, reset.clone()),
        (false, [&reset[..], &work(7)].concat()),
        (false, [&reset[..], &work(5), &reset, &work(8)].concat()),
        (false, [&reset[..], &enable, &work(8)].concat()),
        (false, [&reset[..], &work(7), &[6], &work(20)].concat()),
    ];
    let begun = cases.map(|(expected, log)| (idle(0x00), log, expected));
    let within = (resetting(0), work(8), false);
    for (state, log, expected) in begun.into_iter().chain([within]) {
        let case = bench(state, &log);
        let mut buffers = case.buffers();
        let (memory, out) = buffers.lent_to_paper();
        let part = case.geometry.into();
        let (_, judged) = paper::judge(&part, state.into(), &log, memory, out);
        assert_eq!(judged, expected, "paper: {log:02X?}");
        let (mut memory, out) = buffers.lent();
        let (_, judged) = lent::judge(&case.geometry, state, &log, &mut memory, out);
        assert_eq!(judged, expected, "library: {log:02X?}");
    }
}

#[test]
fn busy_is_judged_at_the_first_byte() {
    let within = [&[1, 2, 0x06][..], &work(20), &[3]].concat();
    status_after(State::power_up(), &within, 0x00);
    let before = [&[1][..], &work(20), &[2, 0x06, 3]].concat();
    status_after(State::power_up(), &before, 0x02);
}

#[test]
fn only_02h_fills_the_cache() {
    let load = |code| Case {
        cache: Fill::constant(20, 0x40),
        ..bench(idle(0x00), &transfer(&[code, 0, 5, 0xA1]))
    };
    for (code, rest) in [(0x02, 0xFF), (0x84, 0x40)] {
        on_both(&load(code), |outcome| {
            let mut expected = [rest; 20];
            expected[5] = 0xA1;
            assert_eq!(outcome.buffers.cache, expected);
        });
    }
}

/// Parts of one page: one byte, a few, as the named parts have it, the longest.
fn single_pages() -> [Geometry; 6] {
    [(1, 0), (1, 1), (2, 1), (16, 4), (2048, 128), (4096, 0)].map(|(data, spare)| Geometry {
        data,
        spare,
        pages: 1,
        blocks: 1,
        ..Geometry::bench()
    })
}

/// A case's memory, with a cache register that has no FFh and does not repeat in step with a page.
fn told_apart(case: &Case) -> Buffers {
    Buffers {
        cache: (0..case.cache.len)
            .map(|place| (place % 251) as u8)
            .collect(),
        ..case.buffers()
    }
}

/// A cache read under way: so many bytes were shifted, and this column is the next.
fn reading(count: u8, column: u16) -> State {
    State {
        selected: 1,
        count,
        instruction: 0x03,
        column,
        ..idle(0x00)
    }
}

/// A model on a case, in other memory than the case's own.
type Run = fn(&Case, &mut Buffers) -> Answer;

/// Run a log of shifts on both models; the bytes out, the column behind them, and a memory that is
/// left alone.
fn reads(geometry: Geometry, state: State, log: &[u8], out: &[u8], column: usize) {
    let case = Case {
        state,
        ..Case::power_up(geometry, log)
    };
    let both: [(&str, Run); 2] = [("paper", model_on), ("library", library_on)];
    for (name, run) in both {
        let mut buffers = told_apart(&case);
        let answer = run(&case, &mut buffers);
        let what = format!("{name}, {geometry:?}, {state:?}, {} bytes", out.len());
        assert_eq!(
            (answer.refusal, answer.written),
            (None, out.len()),
            "{what}"
        );
        assert!(buffers.out[..out.len()] == *out, "{what}");
        assert_eq!(usize::from(answer.state.column), column, "{what}");
        buffers.out = case.buffers().out;
        assert!(buffers == told_apart(&case), "{what}");
    }
}

/// The log of a transfer that does not end.
fn begun(bytes: &[u8], more: usize) -> Vec<u8> {
    let mut log = transfer(&[bytes, &vec![0; more]].concat());
    log.pop();
    log
}

/// So many answers from a column on, as the request has them.
fn answers(page: usize, column: usize, count: usize) -> Vec<u8> {
    if column >= page {
        return vec![0xFF; count];
    }
    let columns = (column..column + count).map(|column| column % page);
    columns.map(|column| (column % 251) as u8).collect()
}

#[test]
fn a_cache_read_goes_round() {
    for geometry in single_pages() {
        let page = geometry.cache_len();
        for code in [0x03, 0x0B] {
            for column in [0, page / 2, page.saturating_sub(2), page - 1] {
                let left = page - column;
                for count in [1, left, left + 1, left + page + 1, 4 * page + 3] {
                    let [high, low] = (column as u16).to_be_bytes();
                    let log = begun(&[code, high, low, 0], count);
                    let out = [vec![0xFF; 4], answers(page, column, count)].concat();
                    let next = (column + count) % page;
                    reads(geometry, idle(0x00), &log, &out, next);
                }
            }
        }
    }
}

#[test]
fn a_column_address_past_the_page_answers_ff() {
    for geometry in single_pages() {
        let page = geometry.cache_len();
        for column in [page, page + 1, 2 * page, 4094, 4095] {
            // On the longest page every address is inside.
            if column < page || column > 4095 {
                continue;
            }
            for (code, count) in [(0x03, 1), (0x0B, 2), (0x03, page + 1), (0x0B, 4200)] {
                let [high, low] = (column as u16).to_be_bytes();
                let log = begun(&[code, high, low, 0], count);
                let next = 4096.min(column + count);
                reads(geometry, idle(0x00), &log, &vec![0xFF; 4 + count], next);
            }
        }
    }
}

#[test]
fn a_cache_read_handed_in_goes_on() {
    for geometry in single_pages() {
        let page = geometry.cache_len();
        for column in [0, page - 1, page, page + 1, 4095, 4096] {
            let column = column.min(4096);
            for (handed_in, count) in [(4, 1), (4, 3), (5, 1), (5, 3), (5, page + 2)] {
                let next = if column < page {
                    (column + count) % page
                } else {
                    4096.min(column + count)
                };
                let state = reading(handed_in, column as u16);
                let out = answers(page, column, count);
                reads(geometry, state, &[2, 0].repeat(count), &out, next);
            }
            // The idle byte moves nothing.
            let idle_byte = reading(3, column as u16);
            reads(geometry, idle_byte, &[2, 0], &[0xFF], column);
        }
    }
}

#[test]
fn loads_do_not_go_round() {
    for geometry in single_pages() {
        let page = geometry.cache_len();
        for (code, rest) in [(0x02, 0xFF), (0x84, 0x40)] {
            let column = page - 1;
            let [high, low] = (column as u16).to_be_bytes();
            let load = [&[code, high, low, 0xA1], &vec![0xA2; page + 1][..]].concat();
            let read = [&[0x03, high, low], &vec![0; page + 2][..]].concat();
            let log = [transfer(&load), begun(&read, 0)].concat();
            let case = Case {
                state: idle(0x00),
                cache: Fill::constant(page, 0x40),
                ..Case::power_up(geometry, &log)
            };
            on_both(&case, |outcome| {
                let mut cache = vec![rest; page];
                cache[column] = 0xA1;
                assert_eq!(outcome.buffers.cache, cache, "{code:02X}h, {geometry:?}");
                let last = outcome.answer.written - (page + 1);
                let read_out = &outcome.buffers.out[last..outcome.answer.written];
                let expected = [&[0xA1][..], &cache].concat();
                assert_eq!(read_out, expected, "{code:02X}h, {geometry:?}");
            });
            let not_ended = Case {
                log: begun(&load, 0),
                ..case
            };
            on_both(&not_ended, |outcome| {
                let next = 4096.min(column + page + 2);
                assert_eq!(usize::from(outcome.answer.state.column), next);
            });
        }
    }
}

/// Every call of a transfer goes round as the run of its records does.
#[test]
fn calls_go_round() {
    let geometry = Geometry::bench();
    let part = geometry.into();
    let di = [&[0x0B, 0x00, 0x12], &[0; 48][..]].concat();
    let expected = [vec![0xFF; 4], answers(20, 18, 47)].concat();
    let case = Case {
        state: idle(0x00),
        ..Case::power_up(geometry, &transfer(&di))
    };

    // In one call.
    let (mut first, mut second) = (told_apart(&case), told_apart(&case));
    let (mut memory, out) = first.lent();
    let library = lent::transfer(&geometry, case.state, &di, &mut memory, out);
    let (memory, out) = second.lent_to_paper();
    let paper = paper::transfer(&part, case.state.into(), &di, memory, out).into();
    assert_eq!(library, paper);
    assert_eq!((library.refusal, library.written), (None, 51));
    assert_eq!(first.out[..51], expected);
    assert_eq!(first, second);

    // Judged.
    let (mut memory, out) = first.lent();
    let (library, orderly) = lent::judge(&geometry, case.state, &case.log, &mut memory, out);
    let (memory, out) = second.lent_to_paper();
    let (paper, as_model) = paper::judge(&part, case.state.into(), &case.log, memory, out);
    assert_eq!(library, paper.into());
    assert!(orderly && as_model);
    assert_eq!(first.out[..51], expected);
    assert_eq!(first, second);

    // In pieces that end at the page's end, before it and behind it; then byte by byte, with a look
    // at each before it comes.
    for room in [4, 5, 6, 7, 25, 26, 27, 46, 47, 50] {
        let mut buffers = told_apart(&case);
        let (mut memory, out) = buffers.lent();
        let begun = lent::transfer(&geometry, case.state, &di, &mut memory, &mut out[..room]);
        assert_eq!(begun.refusal, Some(Refusal::NoRoom));
        assert_eq!(usize::from(begun.state.column), (18 + room - 4) % 20);
        let rest = lent::shifts(
            &geometry,
            begun.state,
            &di[room..],
            &mut memory,
            &mut out[room..],
        );
        assert_eq!(rest.refusal, None);
        assert_eq!(out[..51], expected, "{room}");

        out[room..].fill(0xFF);
        let mut state = begun.state;
        for (place, &byte) in di.iter().enumerate().skip(room) {
            let model = paper::peek(&part, state.into(), memory.cache, byte);
            assert_eq!(
                lent::peek(&geometry, state, memory.cache),
                Ok(expected[place])
            );
            assert_eq!(model, Ok(expected[place]));
            state = lent::shift(&geometry, state, byte, &mut memory, &mut out[place..]).state;
        }
        assert_eq!(out[..51], expected, "{room}");
        assert_eq!(state, rest.state);
    }
}

#[test]
fn refusals_in_their_order() {
    let sound = bench(State::power_up(), &[7]);
    let mut case = sound.clone();
    case.state.a0 = 0x40;
    refused(&case, Refusal::BadState);
    case.counts.len -= 1;
    refused(&case, Refusal::BadCounts);
    case.cache.len += 1;
    refused(&case, Refusal::BadCache);
    case.cells.len = 0;
    refused(&case, Refusal::BadCells);
    case.geometry.data = 0;
    refused(&case, Refusal::BadPart);

    refused(&sound, Refusal::BadKind);
    refused(&bench(State::power_up(), &[2]), Refusal::ShortBody);
    refused(&bench(State::power_up(), &[5, 2]), Refusal::BadLevel);
    let no_room = Case {
        room: 0,
        ..bench(State::power_up(), &[2, 0])
    };
    refused(&no_room, Refusal::NoRoom);
}

/// A case of one record that is refused: nothing is done.
fn refused(case: &Case, refusal: Refusal) {
    on_both(case, |outcome| {
        let answer = outcome.answer;
        assert_eq!(answer.refusal, Some(refusal));
        assert_eq!((answer.records, answer.used, answer.written), (0, 0, 0));
        assert_eq!(answer.state, case.state);
        assert_eq!(outcome.buffers, case.buffers());
    });
}
