//! The safe wrapper: devices, logs, keepers, parameter pages and refusals as a Rust program uses
//! them.

use std::collections::HashSet;
use std::error::Error;

use sleetanvil::lent::{self, Memory};
use sleetanvil::page::{self, Sizes};
use sleetanvil::{
    Device, Geometry, Grant, Job, Keeper, Log, Operation, Record, Records, Refusal, State, Stepping,
};

/// A bench part that has done its power-up read and is unlocked.
fn ready() -> Device {
    let mut device = Device::power_up(Geometry::bench()).expect("the bench part is sound");
    device.work(20);
    device.transfer(&[0x1F, 0xA0, 0x00]);
    device
}

#[test]
fn a_page_is_programmed_and_read_back() {
    let mut device = ready();
    device.transfer(&[0x06]);
    device.transfer(&[0x02, 0x00, 0x02, 0xDE, 0xAD]);
    device.transfer(&[0x10, 0x00, 0x00, 0x05]);
    let operation = device.state().operation().expect("a program");
    assert_eq!(
        (operation.job, operation.row, operation.units),
        (Job::Program, 5, 0)
    );
    assert!(device.state().is_busy());
    device.work(20);
    assert_eq!(device.status(), 0x00);
    assert_eq!(device.cells()[102..104], [0xDE, 0xAD]);
    assert_eq!(device.counts()[5], 1);

    device.transfer(&[0x13, 0x00, 0x00, 0x05]);
    device.work(20);
    let out = device.transfer(&[0x03, 0x00, 0x02, 0x00, 0x00, 0x00]);
    assert_eq!(out[4..], [0xDE, 0xAD]);
}

#[test]
fn a_transfer_is_one_call_or_comes_in_pieces() {
    let mut device = ready();
    let mut in_pieces = device.clone();
    let id = [0x9F, 0x00, 0x00, 0x00, 0x00];
    assert_eq!(device.peek(), 0xFF);
    let whole = device.transfer(&id);
    assert_eq!(whole, [0xFF, 0xFF, 0x5A, 0x01, 0xFF]);

    in_pieces.select();
    let mut out = in_pieces.shifts(&id[..2]);
    assert_eq!(in_pieces.peek(), 0x5A);
    out.extend(in_pieces.shifts(&id[2..]));
    in_pieces.deselect();
    assert_eq!(out, whole);
    assert_eq!(in_pieces, device);
}

/// A device of one page of so many bytes, each other than its neighbours in the cache register.
fn of_one_page(bytes: u32) -> Device {
    let geometry = Geometry {
        data: bytes,
        spare: 0,
        pages: 1,
        blocks: 1,
        ..Geometry::bench()
    };
    let mut device = Device::power_up(geometry).expect("sound");
    device.work(bytes.into());
    for (place, byte) in device.cache_mut().iter_mut().enumerate() {
        *byte = (place % 251) as u8;
    }
    device
}

/// A cache read from a column, with so many answers.
fn read_cache(code: u8, column: u16, answers: usize) -> Vec<u8> {
    let [high, low] = column.to_be_bytes();
    [&[code, high, low, 0x00], &vec![0x00; answers][..]].concat()
}

/// Behind the page's end a cache read goes on at column 0: as one call, in pieces, byte by byte and
/// by a log.
#[test]
fn a_cache_read_goes_round() {
    for (bytes, column) in [
        (20, 0),
        (20, 16),
        (20, 19),
        (1, 0),
        (2, 1),
        (2176, 2048),
        (2176, 2175),
        (4096, 4095),
    ] {
        let mut device = of_one_page(bytes);
        let (mut in_pieces, mut by_bytes, mut by_log) =
            (device.clone(), device.clone(), device.clone());
        // To the end, the whole page, and one byte more.
        let (page, first) = (device.cache().to_vec(), usize::from(column));
        let end = page.len() - first;
        let read = read_cache(0x03, column, end + page.len() + 1);
        let answers = [&[0xFF; 4], &page[first..], &page, &page[..1]].concat();
        assert_eq!(device.transfer(&read), answers);

        in_pieces.select();
        let mut out = in_pieces.shifts(&read[..4 + end]);
        assert_eq!((in_pieces.state().column, in_pieces.peek()), (0, page[0]));
        out.extend(in_pieces.shifts(&read[4 + end..]));
        assert_eq!(usize::from(in_pieces.state().column), 1 % page.len());
        in_pieces.deselect();
        assert_eq!(out, answers);

        by_bytes.select();
        for (&byte, &answer) in read.iter().zip(&answers) {
            assert_eq!((by_bytes.peek(), by_bytes.shift(byte)), (answer, answer));
        }
        by_bytes.deselect();

        let mut log = Log::new();
        log.transfer(&read_cache(0x0B, column, end + page.len() + 1));
        assert_eq!(by_log.replay(log.as_bytes()).1, answers);
        assert!([in_pieces, by_bytes, by_log].iter().all(|it| *it == device));
    }
}

/// A column address outside the page is no column of it, however long the read; nor does a load
/// come round.
#[test]
fn outside_the_page_nothing_goes_round() {
    let mut device = of_one_page(20);
    for column in [20, 21, 40, 4095] {
        for code in [0x03, 0x0B] {
            device.select();
            let out = device.shifts(&read_cache(code, column, 4100));
            assert_eq!((out, device.state().column), (vec![0xFF; 4104], 4096));
            device.deselect();
        }
    }
    let mut page = device.cache().to_vec();
    device.transfer(&[0x84, 0x00, 0x12, 0xB1, 0xB2, 0xB3, 0xB4]);
    device.transfer(&[&[0x84, 0x00, 0x14], &[0xC1; 5000][..]].concat());
    page[18..].copy_from_slice(&[0xB1, 0xB2]);
    assert_eq!(device.cache(), page);
    let out = device.transfer(&read_cache(0x03, 18, 4));
    assert_eq!(out[4..], [0xB1, 0xB2, 0x00, 0x01]);

    // On the longest page every address is inside; 4,096 comes by hand alone, and is outside.
    let (geometry, state, cells, cache, counts) = of_one_page(4096).into_parts();
    let state = State {
        selected: 1,
        count: 5,
        instruction: 0x03,
        column: 4096,
        ..state
    };
    let mut device = Device::from_parts(geometry, state, cells, cache, counts).expect("sound");
    assert_eq!(
        (device.peek(), device.shifts(&[0; 3])),
        (0xFF, vec![0xFF; 3])
    );
    assert_eq!(device.state(), &state);
}

#[test]
#[should_panic(expected = "room for a byte out for each in")]
fn a_transfer_needs_room_for_its_bytes() {
    ready().exchange(&[0x9F, 0x00, 0x00], &mut [0; 2]);
}

#[test]
fn work_is_counted_down() {
    let geometry = Geometry::fm25s005bi3();
    assert_eq!(geometry.operation_len(Job::Read), 2176);
    assert_eq!(geometry.operation_len(Job::Program), 2176);
    assert_eq!(geometry.operation_len(Job::Erase), 139_264);
    let mut device = Device::power_up(geometry).expect("sound");
    assert_eq!(device.units_left(), 2176);
    device.work(2175);
    assert_eq!((device.units_left(), device.status()), (1, 0x01));
    device.work(1);
    assert_eq!((device.units_left(), device.status()), (0, 0x00));
    device.transfer(&[0x1F, 0xA0, 0x00]);
    device.transfer(&[0x06]);
    device.transfer(&[0xD8, 0x00, 0x00, 0x00]);
    device.work(139_263);
    assert_eq!(device.units_left(), 1);
    device.work(u64::MAX);
    assert_eq!(device.units_left(), 0);
}

#[test]
fn blank_memory_is_that_of_a_new_device() {
    let geometry = Geometry::bench();
    let (mut cells, mut cache, mut counts) = ([0; 640], [0; 20], [7; 32]);
    let mut memory = Memory {
        cells: &mut cells,
        cache: &mut cache,
        counts: &mut counts,
    };
    assert_eq!(lent::blank(&geometry, &mut memory), Ok(()));
    assert_eq!((cells, cache, counts), ([0xFF; 640], [0xFF; 20], [0; 32]));
}

#[test]
fn a_device_is_taken_apart_and_put_together() {
    let mut device = ready();
    device.transfer(&[0x06]);
    device.cells_mut()[7] = 0x77;
    device.cache_mut()[3] = 0x33;
    device.counts_mut()[2] = 4;
    let copy = device.clone();
    let (geometry, state, cells, cache, counts) = device.into_parts();
    assert_eq!((cells[7], cache[3], counts[2]), (0x77, 0x33, 4));
    let again = Device::from_parts(geometry, state, cells, cache, counts).expect("sound");
    assert_eq!(again, copy);
}

#[test]
fn a_device_is_shown_without_its_bytes() {
    let device = Device::power_up(Geometry::fm25s005bi3()).expect("sound");
    let shown = format!("{device:?}");
    assert!(shown.len() < 1000, "{} bytes", shown.len());
    assert!(shown.contains("71303168 bytes") && shown.contains("c0: 1"));
}

#[test]
fn a_log_is_replayed_with_its_output() {
    let mut log = Log::new();
    log.push(Record::Work(20));
    log.transfer(&[0x9F, 0x00, 0x00, 0x00]);
    let mut bytes = log.as_bytes().to_vec();
    let mut device = Device::power_up(Geometry::bench()).expect("sound");
    let (answer, out) = device.replay(&bytes);
    assert_eq!((answer.refusal, answer.records), (None, 7));
    assert_eq!(out, [0xFF, 0xFF, 0x5A, 0x01]);

    bytes.push(0x09);
    let mut device = Device::power_up(Geometry::bench()).expect("sound");
    let (answer, out) = device.replay(&bytes);
    assert_eq!(
        (answer.refusal, answer.records),
        (Some(Refusal::BadKind), 7)
    );
    assert_eq!(out.len(), 4);
}

#[test]
fn a_protected_device_fails() {
    let mut device = Device::power_up(Geometry::bench()).expect("sound");
    device.work(20);
    for (code, status) in [(0x10, 0x08), (0xD8, 0x04)] {
        device.transfer(&[0x06]);
        assert!(device.state().is_write_enabled());
        device.transfer(&[code, 0x00, 0x00, 0x00]);
        assert_eq!(device.transfer(&[0x0F, 0xC0, 0x00])[2], status);
        assert_eq!(device.state().program_failed(), code == 0x10);
        assert_eq!(device.state().erase_failed(), code == 0xD8);
    }
}

#[test]
fn wp_holds_a_locked_register() {
    let mut device = ready();
    device.transfer(&[0x1F, 0xA0, 0x80]);
    device.level(false);
    device.transfer(&[0x1F, 0xA0, 0x00]);
    assert_eq!(device.state().a0, 0x80);
    device.level(true);
    device.transfer(&[0x1F, 0xA0, 0x00]);
    assert_eq!(device.state().a0, 0x00);
}

/// A part on a stepping, with its power-up read done.
fn idle(geometry: Geometry, stepping: Stepping) -> Device {
    let mut device = Device::power_up(geometry.with_stepping(stepping)).expect("sound");
    device.work(device.units_left() as u64);
    device
}

/// What Get Feature answers of A0h.
fn read_a0(device: &mut Device) -> u8 {
    device.transfer(&[0x0F, 0xA0, 0x00])[2]
}

/// The blocks whose erase fails, and they are those whose first page cannot be programmed.
fn protected(device: &Device) -> Vec<u32> {
    let Geometry { pages, blocks, .. } = *device.geometry();
    let fails = |code, block: u32| {
        let [_, _, high, low] = (block * pages).to_be_bytes();
        let mut device = device.clone();
        device.transfer(&[0x06]);
        device.transfer(&[code, 0x00, high, low]);
        let state = device.state();
        assert!(state.is_busy() != (state.erase_failed() || state.program_failed()));
        !state.is_busy()
    };
    let erase: Vec<_> = (0..blocks).filter(|&block| fails(0xD8, block)).collect();
    let program: Vec<_> = (0..blocks).filter(|&block| fails(0x10, block)).collect();
    assert_eq!(erase, program);
    erase
}

#[test]
fn a_part_names_its_stepping() {
    assert_eq!(Stepping::default(), Stepping::First);
    for part in [Geometry::bench(), Geometry::fm25s005bi3()] {
        assert_eq!(part.stepping, Stepping::First);
        assert_eq!(part.with_stepping(Stepping::First), part);
        let second = part.with_stepping(Stepping::Second);
        assert_eq!(second.stepping, Stepping::Second);
        assert_ne!(second, part);
        assert_eq!(second.with_stepping(Stepping::First), part);
        assert!(second.is_sound());
        assert_eq!(second.cells_len(), part.cells_len());
        assert_eq!(second.cache_len(), part.cache_len());
        assert_eq!(second.counts_len(), part.counts_len());
        for job in [Job::Read, Job::Program, Job::Erase, Job::Reset] {
            assert_eq!(second.operation_len(job), part.operation_len(job));
        }
        // Both have one page, and it names no stepping.
        assert_eq!(copies(&second), copies(&part));
        let sizes = page::read(&copies(&second)).expect("a copy that holds");
        assert_eq!(sizes.geometry(part.identity), part);
    }
    let mut unsound = Geometry::bench().with_stepping(Stepping::Second);
    unsound.blocks = 0;
    assert_eq!(Device::power_up(unsound), Err(Refusal::BadPart));
}

/// On the bench part, by erase and by program: bit 1 of A0h changes nothing on the first stepping,
/// and on the second it is CMP.
#[test]
fn cmp_protects_the_other_blocks() {
    let (none, all): (&[u32], &[u32]) = (&[], &[0, 1, 2, 3, 4, 5, 6, 7]);
    #[rustfmt::skip]
    let cases: [(u8, &[u32], &[u32]); 20] = [
        (0x00, none, none),
        (0x02, none, none),
        (0x06, none, none),
        (0x08, none, none),
        (0x0A, none, all),
        (0x0E, none, all),
        (0x1A, none, all),
        (0x1E, none, all),
        (0x20, &[7], &[7]),
        (0x22, &[7], &[0, 1, 2, 3, 4, 5, 6]),
        (0x26, &[0], &[1, 2, 3, 4, 5, 6, 7]),
        (0x2A, &[6, 7], &[0, 1, 2, 3, 4, 5]),
        (0x2C, &[0, 1], &[0, 1]),
        (0x2E, &[0, 1], &[2, 3, 4, 5, 6, 7]),
        (0x32, &[4, 5, 6, 7], &[0, 1, 2, 3]),
        (0x36, &[0, 1, 2, 3], &[4, 5, 6, 7]),
        (0x3A, all, all),
        (0x3E, all, all),
        (0xA2, &[7], &[0, 1, 2, 3, 4, 5, 6]),
        (0xFF, all, all),
    ];
    for (a0, first, second) in cases {
        for (stepping, mask, blocks) in [
            (Stepping::First, 0xBC, first),
            (Stepping::Second, 0xBE, second),
        ] {
            let mut device = idle(Geometry::bench(), stepping);
            device.transfer(&[0x1F, 0xA0, a0]);
            assert_eq!(device.state().a0, a0 & mask);
            assert_eq!(read_a0(&mut device), a0 & mask);
            assert_eq!(protected(&device), blocks, "A0h {a0:02X}h, {stepping:?}");
        }
    }
    // Three blocks and one, where little or nothing is left of a part of them.
    for (blocks, a0, expected) in [
        (3, 0x32, &[0, 1][..]),
        (3, 0x36, &[1, 2]),
        (3, 0x2A, &[0, 1, 2]),
        (1, 0x32, &[0]),
        (1, 0x36, &[0]),
        (1, 0x02, &[]),
    ] {
        let part = Geometry {
            blocks,
            ..Geometry::bench()
        };
        let mut device = idle(part, Stepping::Second);
        device.transfer(&[0x1F, 0xA0, a0]);
        assert_eq!(protected(&device), expected, "A0h {a0:02X}h of {blocks}");
        // A row outside the array fails for itself.
        device.transfer(&[0x06]);
        device.transfer(&[0xD8, 0x00, 0x00, 4 * blocks as u8]);
        assert!(device.state().erase_failed());
    }
}

/// A reset leaves CMP, a power loss clears it, BRWD with WP# low holds it.
#[test]
fn cmp_is_kept_and_lost() {
    let mut device = idle(Geometry::bench(), Stepping::Second);
    device.transfer(&[0x1F, 0xA0, 0x22]);
    device.transfer(&[0xFF]);
    device.work(8);
    assert_eq!(read_a0(&mut device), 0x22);
    assert_eq!(protected(&device), [0, 1, 2, 3, 4, 5, 6]);
    device.power();
    assert_eq!(device.state(), &State::power_up());
    assert_eq!(read_a0(&mut device), 0x38);
    device.work(20);

    device.transfer(&[0x1F, 0xA0, 0xA2]);
    device.level(false);
    for a0 in [0x00, 0xA0, 0x20, 0xFF] {
        device.transfer(&[0x1F, 0xA0, a0]);
        assert_eq!(read_a0(&mut device), 0xA2);
    }
    device.level(true);
    device.transfer(&[0x1F, 0xA0, 0xA0]);
    assert_eq!(read_a0(&mut device), 0xA0);
}

/// Protection is asked as an operation begins: one under way goes on where A0h has become another,
/// which only a caller can do, and a page that was open once is protected the next time.
#[test]
fn cmp_counts_as_an_operation_begins() {
    let mut device = idle(Geometry::bench(), Stepping::Second);
    device.transfer(&[0x1F, 0xA0, 0x20]);
    device.transfer(&[0x06]);
    device.transfer(&[0x02, 0x00, 0x00, 0x5A]);
    device.transfer(&[0x10, 0x00, 0x00, 0x00]);
    device.transfer(&[0x1F, 0xA0, 0x22]);
    assert_eq!(read_a0(&mut device), 0x20, "ignored while busy");
    let (geometry, state, cells, cache, counts) = device.into_parts();
    let state = State { a0: 0x22, ..state };
    let mut device = Device::from_parts(geometry, state, cells, cache, counts).expect("sound");
    device.work(20);
    assert_eq!((device.status(), device.cells()[0]), (0x00, 0x5A));

    device.transfer(&[0x06]);
    device.transfer(&[0x02, 0x00, 0x00, 0x00]);
    device.transfer(&[0x10, 0x00, 0x00, 0x00]);
    device.work(20);
    assert_eq!((device.status(), device.cells()[0]), (0x08, 0x5A));
    assert_eq!(device.counts()[0], 1);
}

#[test]
fn a_sound_state_goes_by_the_stepping() {
    let first = Geometry::bench();
    let second = first.with_stepping(Stepping::Second);
    for a0 in 0..=0xFF {
        let state = State {
            a0,
            ..State::power_up()
        };
        for (geometry, mask) in [(first, 0xBC), (second, 0xBE)] {
            let sound = a0 & !mask == 0;
            assert_eq!(state.is_sound(&geometry), sound, "{a0:02X}h, {geometry:?}");
            let (cells, cache, counts) = (vec![0; 640], vec![0; 20], vec![0; 32]);
            let device = Device::from_parts(geometry, state, cells, cache, counts);
            match device {
                Ok(device) => assert!(sound && device.state().a0 == a0),
                Err(refusal) => assert!(!sound && refusal == Refusal::BadState),
            }
        }
    }
}

#[test]
fn power_loss_keeps_cells_and_counts() {
    let mut device = ready();
    device.transfer(&[0x06]);
    device.transfer(&[0x84, 0x00, 0x00, 0x00]);
    device.transfer(&[0x10, 0x00, 0x00, 0x00]);
    device.work(1);
    device.power();
    assert_eq!(device.state(), &State::power_up());
    assert_eq!(device.cache(), [0xFF; 20]);
    let (cells, counts) = device.into_cells_and_counts();
    assert_eq!((cells[0], counts[0]), (0x00, 1));

    let device = Device::power_up_with(Geometry::bench(), cells, counts).expect("sound");
    assert_eq!(device.cells()[0], 0x00);
}

#[test]
fn a_transfer_while_busy_is_ignored() {
    let mut device = Device::power_up(Geometry::bench()).expect("sound");
    device.select();
    assert!(!device.state().is_ignoring());
    assert_eq!(device.shift(0x06), 0xFF);
    assert!(device.state().is_ignoring() && device.state().is_selected());
    device.work(20);
    device.deselect();
    assert!(!device.state().is_write_enabled());
}

/// A bench part whose cells are all 3Ch, with 7 units of its power-up read done.
fn in_power_up_read() -> Device {
    let geometry = Geometry::bench();
    let mut device = Device::power_up_with(geometry, vec![0x3C; 640], vec![2; 32]).expect("sound");
    device.work(7);
    device
}

fn poll(device: &mut Device) -> u8 {
    device.transfer(&[0x0F, 0xC0, 0x00])[2]
}

/// The operation of a reset with so many units done.
fn reset_after(units: usize) -> Option<Operation> {
    Some(Operation {
        job: Job::Reset,
        row: 0,
        units,
    })
}

#[test]
fn a_reset_is_polled_until_it_is_done() {
    let mut device = in_power_up_read();
    device.transfer(&[0xFF]);
    for done in 0..8 {
        assert_eq!(device.state().operation(), reset_after(done));
        assert_eq!((poll(&mut device), device.units_left()), (0x01, 8 - done));
        // Read ID is answered; an unlock is not heard.
        assert_eq!(
            device.transfer(&[0x9F, 0x00, 0x00, 0x00])[2..],
            [0x5A, 0x01]
        );
        device.transfer(&[0x1F, 0xA0, 0x00]);
        assert_eq!(device.state().a0, 0x38);
        device.work(1);
    }
    assert_eq!((poll(&mut device), device.units_left()), (0x00, 0));
    assert_eq!(device.state().operation(), None);
    // It cut the read after 7 bytes, and touched nothing itself.
    assert_eq!(device.cache(), [[0x3C; 7].as_slice(), &[0xFF; 13]].concat());
    assert_eq!(
        (device.cells(), device.counts()),
        (&[0x3C; 640][..], &[2; 32][..])
    );
    device.transfer(&[0x1F, 0xA0, 0x00]);
    assert_eq!(device.state().a0, 0x00);
}

#[test]
fn a_reset_begins_again_and_is_cut() {
    let mut device = ready();
    device.transfer(&[0x06]);
    device.transfer(&[0xFF]);
    assert_eq!(poll(&mut device), 0x03);
    device.work(5);
    device.transfer(&[0xFF]);
    assert_eq!(
        (device.state().operation(), device.units_left()),
        (reset_after(0), 8)
    );
    device.work(7);
    assert_eq!(poll(&mut device), 0x03);
    device.work(u64::MAX);
    assert_eq!(poll(&mut device), 0x02);

    device.transfer(&[0xFF]);
    device.work(7);
    device.power();
    assert_eq!(device.state(), &State::power_up());
}

/// On every part, one with a page of a single byte too; and a device in a reset is kept and comes
/// back.
#[test]
fn a_reset_is_a_job_of_a_sound_state() {
    for job in [Job::Read, Job::Program, Job::Erase, Job::Reset] {
        let job_of = |state: State| state.operation().map(|operation| operation.job);
        let state = State {
            job: job.number(),
            ..State::power_up()
        };
        assert_eq!(job_of(state), Some(job));
        assert!(state.is_sound(&Geometry::bench()));
    }
    let mut one_byte = Geometry::bench();
    (one_byte.data, one_byte.spare, one_byte.pages) = (1, 0, 1);
    let mut unsound = Geometry::bench();
    unsound.blocks = 0;
    assert_eq!(unsound.operation_len(Job::Reset), 0);
    for geometry in [Geometry::bench(), Geometry::fm25s005bi3(), one_byte] {
        assert_eq!(geometry.operation_len(Job::Reset), 8);
        let state = |job, row, units| State {
            job,
            row,
            units,
            ..State::power_up()
        };
        for units in 0..8 {
            assert!(state(4, 0, units).is_sound(&geometry));
            assert_eq!(state(4, 0, units).units_left(&geometry), 8 - units);
            assert_eq!(state(4, 0, units).operation(), reset_after(units));
        }
        for unsound in [state(4, 0, 8), state(4, 1, 7), state(5, 0, 0)] {
            assert!(!unsound.is_sound(&geometry), "{unsound:?}");
            assert_eq!(unsound.units_left(&geometry), 0);
        }
        let idle = State {
            c0: 0x00,
            ..state(4, 0, 7)
        };
        assert!(!idle.is_sound(&geometry), "without OIP");
    }

    let mut device = ready();
    device.transfer(&[0xFF]);
    device.work(7);
    let copy = device.clone();
    let (geometry, state, cells, cache, counts) = device.into_parts();
    let again = Device::from_parts(geometry, state, cells, cache, counts);
    assert_eq!(again, Ok(copy));
}

#[test]
fn a_log_is_written_read_and_run() {
    let mut log = Log::new();
    log.push(Record::Work(19));
    log.transfer(&[0x0F, 0xC0, 0x00]);
    log.extend([Record::Level(false), Record::Power]);
    assert_eq!(
        log.as_bytes(),
        [4, 0x13, 0, 1, 2, 0x0F, 2, 0xC0, 2, 0, 3, 5, 0, 6]
    );
    let records: Result<Vec<_>, _> = log.records().collect();
    let records = records.expect("a sound log");
    assert_eq!(records.len(), 8);
    assert_eq!(records.iter().copied().collect::<Log>(), log);

    let mut device = Device::power_up(Geometry::bench()).expect("sound");
    let mut out = [0; 4];
    let answer = device.run(log.as_ref(), &mut out);
    assert_eq!(answer.result(), Ok(()));
    assert_eq!((answer.records, answer.used, answer.written), (8, 14, 3));
    assert_eq!(out, [0xFF, 0xFF, 0x01, 0]);
    assert_eq!(answer.state, *device.state());
}

#[test]
fn a_reader_stops_at_what_it_cannot_read() {
    for (log, refusal) in [
        (&[1, 3, 9, 1][..], Refusal::BadKind),
        (&[1, 3, 4, 1], Refusal::ShortBody),
        (&[1, 3, 5, 2], Refusal::BadLevel),
    ] {
        let mut records = Records::new(log);
        assert_eq!(records.next(), Some(Ok(Record::Select)));
        assert_eq!(records.next(), Some(Ok(Record::Deselect)));
        assert_eq!(records.next(), Some(Err(refusal)));
        assert_eq!(records.place(), 2);
        assert_eq!(records.next(), None);
    }
}

#[test]
fn a_writer_needs_room() {
    let mut bytes = [0xEE; 3];
    assert_eq!(
        Record::Work(0x1234).write_at(&mut bytes, 1),
        Err(Refusal::NoRoom)
    );
    assert_eq!(bytes, [0xEE; 3]);
    assert_eq!(Record::Work(0x1234).write_at(&mut bytes, 0), Ok(3));
    assert_eq!(bytes, [4, 0x34, 0x12]);
    assert_eq!(Record::Power.encode(), ([6, 0, 0], 1));
}

#[test]
fn unsound_parts_and_memories_are_refused() {
    let mut geometry = Geometry::bench();
    geometry.pages = 0;
    assert!(!geometry.is_sound());
    assert_eq!(Device::power_up(geometry), Err(Refusal::BadPart));

    let geometry = Geometry::bench();
    let short = Device::power_up_with(geometry, vec![0; 639], vec![0; 32]);
    assert_eq!(short, Err(Refusal::BadCells));
    let short = Device::power_up_with(geometry, vec![0; 640], vec![0; 31]);
    assert_eq!(short, Err(Refusal::BadCounts));
    let mut state = State::power_up();
    state.job = 9;
    assert!(!state.is_sound(&geometry));
    let unsound = Device::from_parts(geometry, state, vec![0; 640], vec![0; 20], vec![0; 32]);
    assert_eq!(unsound, Err(Refusal::BadState));
    let cache = Device::from_parts(geometry, state, vec![0; 640], vec![0; 21], vec![0; 32]);
    assert_eq!(cache, Err(Refusal::BadCache));
}

#[test]
fn lent_memory_stays_the_callers() {
    let geometry = Geometry::bench();
    let (mut cells, mut cache, mut counts) = ([0x3C; 640], [0; 20], [0; 32]);
    let mut memory = Memory {
        cells: &mut cells,
        cache: &mut cache,
        counts: &mut counts,
    };
    let answer = lent::run(
        &geometry,
        State::power_up(),
        &[4, 20, 0],
        &mut memory,
        &mut [],
    );
    assert_eq!(answer.refusal, None);
    let answer = lent::level(&geometry, answer.state, 2, &mut memory);
    assert_eq!(answer.refusal, Some(Refusal::BadLevel));
    assert_eq!(cache, [0x3C; 20]);
}

/// The tags that wait in a core's queue.
fn waiting(keeper: &Keeper, core: u8) -> Vec<u8> {
    keeper.waiting(core).collect()
}

#[test]
fn a_keeper_grants_round() {
    let mut keeper = Keeper::new();
    assert_eq!(keeper, Keeper::default());
    assert_eq!(keeper.last(), 3);
    for (core, tag) in [(2, 0x21), (0, 0x01), (2, 0x22), (0, 0x02), (2, 0x21)] {
        assert_eq!(keeper.add(core, tag), Ok(()));
    }
    assert_eq!(waiting(&keeper, 0), [0x01, 0x02]);
    assert_eq!(waiting(&keeper, 1), []);
    assert_eq!(waiting(&keeper, 2), [0x21, 0x22, 0x21]);
    for (core, tag) in [(0, 0x01), (2, 0x21), (0, 0x02), (2, 0x22), (2, 0x21)] {
        assert_eq!(keeper.grant(), Ok(Grant { core, tag }));
        assert_eq!(keeper.last(), core);
    }
    assert!((0..=255).all(|core| keeper.waiting(core).next().is_none()));
    let empty = keeper;
    assert_eq!(keeper.grant(), Err(Refusal::AllEmpty));
    assert_eq!(keeper, empty);
}

#[test]
fn a_keeper_refuses_a_ninth_transfer_and_a_fifth_core() {
    let mut keeper = Keeper::new();
    for tag in 0..8 {
        assert_eq!(keeper.add(3, tag), Ok(()));
    }
    let full = keeper;
    assert_eq!(keeper.add(3, 8), Err(Refusal::QueueFull));
    assert_eq!(keeper.add(4, 8), Err(Refusal::BadCore));
    assert_eq!(keeper.add(255, 8), Err(Refusal::BadCore));
    assert_eq!(keeper, full);
    assert_eq!(keeper.grant(), Ok(Grant { core: 3, tag: 0 }));
    assert_eq!(keeper.add(3, 8), Ok(()));
    // The ninth stands where the first stood.
    assert_eq!(waiting(&keeper, 3), [1, 2, 3, 4, 5, 6, 7, 8]);
    assert_eq!(keeper.raw().queues[3].tags, [8, 1, 2, 3, 4, 5, 6, 7]);
    assert_eq!(waiting(&keeper, 4), []);
}

#[test]
fn a_keeper_is_kept_and_comes_back() {
    let mut keeper = Keeper::new();
    keeper.add(1, 0x77).expect("room for a transfer");
    let raw = keeper.raw();
    assert_eq!(Keeper::from_raw(raw), Ok(keeper));
    assert_eq!(
        Keeper::from_raw(Keeper::new().raw()),
        Ok(Keeper::new()),
        "an empty one is sound"
    );

    let (mut head, mut length, mut last) = (raw, raw, raw);
    head.queues[0].head = 8;
    length.queues[1].length = 9;
    last.last = 4;
    for unsound in [head, length, last] {
        assert_eq!(Keeper::from_raw(unsound), Err(Refusal::BadKeeper));
    }
}

/// The three copies of a part's page.
fn copies(part: &Geometry) -> Vec<u8> {
    let mut memory = vec![0x5E; page::COPIES * page::LEN];
    for copy in memory.chunks_exact_mut(page::LEN) {
        page::make(part, copy).expect("a sound part");
    }
    memory
}

#[test]
fn a_page_is_made_of_a_part() {
    for (part, check) in [
        (Geometry::fm25s005bi3(), 0xB77C_u16),
        (Geometry::bench(), 0xF954),
    ] {
        let mut memory = [0x5E; 300];
        assert_eq!(page::make(&part, &mut memory), Ok(()));
        assert_eq!(memory[page::LEN..], [0x5E; 44]);
        assert_eq!(memory[..4], *b"ONFI");
        assert_eq!(memory[32..44], *b"FUDANMICRO  ");
        assert_eq!(memory[44..64], *b"FM25S005BI3         ");
        assert_eq!(memory[80..84], part.data.to_le_bytes());
        assert_eq!(memory[84..88], part.spare.to_le_bytes());
        assert_eq!(memory[92..96], part.pages.to_le_bytes());
        assert_eq!(memory[96..100], part.blocks.to_le_bytes());
        assert_eq!(memory[254..256], check.to_le_bytes());
        assert_eq!(page::check(&memory[..254]), check);
        assert!(copies(&part)
            .chunks(page::LEN)
            .all(|copy| copy == &memory[..page::LEN]));
    }
    assert_eq!(page::check(b"123456789"), 0x2771);
    assert_eq!(page::check(&[]), 0x4F4E);
}

#[test]
fn a_part_is_sized_from_its_page() {
    let part = Geometry::bench();
    let mut memory = copies(&part);
    let sizes = |copy| Sizes {
        copy,
        data: 16,
        spare: 4,
        pages: 4,
        blocks: 8,
    };
    assert_eq!(page::read(&memory), Ok(sizes(0)));
    memory[0] = b'o';
    assert_eq!(page::read(&memory), Ok(sizes(1)));
    memory[256 + 200] = 0x01;
    assert_eq!(page::read(&memory), Ok(sizes(2)));
    assert_eq!(sizes(2).geometry(part.identity), part);
    // What stands behind the copies is not looked at.
    memory.extend([0x00; 1280]);
    assert_eq!(page::read(&memory), Ok(sizes(2)));
    memory[512 + 254] ^= 0x01;
    let before = memory.clone();
    assert_eq!(page::read(&memory), Err(Refusal::NoCopy));
    assert_eq!(memory, before);
}

/// Only signature and check are judged: sizes that no part can have are answered as they stand.
#[test]
fn a_page_may_hold_any_sizes() {
    let mut memory = copies(&Geometry::bench());
    memory[80..100].fill(0xFF);
    let check = page::check(&memory[..254]);
    memory[254..256].copy_from_slice(&check.to_le_bytes());
    let sizes = page::read(&memory).expect("a copy that holds");
    let (large, spare) = (u32::MAX, u16::MAX);
    assert_eq!((sizes.copy, sizes.data, sizes.spare), (0, large, spare));
    assert_eq!((sizes.pages, sizes.blocks), (large, large));
    let part = sizes.geometry([0xA1, 0xD5]);
    assert_eq!((part.spare, part.identity), (0xFFFF, [0xA1, 0xD5]));
    assert_eq!(Device::power_up(part), Err(Refusal::BadPart));
}

/// The cache register is the caller's between calls: a simulator puts the page there where the real
/// part has it.
#[test]
fn a_page_is_answered_over_the_bus() {
    let part = Geometry::fm25s005bi3();
    let mut device = Device::power_up(part).expect("sound");
    device.work(2176);
    device.transfer(&[0x1F, 0xB0, 0x50]);
    assert_eq!(device.state().b0, 0x10, "OTP_EN is not stored");
    device.transfer(&[0x13, 0x00, 0x00, 0x01]);
    device.work(device.units_left() as u64);
    let read_cache = [&[0x03, 0, 0, 0][..], &[0; 768]].concat();
    let out = device.transfer(&read_cache);
    assert_eq!(page::read(&out[4..]), Err(Refusal::NoCopy));
    device.cache_mut()[..768].copy_from_slice(&copies(&part));
    let out = device.transfer(&read_cache);
    let sizes = page::read(&out[4..]).expect("a copy that holds");
    assert_eq!(sizes.geometry(part.identity), part);
}

#[test]
fn a_page_that_is_refused_changes_nothing() {
    let mut unsound = Geometry::bench();
    unsound.blocks = 0;
    let mut memory = [0x5E; 768];
    assert_eq!(page::make(&unsound, &mut memory), Err(Refusal::BadPart));
    for length in 0..page::LEN {
        let short = &mut memory[..length];
        assert_eq!(page::make(&unsound, short), Err(Refusal::BadPart));
        let made = page::make(&Geometry::bench(), short);
        assert_eq!(made, Err(Refusal::ShortMemory));
    }
    for length in 0..768 {
        assert_eq!(page::read(&memory[..length]), Err(Refusal::ShortMemory));
    }
    assert_eq!(page::read(&memory), Err(Refusal::NoCopy));
    assert_eq!(memory, [0x5E; 768]);
    let raw = sleetanvil::raw::page_read(&memory);
    assert_eq!((raw.refusal, raw.copy, raw.data), (10, 0, 0));
    assert_eq!((raw.spare, raw.pages, raw.blocks), (0, 0, 0));
    let good = copies(&Geometry::bench());
    assert_eq!(page::read(&good[..767]), Err(Refusal::ShortMemory));
}

#[test]
fn refusals_have_numbers_and_words() {
    let expected = [
        (Refusal::BadPart, 1, "geometry"),
        (Refusal::BadCells, 2, "cells"),
        (Refusal::BadCache, 3, "cache register"),
        (Refusal::BadCounts, 4, "page counts"),
        (Refusal::BadState, 5, "state"),
        (Refusal::BadKind, 6, "kind"),
        (Refusal::ShortBody, 7, "inside a body"),
        (Refusal::BadLevel, 8, "WP#"),
        (Refusal::NoRoom, 9, "no output room"),
        (Refusal::NoCopy, 10, "copy"),
        (Refusal::ShortMemory, 11, "short"),
        (Refusal::BadCore, 14, "a core above 3"),
        (Refusal::QueueFull, 15, "eight transfers wait in that queue"),
        (Refusal::AllEmpty, 16, "no transfer waits"),
        (Refusal::BadCardCells, 17, "cells"),
        (Refusal::BadCardBits, 18, "bits"),
        (Refusal::BadKeeper, 20, "the keeper is not sound"),
    ];
    let mut seen = HashSet::new();
    for (refusal, number, about) in expected {
        assert_eq!(refusal.number(), number);
        assert_eq!(Refusal::from_number(number), Some(refusal));
        let error: Box<dyn Error> = refusal.into();
        let words = error.to_string();
        assert!(words.contains(about), "{number}: {words}");
        assert!(seen.insert(words), "two refusals have the same words");
    }
    assert_eq!(expected.map(|(refusal, ..)| refusal), Refusal::ALL);
    assert!(Refusal::ALL.is_sorted_by(|one, next| one.number() < next.number()));
    let numbers = (0..=255).filter_map(Refusal::from_number);
    assert!(numbers.eq(Refusal::ALL));
}

#[test]
fn words_fit_their_room_or_are_not_written() {
    for number in 0..=255 {
        let mut room = [0xEE; sleetanvil::raw::TEXT];
        let length = sleetanvil::raw::text(number, &mut room);
        assert!(length > 0 && length < room.len());
        assert!(room[..length]
            .iter()
            .all(|&byte| (0x20..0x7F).contains(&byte)));
        assert_eq!(room[length], 0);
        assert!(room[length + 1..].iter().all(|&byte| byte == 0xEE));
        if number > 0 && Refusal::from_number(number).is_none() {
            assert_eq!(&room[..length], b"no such refusal");
        }
        let mut short = vec![0xEE; length];
        assert_eq!(sleetanvil::raw::text(number, &mut short), 0);
        assert!(short.iter().all(|&byte| byte == 0xEE));
        let mut exact = vec![0xEE; length + 1];
        assert_eq!(sleetanvil::raw::text(number, &mut exact), length);
        assert_eq!(exact[..], room[..=length]);
    }
}
