//! The safe wrapper: memory cards as a Rust program uses them.

use sleetanvil::card::{self, Card, Command, Stage, CODE, COUNTER};
use sleetanvil::{raw, Refusal};

/// A new card whose code has passed, with one try gone.
fn opened() -> Card {
    let mut card = Card::new();
    open(&mut card, 0xFE);
    card
}

/// Open a card by the code that it has.
#[track_caller]
fn open(card: &mut Card, mask: u8) {
    let [first, second] = [card.cells()[1022], card.cells()[1023]];
    card.command(Command::Count { mask });
    assert_eq!(card.stage(), Stage::Counted);
    card.command(compare(CODE, first));
    assert_eq!(card.stage(), Stage::Half);
    card.command(compare(CODE + 1, second));
    assert!(card.is_open());
}

fn write(address: u16, data: u8) -> Command {
    Command::Write { address, data }
}

fn compare(address: u16, data: u8) -> Command {
    Command::Compare { address, data }
}

fn read(address: u16) -> Command {
    Command::Read { address }
}

fn read_bit(address: u16) -> Command {
    Command::ReadBit { address }
}

/// The log of some commands.
fn log(commands: &[Command]) -> Vec<u8> {
    commands.iter().flat_map(|one| one.record()).collect()
}

#[test]
fn a_new_card() {
    let card = Card::new();
    assert_eq!(card, Card::default());
    assert_eq!((card.stage(), card.is_open()), (Stage::Fresh, false));
    assert_eq!((card.cells().len(), card.bits().len()), (1024, 128));
    assert!(card
        .cells()
        .iter()
        .chain(card.bits())
        .all(|&byte| byte == 0xFF));
    assert_eq!(card.counter(), 0xFF);
    assert!((0..1024).all(|address| !card.is_protected(address)));
    assert_eq!((card::CELLS, card::BITS), (1024, 128));
    assert_eq!((COUNTER, CODE), (1021, 1022));
    assert_eq!((card::KIND_COMMAND, card::KIND_POWER), (0x20, 0x06));
}

#[test]
fn the_code_passes_and_holds_until_power_is_lost() {
    let mut card = Card::new();
    assert_eq!(card.command(write(5, 0xA5)), [0xFF]);
    assert_eq!(card, Card::new());
    card.cells_mut()[1022..].copy_from_slice(&[0x12, 0x34]);
    assert_eq!(card.command(read(CODE)), [0x00]);
    assert_eq!(card.command(read_bit(1023)), [0x00, 0x01]);
    open(&mut card, 0x7F);
    assert_eq!(card.counter(), 0x7F);
    assert_eq!(card.command(read(CODE)), [0x12]);
    assert_eq!(card.command(read_bit(1023)), [0x34, 0x01]);

    card.command(write(5, 0xA5));
    card.command(write(COUNTER, 0xFF));
    assert_eq!((card.cells()[5], card.counter()), (0xA5, 0xFF));
    card.command(compare(CODE, 0x00));
    assert!(card.is_open(), "a wrong compare closes nothing");
    let memory = card.clone().into_memory();
    card.power_loss();
    assert_eq!(card.stage(), Stage::Fresh);
    assert_eq!(card.clone().into_memory(), memory);
    card.command(write(5, 0x00));
    assert_eq!(card.command(read(5)), [0xA5]);
    assert_eq!(card.command(read(CODE)), [0x00]);
}

/// Whatever comes between the steps, ignored or not, takes them back; a count that clears a bit is a
/// first step again; and the loss of power takes them back too.
#[test]
fn what_comes_between_starts_anew() {
    let between: [[u8; 3]; 9] = [
        read(0).into(),
        read_bit(0).into(),
        write(0, 0).into(),
        Command::Protect {
            address: 0,
            data: 0,
        }
        .into(),
        Command::WriteProtect {
            address: 0,
            data: 0,
        }
        .into(),
        Command::Count { mask: 0xFF }.into(),
        compare(7, 0xFF).into(),
        [0x32, 0xFD, 0x7F], // the counter's command at 253
        [0x00, 0x00, 0x00],
    ];
    for bytes in between {
        for steps in [1, 2] {
            let mut card = Card::new();
            card.command(Command::Count { mask: 0xFE });
            if steps == 2 {
                card.command(compare(CODE, 0xFF));
            }
            assert_eq!(usize::from(card.stage().number()), steps);
            card.command(bytes);
            assert_eq!(card.stage(), Stage::Fresh, "{bytes:02X?}");
            card.command(compare(CODE, 0xFF));
            card.command(compare(CODE + 1, 0xFF));
            assert_eq!(card.stage(), Stage::Fresh);
        }
    }
    let mut card = Card::new();
    card.command(Command::Count { mask: 0xFE });
    card.command(compare(CODE, 0xFF));
    card.command(Command::Count { mask: 0xFD });
    assert_eq!((card.stage(), card.counter()), (Stage::Counted, 0xFC));
    card.command(compare(CODE, 0xFF));
    card.power_loss();
    card.command(compare(CODE + 1, 0xFF));
    assert_eq!(card.stage(), Stage::Fresh);
}

/// The eight tries, and none behind them.
#[test]
fn a_card_is_closed_for_good() {
    let mut card = Card::new();
    for bit in 0..8 {
        assert_eq!(card.counter().count_ones(), 8 - bit);
        card.command(Command::Count { mask: !(1 << bit) });
        card.command(compare(CODE, 0x00));
        assert_eq!(card.stage(), Stage::Fresh);
    }
    for mask in 0..=255 {
        card.command(Command::Count { mask });
        assert_eq!((card.stage(), card.counter()), (Stage::Fresh, 0x00));
    }
}

#[test]
fn a_protected_byte_never_changes() {
    let mut card = opened();
    let protect = |address, data| Command::Protect { address, data };
    card.command(write(300, 0x11));
    card.command(protect(300, 0x12));
    assert!(!card.is_protected(300));
    card.command(protect(300, 0x11));
    card.command(Command::WriteProtect {
        address: 301,
        data: 0x22,
    });
    let protected: Vec<_> = (0..1024).filter(|&at| card.is_protected(at)).collect();
    assert_eq!(protected, [300, 301]);
    assert_eq!(card.bits()[37], 0b1100_1111);
    let before = card.clone();
    for address in [300, 301] {
        card.command(write(address, 0x00));
        card.command(Command::WriteProtect {
            address,
            data: 0x00,
        });
        card.command(protect(address, 0x00));
    }
    assert_eq!(card, before);
    assert_eq!(card.command(read_bit(300)), [0x11, 0x00]);

    // A frozen counter has no bit that can be cleared.
    card.command(protect(COUNTER, card.counter()));
    card.power_loss();
    for mask in 0..=255 {
        card.command(Command::Count { mask });
        assert_eq!((card.stage(), card.counter()), (Stage::Fresh, 0xFE));
    }
}

#[test]
#[should_panic(expected = "index out of bounds")]
fn no_protect_bit_past_the_last() {
    Card::new().is_protected(1024);
}

#[test]
fn commands_have_three_bytes() {
    let address = 0x2A5;
    let data = 0x77;
    for (command, bytes) in [
        (Command::WriteProtect { address, data }, [0xB1, 0xA5, 0x77]),
        (write(address, data), [0xB3, 0xA5, 0x77]),
        (Command::Protect { address, data }, [0xB0, 0xA5, 0x77]),
        (read_bit(address), [0x8C, 0xA5, 0x00]),
        (read(address), [0x8E, 0xA5, 0x00]),
        (Command::Count { mask: 0xFE }, [0xF2, 0xFD, 0xFE]),
        (compare(CODE, 0x12), [0xCD, 0xFE, 0x12]),
        (compare(CODE + 1, 0x34), [0xCD, 0xFF, 0x34]),
        (read(0), [0x0E, 0x00, 0x00]),
        (read(0x0FF), [0x0E, 0xFF, 0x00]),
        (read(0x100), [0x4E, 0x00, 0x00]),
        (read(0x3FF), [0xCE, 0xFF, 0x00]),
    ] {
        assert_eq!(command.bytes(), bytes);
        assert_eq!(<[u8; 3]>::from(command), bytes);
        assert_eq!(command.record()[0], 0x20);
        assert_eq!(command.record()[1..], bytes);
    }
}

#[test]
#[should_panic(expected = "no address 1024")]
fn no_command_past_the_last_address() {
    let _ = write(1024, 0x00).bytes();
}

/// Each address is its own cell, by the command's name and by the library.
#[test]
fn every_address_is_reached() {
    let mut card = opened();
    for address in 0..1024 {
        let data = (address % 251) as u8;
        let mut wanted = card.clone();
        wanted.cells_mut()[usize::from(address)] = data;
        card.command(write(address, data));
        assert_eq!(card, wanted);
        assert_eq!(card.command(read(address)), [data]);
    }
}

#[test]
fn a_log_is_run() {
    let mut commands = vec![
        Command::Count { mask: 0xEF },
        compare(CODE, 0xFF),
        compare(CODE + 1, 0xFF),
        write(9, 0x99),
        read_bit(9),
    ];
    let whole = [&log(&commands)[..], &[card::KIND_POWER]].concat();
    let mut card = Card::new();
    let (answer, out) = card.replay(&whole);
    assert_eq!(answer.result(), Ok(()));
    assert_eq!((answer.records, answer.used, answer.written), (6, 21, 6));
    assert_eq!(out, [0xFF, 0xFF, 0xFF, 0xFF, 0x99, 0x01]);
    assert_eq!(card.stage(), Stage::Fresh);

    // The same, command by command.
    let mut single = Card::new();
    let answered: Vec<u8> = commands
        .iter()
        .flat_map(|&command| single.command(command))
        .collect();
    single.power_loss();
    assert_eq!((answered, single), (out, card));

    commands.truncate(2);
    let (answer, _) = Card::new().replay(&log(&commands));
    assert_eq!((answer.records, answer.used, answer.written), (2, 8, 2));
}

/// 6, 7 and 9 stop a run before a record; what came before it stands.
#[test]
fn a_log_is_refused() {
    let begun = log(&[Command::Count { mask: 0xFE }, compare(CODE, 0xFF)]);
    let with = |end: &[u8]| [&begun[..], end].concat();
    let room = 8;
    for (log, room, refusal) in [
        (with(&[0x05]), room, Refusal::BadKind),
        (with(&[0x01, 0x20]), 2, Refusal::BadKind),
        (with(&[0x20]), room, Refusal::ShortBody),
        (with(&[0x20, 0x0C, 0x00]), 2, Refusal::ShortBody),
        (with(&read(0).record()), 2, Refusal::NoRoom),
        (with(&read_bit(0).record()), 3, Refusal::NoRoom),
    ] {
        let mut card = Card::new();
        let mut out = [0xEE; 8];
        let answer = card.run(&log, &mut out[..room]);
        assert_eq!(answer.refusal, Some(refusal));
        assert_eq!(answer.result(), Err(refusal));
        assert_eq!((answer.records, answer.used, answer.written), (2, 8, 2));
        assert_eq!(out, [0xFF, 0xFF, 0xEE, 0xEE, 0xEE, 0xEE, 0xEE, 0xEE]);
        assert_eq!((card.stage(), card.counter()), (Stage::Half, 0xFE));
    }
    // A loss of power needs no room.
    let answer = Card::new().run(&[0x06, 0x06], &mut []);
    assert_eq!((answer.refusal, answer.records), (None, 2));
}

#[test]
fn memory_of_a_wrong_length_is_refused() {
    let made = |cells, bits| Card::from_memory(vec![0xFF; cells], vec![0xFF; bits]).err();
    for cells in [0, 1023, 1025, 1152] {
        for bits in [0, 127, 128, 129] {
            assert_eq!(made(cells, bits), Some(Refusal::BadCardCells));
        }
    }
    for bits in [0, 127, 129, 1024] {
        assert_eq!(made(1024, bits), Some(Refusal::BadCardBits));
        let parts = Card::from_parts(Stage::Open, vec![0; 1024], vec![0; bits]);
        assert_eq!(parts.err(), Some(Refusal::BadCardBits));
    }
    assert_eq!(made(1024, 128), None);

    // A stage that the wrapper cannot have, by the C interface's own struct: 17 and 18 come first.
    let (mut cells, mut bits, mut out) = ([0xFF; 1024], [0xFF; 128], [0xEE; 2]);
    let count = [0xF2, 0xFD, 0xFE];
    for (cells_len, bits_len, refusal) in [(1024, 128, 5), (1023, 127, 17), (1024, 127, 18)] {
        for stage in [4, 255] {
            let (cells, bits) = (&mut cells[..cells_len], &mut bits[..bits_len]);
            let given = raw::RawCard { stage };
            let answer = raw::card_command(given, count, cells, bits, &mut out);
            assert_eq!((answer.refusal, answer.card), (refusal, given));
            assert_eq!((answer.records, answer.used, answer.written), (0, 0, 0));
        }
    }
    assert_eq!((cells, bits, out), ([0xFF; 1024], [0xFF; 128], [0xEE; 2]));
}

#[test]
fn a_card_is_taken_apart_and_put_together() {
    let mut card = opened();
    card.cells_mut()[7] = 0x77;
    card.bits_mut()[1] = 0xFE;
    assert!(card.is_protected(8) && !card.is_protected(7));
    let copy = card.clone();
    let (stage, cells, bits) = card.into_parts();
    assert_eq!((stage, cells[7], bits[1]), (Stage::Open, 0x77, 0xFE));
    let again = Card::from_parts(stage, cells.clone(), bits.clone());
    assert_eq!(again, Ok(copy.clone()));
    let pulled = Card::from_memory(cells, bits).expect("memory of the right lengths");
    assert_ne!(pulled, copy);
    assert_eq!(pulled.stage(), Stage::Fresh);
    let mut lost = copy;
    lost.power_loss();
    assert_eq!(pulled, lost);
}

#[test]
fn a_card_is_shown_without_its_bytes() {
    let shown = format!("{:?}", opened());
    assert!(shown.len() < 100, "{shown}");
    assert!(shown.contains("stage: Open") && shown.contains("1024 bytes"));
}

#[test]
fn stages_are_in_order() {
    let stages = [Stage::Fresh, Stage::Counted, Stage::Half, Stage::Open];
    assert!(stages.is_sorted());
    assert_eq!(stages.map(Stage::number), [0, 1, 2, 3]);
    assert_eq!(raw::card_power_up().stage, Stage::Fresh.number());
}
