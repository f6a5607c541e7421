//! Card logs by the command-line program: the trace, the card's lines, images, and refusals.

use std::fs::{self, Permissions};
use std::io::{BufRead, BufReader, Write};
use std::os::unix::fs::{symlink, PermissionsExt};

use sleetanvil::card::{Card, Command, Stage, CODE, COUNTER};
use sleetanvil::Refusal;

use super::{
    fails, is_shown_to_drivers, mode, sleetanvil, start, succeeds, text, with_input, Folder,
};

/// The three commands that open a new card.
const OPEN: [Command; 3] = [
    Command::Count { mask: 0xFE },
    Command::Compare {
        address: CODE,
        data: 0xFF,
    },
    Command::Compare {
        address: CODE + 1,
        data: 0xFF,
    },
];

fn write(address: u16, data: u8) -> Command {
    Command::Write { address, data }
}

fn protect(address: u16, data: u8) -> Command {
    Command::Protect { address, data }
}

fn log(commands: &[Command]) -> Vec<u8> {
    commands.iter().flat_map(|one| one.record()).collect()
}

/// The image of a card.
fn image(card: &Card) -> Vec<u8> {
    [card.cells(), card.bits()].concat()
}

/// What is printed of a log that is read to its end: the card's three lines.
#[track_caller]
fn lines(args: &[&str], log: &[u8]) -> [String; 3] {
    let output = with_input(&[&["card"], args, &["-"]].concat(), log);
    let printed = succeeds(&output);
    let lines: Vec<_> = printed.lines().map(String::from).collect();
    let [ended, card, counter, protected, end] = &lines[..] else {
        panic!("{printed}");
    };
    assert!(ended.starts_with("log: read to its end; "), "{ended}");
    assert!(end.starts_with("end 0 "), "{end}");
    [card, counter, protected].map(String::from)
}

#[test]
fn a_card_log() {
    let folder = Folder::new("a_card_log");
    let log = [&log(&OPEN)[..], &[0x20, 0x0C, 0x05, 0x00, 0x06]].concat();
    let file = folder.write("log", &log);
    let expected = "log: read to its end; 5 records done, 17 bytes used, 5 bytes answered\n\
                    card: closed\n\
                    counter: FEh, 7 bits left\n\
                    protected: no byte\n\
                    end 0 5\n";
    assert_eq!(succeeds(&sleetanvil(&["card", &file])), expected);
    assert_eq!(succeeds(&with_input(&["card", "-"], &log)), expected);
    assert_eq!(succeeds(&sleetanvil(&["card", "--", &file])), expected);
    let traced = succeeds(&sleetanvil(&["card", &file, "--trace"]));
    assert!(traced.ends_with(&format!("\n{expected}")), "{traced}");
    assert_eq!(traced.lines().count(), 10);
    assert_eq!(
        succeeds(&with_input(&["card", "-"], &[])),
        "log: read to its end; 0 records done, 0 bytes used, 0 bytes answered\n\
         card: closed\ncounter: FFh, 8 bits left\nprotected: no byte\nend 0 0\n"
    );
    assert_eq!(folder.names(), ["log"]);
}

/// A line of the trace for each record: the bytes of the command, and what is said of it.
const TRACE: [(&[u8], &str); 47] = [
    (
        &[0x33, 0x05, 0xA5],
        "Write 5 = A5h -> FFh: nothing changes, not open",
    ),
    (
        &[0xB1, 0x07, 0xA5],
        "Write and Protect 519 = A5h -> FFh: nothing changes, not open",
    ),
    (
        &[0x30, 0x05, 0xFF],
        "Protect 5 if it is FFh -> FFh: nothing changes, not open",
    ),
    (&[0x0E, 0x05, 0x99], "Read 5 -> FFh"),
    (
        &[0x0C, 0x05, 0x99],
        "Read with Protect Bit 5 -> FFh 01h: not protected",
    ),
    (
        &[0xCE, 0xFE, 0x00],
        "Read 1022 (code byte 1) -> 00h: hidden, not open",
    ),
    (
        &[0xCC, 0xFF, 0x00],
        "Read with Protect Bit 1023 (code byte 2) -> 00h 01h: hidden, not open; not protected",
    ),
    (
        &[0xF2, 0xFD, 0xFC],
        "Count 1021 (counter), mask FCh -> FFh: nothing changes, the mask would clear 2 bits",
    ),
    (
        &[0xF2, 0xFD, 0xFF],
        "Count 1021 (counter), mask FFh -> FFh: nothing changes, the mask clears no bit",
    ),
    (
        &[0xF2, 0xFC, 0xFE],
        "Count 1020, mask FEh -> FFh: nothing changes, the command is for 1021 alone",
    ),
    (
        &[0xCD, 0xFD, 0xFF],
        "Compare 1021 (counter) with FFh -> FFh: nothing changes, the command is for 1022 and 1023 \
         alone",
    ),
    (
        &[0xCD, 0xFE, 0xFF],
        "Compare 1022 (code byte 1) with FFh -> FFh: nothing changes, no counter bit was cleared \
         right before it",
    ),
    (
        &[0x13, 0x00, 0x00],
        "unknown -> FFh: nothing changes, not in the table",
    ),
    (
        &[0xF2, 0xFD, 0x7F],
        "Count 1021 (counter), mask 7Fh -> FFh: FFh becomes 7Fh, 7 bits left; step 1 of 3",
    ),
    (
        &[0xCD, 0xFE, 0x12],
        "Compare 1022 (code byte 1) with 12h -> FFh: wrong; the code starts anew",
    ),
    (
        &[0xF2, 0xFD, 0xBF],
        "Count 1021 (counter), mask BFh -> FFh: 7Fh becomes 3Fh, 6 bits left; step 1 of 3",
    ),
    (
        &[0xCD, 0xFF, 0xFF],
        "Compare 1023 (code byte 2) with FFh -> FFh: nothing changes, 1022 comes first; the code \
         starts anew",
    ),
    (
        &[0xF2, 0xFD, 0xDF],
        "Count 1021 (counter), mask DFh -> FFh: 3Fh becomes 1Fh, 5 bits left; step 1 of 3",
    ),
    (
        &[0xF2, 0xFD, 0xEF],
        "Count 1021 (counter), mask EFh -> FFh: 1Fh becomes 0Fh, 4 bits left; the code starts \
         anew, step 1 of 3",
    ),
    (
        &[0xCD, 0xFE, 0xFF],
        "Compare 1022 (code byte 1) with FFh -> FFh: right; step 2 of 3",
    ),
    (
        &[0xCD, 0xFE, 0xFF],
        "Compare 1022 (code byte 1) with FFh -> FFh: nothing changes, 1023 comes next; the code \
         starts anew",
    ),
    (
        &[0xF2, 0xFD, 0xF7],
        "Count 1021 (counter), mask F7h -> FFh: 0Fh becomes 07h, 3 bits left; step 1 of 3",
    ),
    (
        &[0xCD, 0xFE, 0xFF],
        "Compare 1022 (code byte 1) with FFh -> FFh: right; step 2 of 3",
    ),
    (
        &[0xCD, 0xFF, 0x00],
        "Compare 1023 (code byte 2) with 00h -> FFh: wrong; the code starts anew",
    ),
    (
        &[0xF2, 0xFD, 0xFB],
        "Count 1021 (counter), mask FBh -> FFh: 07h becomes 03h, 2 bits left; step 1 of 3",
    ),
    (&[0x0E, 0x05, 0x00], "Read 5 -> FFh; the code starts anew"),
    (
        &[0xF2, 0xFD, 0xFD],
        "Count 1021 (counter), mask FDh -> FFh: 03h becomes 01h, 1 bit left; step 1 of 3",
    ),
    (&[], "power lost and back: the code starts anew"),
    (&[], "power lost and back: nothing changes"),
    (
        &[0xF2, 0xFD, 0x00],
        "Count 1021 (counter), mask 00h -> FFh: 01h becomes 00h, 0 bits left; step 1 of 3",
    ),
    (
        &[0xCD, 0xFE, 0xFF],
        "Compare 1022 (code byte 1) with FFh -> FFh: right; step 2 of 3",
    ),
    (
        &[0xCD, 0xFF, 0xFF],
        "Compare 1023 (code byte 2) with FFh -> FFh: right; step 3 of 3, the card is open",
    ),
    (
        &[0xCD, 0xFF, 0x00],
        "Compare 1023 (code byte 2) with 00h -> FFh: nothing changes, the card is open already",
    ),
    (&[0xCE, 0xFE, 0x00], "Read 1022 (code byte 1) -> FFh"),
    (
        &[0xF3, 0xFD, 0xFF],
        "Write 1021 (counter) = FFh -> FFh: 00h becomes FFh, 8 bits left",
    ),
    (
        &[0xF2, 0xFD, 0xFE],
        "Count 1021 (counter), mask FEh -> FFh: FFh becomes FEh, 7 bits left",
    ),
    (
        &[0x33, 0x05, 0xA5],
        "Write 5 = A5h -> FFh: FFh becomes A5h",
    ),
    (
        &[0x33, 0x05, 0xA5],
        "Write 5 = A5h -> FFh: it is A5h already",
    ),
    (
        &[0x30, 0x05, 0xA4],
        "Protect 5 if it is A4h -> FFh: nothing changes, the byte is A5h",
    ),
    (
        &[0x30, 0x05, 0xA5],
        "Protect 5 if it is A5h -> FFh: protected for ever",
    ),
    (
        &[0x30, 0x05, 0xA5],
        "Protect 5 if it is A5h -> FFh: nothing changes, protected already",
    ),
    (
        &[0x33, 0x05, 0x00],
        "Write 5 = 00h -> FFh: nothing changes, protected",
    ),
    (
        &[0x0C, 0x05, 0x00],
        "Read with Protect Bit 5 -> A5h 00h: protected",
    ),
    (
        &[0xB1, 0x07, 0x42],
        "Write and Protect 519 = 42h -> FFh: FFh becomes 42h, protected for ever",
    ),
    (
        &[0xF0, 0xFD, 0xFE],
        "Protect 1021 (counter) if it is FEh -> FFh: protected for ever; once power is lost the \
         card never opens again",
    ),
    (&[], "power lost and back: the card is closed"),
    (
        &[0xF2, 0xFD, 0xFD],
        "Count 1021 (counter), mask FDh -> FFh: nothing changes, the counter is protected",
    ),
];

#[test]
fn a_card_trace() {
    let folder = Folder::new("a_card_trace");
    let (mut log, mut expected) = (Vec::new(), String::new());
    for (number, (bytes, words)) in TRACE.iter().enumerate() {
        match bytes {
            [] => {
                log.push(0x06);
                expected += &format!("{number:>11}  {words}\n");
            }
            [first, second, third] => {
                log.extend([0x20, *first, *second, *third]);
                expected +=
                    &format!("{number:>11}  {first:02X}h {second:02X}h {third:02X}h  {words}\n");
            }
            _ => panic!("three bytes"),
        }
    }
    expected += "log: read to its end; 47 records done, 179 bytes used, 47 bytes answered\n\
                 card: closed for good, the counter is protected\n\
                 counter: FEh, 7 bits left, protected\n\
                 protected: 3 bytes: 5, 519, 1021\n\
                 end 0 47\n";
    let save = folder.file("traced");
    let args = ["card", "--trace", "--save", &save, "-"];
    assert_eq!(succeeds(&with_input(&args, &log)), expected);

    // The same end without a trace, and by the library in one go.
    let plain = folder.file("plain");
    succeeds(&with_input(&["card", "--save", &plain, "-"], &log));
    let mut card = Card::new();
    assert_eq!(card.replay(&log).0.refusal, None);
    assert_eq!(fs::read(save).expect("the card"), image(&card));
    assert_eq!(fs::read(plain).expect("the card"), image(&card));
}

/// The trace that the paper for drivers shows is the one that is printed.
#[test]
fn a_card_trace_of_the_papers() {
    let commands = [OPEN[0], Command::Read { address: COUNTER }, OPEN[1]];
    let printed = succeeds(&with_input(&["card", "--trace", "-"], &log(&commands)));
    is_shown_to_drivers(&printed);
}

/// The answer in the trace is the library's, for every first byte, before and after the code.
#[test]
fn a_card_trace_has_the_answers() {
    let folder = Folder::new("a_card_trace_has_the_answers");
    let mut bytes = Vec::new();
    for first in 0..=255 {
        bytes.extend([0x20, first, 0x10, 0xFF]);
    }
    let log = [&bytes[..], &log(&OPEN), &bytes].concat();
    let file = folder.write("log", &log);
    let traced = succeeds(&sleetanvil(&["card", "--trace", &file]));
    let mut card = Card::new();
    for (line, record) in traced.lines().zip(log.chunks_exact(4)) {
        let answer = card.command([record[1], record[2], record[3]]);
        let words: Vec<_> = answer.iter().map(|byte| format!("{byte:02X}h")).collect();
        let told = line.split_once(" -> ").expect("an answer").1;
        let told = told.split([':', ';']).next();
        assert_eq!(told, Some(&words.join(" ")[..]), "{line}");
    }
    assert_eq!(traced.lines().count(), 515 + 5);
    assert!(card.is_open());
}

/// The lines of a card at each stage, and whether it can be opened again.
#[test]
fn a_card_is_put_into_words() {
    let folder = Folder::new("a_card_is_put_into_words");
    let full = "counter: FEh, 7 bits left";
    let none = "protected: no byte";
    for (count, card) in [
        (1, "card: closed, step 1 of 3 is done"),
        (2, "card: closed, step 2 of 3 is done"),
        (3, "card: open"),
    ] {
        assert_eq!(lines(&[], &log(&OPEN[..count])), [card, full, none]);
    }
    let open = |more: &[Command]| log(&[&OPEN[..], more].concat());
    assert_eq!(
        lines(&[], &open(&[protect(COUNTER, 0xFE)])),
        [
            "card: open, and as it is never again once power is lost: the counter is protected",
            "counter: FEh, 7 bits left, protected",
            "protected: 1 byte: 1021"
        ]
    );
    let spent = open(&[write(COUNTER, 0x00)]);
    let spent_lines = |card| [card, "counter: 00h, 0 bits left", none];
    assert_eq!(
        lines(&[], &spent),
        spent_lines(
            "card: open, and as it is never again once power is lost: no counter bit is left"
        )
    );
    let spent = [&spent[..], &[0x06]].concat();
    assert_eq!(
        lines(&[], &spent),
        spent_lines("card: closed for good, no counter bit is left")
    );

    // Stretches of protected bytes, up to eight of them.
    let mut card = Card::new();
    for (bits, words) in [
        (&[(0, 0x01)][..], "1 byte: 0"),
        (&[(0, 0x06)], "3 bytes: 0 to 2"),
        (&[(1, 0xFF), (127, 0x80)], "12 bytes: 0 to 2, 8 to 15, 1023"),
        (
            &[(2, 0xAA), (3, 0x2A)],
            "19 bytes: 0 to 2, 8 to 15, 17, 19, 21, 23, 25, 27, ..",
        ),
    ] {
        for &(place, mask) in bits {
            card.bits_mut()[place] &= !mask;
        }
        let file = folder.write("image", &image(&card));
        assert_eq!(
            lines(&["--image", &file], &[])[2],
            format!("protected: {words}")
        );
    }
    let file = folder.write("image", &[0x00; 1152]);
    assert_eq!(
        lines(&["--image", &file], &[]),
        [
            "card: closed for good, the counter is protected",
            "counter: 00h, 0 bits left, protected",
            "protected: 1024 bytes: 0 to 1023"
        ]
    );
}

/// A card is saved as it is pulled: its memory is kept, and how far the code came is not.
#[test]
fn a_card_is_saved_and_put_in_again() {
    let folder = Folder::new("a_card_is_saved_and_put_in_again");
    let file = folder.file("card");
    let save = ["card", "--save", &file, "-"];
    succeeds(&with_input(&save, &[]));
    assert_eq!(fs::read(&file).expect("the card"), [0xFF; 1152]);

    let first = [
        &OPEN[..],
        &[write(0, 0x11), write(1023, 0x34), protect(0, 0x11)],
    ]
    .concat();
    let printed = succeeds(&with_input(&save, &log(&first)));
    assert!(printed.contains("\ncard: open\n"), "{printed}");
    let saved = fs::read(&file).expect("the card");
    assert_eq!((saved.len(), saved[0], saved[1023]), (1152, 0x11, 0x34));
    assert_eq!((saved[1021], saved[1024], saved[1151]), (0xFE, 0xFE, 0xFF));

    // The second log, into the same file: closed at first, and with the new code.
    let (image_of, renew) = (format!("--image={file}"), format!("--save={file}"));
    let second = log(&[
        write(1, 0x22),
        Command::Count { mask: 0xFD },
        OPEN[1],
        Command::Compare {
            address: 1023,
            data: 0x34,
        },
        write(2, 0x33),
    ]);
    succeeds(&with_input(&["card", &image_of, &renew, "-"], &second));
    let mut card = Card::new();
    let whole = [&log(&first)[..], &[0x06], &second].concat();
    assert_eq!(card.replay(&whole).0.refusal, None);
    assert_eq!(card.stage(), Stage::Open);
    assert_eq!(card.cells()[..3], [0x11, 0xFF, 0x33]);
    assert_eq!(fs::read(&file).expect("the card"), image(&card));

    // Without --save the file stays, and with another name for it the first does.
    let before = fs::read(&file).expect("the card");
    let other = folder.file("other");
    succeeds(&with_input(&["card", &image_of, "-"], &second));
    let args = ["card", &image_of, "--save", &other, "-"];
    succeeds(&with_input(&args, &log(&[Command::Count { mask: 0xFB }])));
    assert_eq!(fs::read(&file).expect("the card"), before);
    assert_eq!(fs::read(&other).expect("the card")[1021], 0xF8);
    assert_eq!(folder.names(), ["card", "other"]);
}

#[test]
fn a_bad_card_image() {
    let folder = Folder::new("a_bad_card_image");
    for (length, refusal) in [
        (0, Refusal::BadCardCells),
        (1, Refusal::BadCardCells),
        (1023, Refusal::BadCardCells),
        (1024, Refusal::BadCardBits),
        (1151, Refusal::BadCardBits),
        (1153, Refusal::BadCardBits),
        (2304, Refusal::BadCardBits),
    ] {
        let bytes = vec![0xFF; length];
        let file = folder.write("card", &bytes);
        let output = with_input(&["card", "--image", &file, "--save", &file, "-"], &[0x06]);
        let number = refusal.number();
        let message = format!(
            "{file}: the image has {length} bytes, and one of a card has 1152: {refusal} (refusal \
             {number})"
        );
        fails(&output, 1, &message);
        assert!(output.stdout.is_empty());
        assert_eq!(fs::read(&file).expect("the image"), bytes);
    }
    let missing = folder.file("missing");
    let output = with_input(&["card", "--image", &missing, "-"], &[]);
    fails(&output, 1, "missing: ");
    fails(&sleetanvil(&["card", &missing]), 1, "missing: ");
    fails(
        &sleetanvil(&["card", &folder.file("")]),
        1,
        &folder.file(""),
    );
    assert_eq!(folder.names(), ["card"]);
}

/// A log that is refused: what stands before it is told, and nothing is saved.
#[test]
fn a_bad_card_log_leaves_the_image_as_it_was() {
    let folder = Folder::new("a_bad_card_log");
    let file = folder.file("card");
    succeeds(&with_input(&["card", "--save", &file, "-"], &[]));
    for (end, refusal, fault) in [
        (&[0x01][..], Refusal::BadKind, "the byte is 01h"),
        (
            &[0x21, 0x20, 0x00, 0x00],
            Refusal::BadKind,
            "the byte is 21h",
        ),
        (&[0x20], Refusal::ShortBody, "nothing comes behind 20h"),
        (
            &[0x20, 0x33],
            Refusal::ShortBody,
            "nothing comes behind 20h 33h",
        ),
        (
            &[0x20, 0x0C, 0x05],
            Refusal::ShortBody,
            "nothing comes behind 20h 0Ch 05h",
        ),
    ] {
        let bad = [&log(&OPEN[..2])[..], end].concat();
        let number = refusal.number();
        for trace in [&[][..], &["--trace"]] {
            let args = [&["card", "--image", &file, "--save", &file, "-"], trace].concat();
            let output = with_input(&args, &bad);
            let message = format!(
                "standard input: byte 8, record 2: {refusal} (refusal {number}): {fault}; {file} \
                 is left as it was\n"
            );
            fails(&output, 1, &message);
            let printed = text(&output.stdout);
            let expected = format!(
                "log: stopped, {refusal} (refusal {number}); 2 records done, 8 bytes used, 2 bytes \
                 answered\ncard: closed, step 2 of 3 is done\ncounter: FEh, 7 bits \
                 left\nprotected: no byte\nend {number} 2\n"
            );
            assert!(printed.ends_with(&expected), "{printed}");
            let traced = if trace.is_empty() { 0 } else { 2 };
            assert_eq!(printed.lines().count(), traced + 5);
            assert_eq!(fs::read(&file).expect("the card"), [0xFF; 1152]);
            assert_eq!(folder.names(), ["card"]);
        }
    }
}

/// A card is saved as an image of the flash is: whole, by its old mode, and over nothing but a file
/// that is not the log.
#[test]
fn a_card_is_saved_as_other_files_are() {
    let folder = Folder::new("a_card_is_saved_as_other_files_are");
    let file = folder.write("card", b"old");
    fs::set_permissions(&file, Permissions::from_mode(0o640)).expect("a mode");
    symlink("card", folder.file("link")).expect("a link");
    let link = folder.file("link");
    succeeds(&with_input(&["card", "--save", &link, "-"], &[]));
    assert_eq!(fs::read(&file).expect("the card"), [0xFF; 1152]);
    assert_eq!(mode(&file), 0o640);
    let (inner, none) = (folder.file("inner"), folder.file("no/card"));
    fs::create_dir(&inner).expect("a folder");
    for (path, message) in [
        (&inner[..], "it is a folder, not a file"),
        ("/dev/null", "it is a device, not a file"),
        (&none, "there is no folder"),
    ] {
        let output = with_input(&["card", "--trace", "--save", path, "-"], &log(&OPEN));
        fails(&output, 1, &format!("{path}: cannot save: {message}"));
        assert!(output.stdout.is_empty());
    }
    let bytes = log(&OPEN);
    let file = folder.write("log", &bytes);
    let linked = folder.file("linked");
    fs::hard_link(&file, &linked).expect("a link");
    for save in [&file, &linked] {
        let output = sleetanvil(&["card", "--save", save, &file]);
        fails(&output, 1, "--save and the log are the same file");
        assert!(output.stdout.is_empty());
        assert_eq!(fs::read(&file).expect("the log"), bytes);
    }
    assert_eq!(folder.names(), ["card", "inner", "link", "linked", "log"]);
}

/// A log that is longer than a piece, whose records straddle the pieces.
#[test]
fn a_long_card_log() {
    let folder = Folder::new("a_long_card_log");
    let once = [&[0x06][..], &log(&OPEN), &[0x20, 0x0C, 0x00, 0x00]].concat();
    let mut long = once.repeat(40_000);
    assert!(long.len() > 2 << 18 && once.len() % 4 == 1);
    let end = "log: read to its end; 200000 records done, 680000 bytes used, 200000 bytes \
               answered\ncard: closed\ncounter: FEh, 7 bits left\nprotected: no byte\nend 0 200000\n";
    assert_eq!(succeeds(&with_input(&["card", "-"], &long)), end);
    let file = folder.write("log", &long);
    let traced = succeeds(&sleetanvil(&["card", "--trace", &file]));
    assert!(traced.ends_with(end));
    assert_eq!(traced.lines().count(), 200_005);

    long.extend([0x20, 0xF2]);
    let output = with_input(&["card", "-"], &long);
    let place = "byte 680000, record 200000: ";
    fails(&output, 1, place);
    fails(&output, 1, "(refusal 7): nothing comes behind 20h F2h");
    assert!(text(&output.stdout).ends_with("\nend 7 200000\n"));
}

/// As with `| head`: no message, and the status of a program that the closed pipe ended.
#[test]
fn nobody_reads_the_card() {
    let folder = Folder::new("nobody_reads_the_card");
    let log = log(&OPEN).repeat(20_000);
    let file = folder.file("card");
    let mut child = start(&["card", "--trace", "--save", &file, "-"]);
    let mut stdin = child.stdin.take().expect("its standard input");
    let writer = std::thread::spawn(move || drop(stdin.write_all(&log)));
    let mut reader = BufReader::new(child.stdout.take().expect("its standard output"));
    let mut line = String::new();
    reader.read_line(&mut line).expect("a line");
    assert!(line.ends_with("; step 1 of 3\n"), "{line}");
    drop(reader);
    writer.join().expect("the writer");
    let output = child.wait_with_output().expect("the program ends");
    assert_eq!(text(&output.stderr), "");
    assert_eq!(output.status.code(), Some(141));
    assert!(folder.names().is_empty(), "nothing is saved");
}
