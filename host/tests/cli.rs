//! The command-line program from outside: its logs, images, trace, parameter pages, cards and
//! refusals.

#[path = "cli/card.rs"]
mod card;
mod support;

use std::fs::{self, Permissions};
use std::io::{BufRead, BufReader, Write};
use std::os::unix::fs::{symlink, PermissionsExt};
use std::os::unix::net::UnixListener;
use std::path::{Path, PathBuf};
use std::process::{Child, Command, Output, Stdio};

use sleetanvil::{page, Device, Geometry, Log, Record, Records, Refusal, Stepping};
use support::generate::Generator;

/// The log of document 01.
const REPLAY: [u8; 16] = [
    0x04, 0x13, 0x00, 0x01, 0x02, 0x0F, 0x02, 0xC0, 0x02, 0x00, 0x04, 0x01, 0x00, 0x02, 0x00, 0x03,
];

/// The length of a bench part's image of version 1: head, cells, page counts.
const OLD_IMAGE: usize = 32 + 640 + 32;
/// And of version 2: state and cache register too.
const BENCH_IMAGE: usize = OLD_IMAGE + 24 + 20;

/// A folder of a test's own, gone when the test is over.
struct Folder {
    path: PathBuf,
}

impl Folder {
    fn new(test: &str) -> Self {
        let path = Path::new(env!("CARGO_TARGET_TMPDIR")).join(test);
        // It is there only if an earlier run was stopped.
        let _ = fs::remove_dir_all(&path);
        fs::create_dir_all(&path).expect("a folder for the test");
        Folder { path }
    }

    fn file(&self, name: &str) -> String {
        let path = self.path.join(name);
        path.to_str().expect("a readable path").into()
    }

    fn write(&self, name: &str, bytes: &[u8]) -> String {
        let file = self.file(name);
        fs::write(&file, bytes).expect("a file for the test");
        file
    }

    fn names(&self) -> Vec<String> {
        let entries = fs::read_dir(&self.path).expect("the folder");
        let mut names: Vec<_> = entries
            .map(|entry| entry.expect("an entry").file_name())
            .map(|name| name.to_string_lossy().into_owned())
            .collect();
        names.sort();
        names
    }
}

impl Drop for Folder {
    fn drop(&mut self) {
        let _ = fs::remove_dir_all(&self.path);
    }
}

fn sleetanvil(args: &[&str]) -> Output {
    with_input(args, &[])
}

fn with_input(args: &[&str], input: &[u8]) -> Output {
    let mut child = start(args);
    let mut stdin = child.stdin.take().expect("its standard input");
    // A program that does not want the input may be gone already.
    let _ = stdin.write_all(input);
    drop(stdin);
    child.wait_with_output().expect("the program ends")
}

fn start(args: &[&str]) -> Child {
    support::program(Path::new(env!("CARGO_BIN_EXE_sleetanvil")))
        .args(args)
        .stdin(Stdio::piped())
        .stdout(Stdio::piped())
        .stderr(Stdio::piped())
        .spawn()
        .expect("the program starts")
}

#[track_caller]
fn succeeds(output: &Output) -> String {
    assert_eq!(output.status.code(), Some(0), "{}", text(&output.stderr));
    assert!(output.stderr.is_empty(), "{}", text(&output.stderr));
    text(&output.stdout)
}

#[track_caller]
fn fails(output: &Output, status: i32, message: &str) {
    assert_eq!(output.status.code(), Some(status));
    let error = text(&output.stderr);
    assert!(error.starts_with("sleetanvil: "), "{error}");
    assert!(error.contains(message), "{error}");
}

fn text(bytes: &[u8]) -> String {
    String::from_utf8_lossy(bytes).into_owned()
}

/// A log that unlocks the part and programs one byte of a row.
fn program(row: u16, byte: u8) -> Log {
    let [high, low] = row.to_be_bytes();
    let mut log = Log::new();
    log.push(Record::Work(u16::MAX));
    log.transfer(&[0x1F, 0xA0, 0x00]);
    log.transfer(&[0x06]);
    log.transfer(&[0x02, 0x00, 0x00, byte]);
    log.transfer(&[0x10, 0x00, high, low]);
    log.push(Record::Work(u16::MAX));
    log
}

#[test]
fn help_and_version() {
    for args in [
        &["--help"][..],
        &["-h"],
        &["help"],
        &["replay", "--help"],
        &["page", "--help"],
        &["page", "-o", "a", "-h"],
        &["card", "--help"],
        &["card", "--trace", "a", "-h"],
    ] {
        let help = succeeds(&sleetanvil(args));
        for word in [
            "usage:",
            "--stepping",
            "--image",
            "--power-up",
            "--save",
            "--out",
            "--expect",
            "--trace",
            "--judge",
            "--read",
            "-o FILE",
            "SLEETIMG",
            "options of card",
            "20 nn nn nn",
            "1152 bytes",
        ] {
            assert!(help.contains(word), "{word}");
        }
    }
    let version = succeeds(&sleetanvil(&["--version"]));
    assert_eq!(
        version,
        concat!("sleetanvil ", env!("CARGO_PKG_VERSION"), "\n")
    );
}

#[test]
fn a_bad_command_line() {
    for (args, message) in [
        (&[][..], "no command"),
        (&["rerun"], "no such command: rerun"),
        (&["replay"], "no log"),
        (&["replay", "a", "b"], "more than one log"),
        (&["replay", "--fast", "a"], "no such option: --fast"),
        (&["replay", "--part", "other", "a"], "no such part: other"),
        (&["replay", "--part"], "--part needs a value"),
        (&["replay", "--stepping", "3", "a"], "no such stepping: 3;"),
        (&["replay", "--stepping=0", "a"], "no such stepping: 0;"),
        (&["replay", "--stepping=02", "a"], "no such stepping: 02;"),
        (&["replay", "--stepping=", "a"], "no such stepping: ;"),
        (
            &["replay", "--stepping", "second", "a"],
            "no such stepping: second; there are 1 and 2",
        ),
        (&["replay", "--stepping"], "--stepping needs a value"),
        (&["replay", "--stepping=1", "--stepping=2", "a"], "twice"),
        (&["replay", "--bytes", "many", "a"], "not a number: many"),
        (&["replay", "--save", "a", "--save", "b", "c"], "twice"),
        (&["replay", "--save", "a", "--save=b", "c"], "twice"),
        (&["replay", "--trace=yes", "a"], "--trace takes no value"),
        (&["replay", "--fast=yes", "a"], "no such option: --fast"),
        (&["replay", "--=a", "a"], "-- takes no value"),
        (&["replay", "--bytes=", "a"], "not a number: "),
        (&["replay", "-o", "a", "b"], "no such option: -o"),
        (&["replay", "--read", "a"], "no such option: --read"),
        (&["page"], "page needs -o or --read"),
        (&["page", "--part", "bench"], "page needs -o or --read"),
        (&["page", "a"], "by -o or --read: a"),
        (&["page", "-"], "by -o or --read: -"),
        (&["page", "-o", "a", "b"], "by -o or --read: b"),
        (&["page", "-o"], "-o needs a value"),
        (&["page", "--read"], "--read needs a value"),
        (&["page", "-o", "a", "--read", "b"], "-o and --read"),
        (&["page", "--read=b", "--out=a"], "-o and --read"),
        (
            &["page", "--part", "bench", "--read", "b"],
            "--part and --read",
        ),
        (
            &["page", "--part", "bench", "-o", "a", "--read", "b"],
            "-o and --read",
        ),
        (&["page", "-o", "a", "--out", "b"], "--out is given twice"),
        (&["page", "--read", "a", "--read", "b"], "twice"),
        (&["page", "--part", "other", "-o", "a"], "no such part"),
        (&["page", "--trace", "-o", "a"], "no such option: --trace"),
        (&["page", "--stepping", "2", "-o", "a"], "no such option"),
        (&["page", "-o=a"], "no such option: -o=a"),
        (&["page", "--", "-o", "a"], "no such option: --"),
        (&["card"], "no log"),
        (&["card", "a", "b"], "more than one log"),
        (&["card", "-", "-"], "more than one log"),
        (&["card", "--image"], "--image needs a value"),
        (&["card", "--save", "a", "--save=b", "c"], "twice"),
        (&["card", "--image=a", "--image", "b", "c"], "twice"),
        (&["card", "--trace=yes", "a"], "--trace takes no value"),
        (&["card", "--part", "bench", "a"], "no such option: --part"),
        (&["card", "--stepping", "1", "a"], "no such option"),
        (&["card", "--judge", "a"], "no such option: --judge"),
        (&["card", "--out", "a", "b"], "no such option: --out"),
        (&["card", "-x", "a"], "no such option: -x"),
    ] {
        fails(&sleetanvil(args), 2, message);
    }
}

#[test]
fn a_good_log() {
    let folder = Folder::new("a_good_log");
    let log = folder.write("log", &REPLAY);
    assert_eq!(succeeds(&sleetanvil(&["replay", &log])), "end 0 8\n");
    assert_eq!(
        succeeds(&with_input(&["replay", "-"], &REPLAY)),
        "end 0 8\n"
    );
    assert_eq!(succeeds(&with_input(&["replay", "-"], &[])), "end 0 0\n");
    assert_eq!(folder.names(), ["log"]);
}

#[test]
fn options_in_other_forms() {
    let folder = Folder::new("options_in_other_forms");
    let log = folder.write("a=b", &REPLAY);
    let (image, save) = (
        folder.file("image"),
        format!("--save={}", folder.file("image")),
    );
    for part in ["--part=bench", "--part=Bench", "--part=BENCH"] {
        assert_eq!(
            succeeds(&sleetanvil(&["replay", part, &save, &log])),
            "end 0 8\n"
        );
        assert_eq!(fs::read(&image).expect("the image").len(), BENCH_IMAGE);
    }
    let args = ["replay", "--part", "FM25S005BI3", &save, "--", &log];
    assert_eq!(succeeds(&sleetanvil(&args)), "end 0 8\n");
    assert!(fs::read(&image).expect("the image").len() > 70_000_000);
    let strange = folder.write("--part=x", &REPLAY);
    assert!(strange.ends_with("/--part=x"));
    let output = support::program(Path::new(env!("CARGO_BIN_EXE_sleetanvil")))
        .args(["replay", "--", "--part=x"])
        .current_dir(&folder.path)
        .output();
    assert_eq!(succeeds(&output.expect("the program")), "end 0 8\n");
}

/// A log that is longer than a piece, whose records straddle the pieces.
#[test]
fn a_long_log() {
    let folder = Folder::new("a_long_log");
    let once = [&REPLAY[..], &[0x04, 0x01, 0x00]].concat();
    let log = once.repeat(20_000);
    let file = folder.write("log", &log);
    let mut device = Device::power_up(Geometry::bench()).expect("a device");
    let mut out = vec![0; log.len() / 2];
    let answer = device.run(&log, &mut out);
    assert_eq!((answer.refusal, answer.records), (None, 180_000));
    let wanted = folder.write("wanted", &out[..answer.written]);
    for from in [&file, "-"] {
        let args = ["replay", "--expect", &wanted, from];
        assert_eq!(succeeds(&with_input(&args, &log)), "end 0 180000\n");
    }
    let trace = succeeds(&sleetanvil(&[
        "replay", "--trace", "--expect", &wanted, &file,
    ]));
    assert!(trace.ends_with("\nend 0 180000\n"));
    assert_eq!(trace.lines().count(), 80_001);

    // A refusal far behind the first piece.
    for (end, number, fault) in [
        (&[0x00][..], 6, "the byte is 00h"),
        (&[0x04, 0x01], 7, "nothing comes behind 04h 01h"),
        (&[0x05, 0xC0], 8, "the level is C0h"),
    ] {
        let output = with_input(&["replay", "-"], &[&log, end].concat());
        fails(&output, 1, "byte 380000, record 180000: ");
        fails(&output, 1, &format!("(refusal {number}): {fault}"));
        assert_eq!(text(&output.stdout), format!("end {number} 180000\n"));
    }
}

#[track_caller]
fn judged(args: &[&str], log: &[u8], status: i32, line: &str) {
    let output = with_input(&[&["replay", "--judge"], args, &["-"]].concat(), log);
    assert_eq!(
        output.status.code(),
        Some(status),
        "{}",
        text(&output.stderr)
    );
    assert_eq!(text(&output.stdout).lines().next(), Some(line));
    assert_eq!(
        output.stderr.is_empty(),
        status != 1,
        "{}",
        text(&output.stderr)
    );
}

/// What is said of a log without work.
const ENDS_AT_POWER_UP: &str = "not orderly: it ends while busy: read of row 0, 0 of 20 units done";

#[test]
fn a_judgement() {
    let output = with_input(&["replay", "--judge", "-"], &REPLAY);
    assert_eq!(succeeds(&output), "orderly\nend 0 8\n");
    judged(&[], &[0x04, 0x14, 0x00], 0, "orderly");
    judged(&[], &[], 3, ENDS_AT_POWER_UP);

    let transfer = |bytes: &[u8]| {
        let mut log = Log::new();
        log.transfer(bytes);
        log.push(Record::Work(u16::MAX));
        log
    };
    for code in [0x06, 0x04, 0x1F, 0x13, 0x03, 0x0B, 0x02, 0x84, 0x10, 0xD8] {
        let line = format!("not orderly: record 1, {code:02X}h begun while busy");
        judged(&[], transfer(&[code]).as_bytes(), 3, &line);
    }
    for bytes in [
        &[0x0F, 0xC0, 0x00][..],
        &[0x9F],
        &[0x6B],
        &[0xFF, 0x00],
        &[],
    ] {
        judged(&[], transfer(bytes).as_bytes(), 0, "orderly");
    }
    let line = "not orderly: record 2, a reset took effect while busy";
    judged(&[], transfer(&[0xFF]).as_bytes(), 3, line);
    let line = "not orderly: record 1, power lost while busy";
    judged(&[], &[0x04, 0x13, 0x00, 0x06, 0x04, 0x14, 0x00], 3, line);
    judged(
        &[],
        &[0x04, 0x14, 0x00, 0x06, 0x04, 0x14, 0x00],
        0,
        "orderly",
    );

    // A log that is refused: the verdict is of the records done, the status that of a refusal.
    judged(&[], &[0x04, 0x14, 0x00, 0x07], 1, "orderly");
    let line = "not orderly: it ends while busy: read of row 0, 19 of 20 units done";
    judged(&[], &[0x04, 0x13, 0x00, 0x07], 1, line);
}

/// A reset is an operation of its own: what comes in its 8 units comes while busy.
#[test]
fn a_judgement_of_a_reset() {
    let begun = |more: &[Record]| {
        let mut log = Log::new();
        log.push(Record::Work(20));
        log.transfer(&[0xFF]);
        log.extend(more.iter().copied());
        log
    };
    let sent = |code| [Record::Select, Record::Shift(code), Record::Deselect];
    let (seven, last) = (Record::Work(7), Record::Work(1));
    for (more, line) in [
        (&[][..], "it ends while busy: reset, 0 of 8 units done"),
        (&[seven], "it ends while busy: reset, 7 of 8 units done"),
        (&sent(0x06), "record 5, 06h begun while busy"),
        (
            &[&[seven], &sent(0x1F)[..], &[last]].concat(),
            "record 6, 1Fh begun while busy",
        ),
        (
            &[&[seven], &sent(0xFF)[..], &[last, seven]].concat(),
            "record 7, a reset took effect while busy",
        ),
        (&[seven, Record::Power], "record 5, power lost while busy"),
    ] {
        let line = format!("not orderly: {line}");
        judged(&[], begun(more).as_bytes(), 3, &line);
    }
    // Begun in the reset, in effect behind it.
    let [select, shift, deselect] = sent(0xFF);
    for more in [
        &[seven, last][..],
        &[&[seven], &sent(0x9F)[..], &[last]].concat(),
        &[&[seven, last], &sent(0x06)[..]].concat(),
        &[select, shift, seven, last, deselect, seven, last],
    ] {
        judged(&[], begun(more).as_bytes(), 0, "orderly");
    }
}

/// Of a device that was saved busy a log is not orderly, whatever it does.
#[test]
fn a_judgement_of_the_start() {
    let folder = Folder::new("a_judgement_of_the_start");
    let (image, saved) = (folder.file("image"), folder.file("saved"));
    let line = "not orderly: it ends while busy: read of row 0, 1 of 20 units done";
    judged(&["--save", &image], &[0x04, 0x01, 0x00], 3, line);
    let idle = [0x04, 0x14, 0x00];
    let line = "not orderly: it begins while busy, and not at power-up";
    judged(&["--image", &image, "--save", &saved], &idle, 3, line);
    judged(&["--image", &image, "--power-up"], &idle, 0, "orderly");
    // What is not orderly was saved all the same.
    judged(&["--image", &saved], &[], 0, "orderly");
    // Power-up with WP# low is power-up.
    judged(&["--save", &image], &[0x05, 0x00], 3, ENDS_AT_POWER_UP);
    judged(&["--image", &image], &idle, 0, "orderly");
}

#[test]
fn a_trace() {
    let traced = with_input(&["replay", "--trace", "-"], &REPLAY);
    let expected = "          \
        0  work of 19 units: read of row 0, 19 of 20 units done\n        \
        1-7  0Fh Get Feature C0h -> 01h 00h (busy, then idle)\n          \
        5      work of 1 unit: read of row 0 ends; status 01h -> 00h (idle)\n\
        end 0 8\n";
    assert_eq!(succeeds(&traced), expected);
}

#[test]
fn a_trace_of_much() {
    let mut log = program(5, 0xA5);
    log.push(Record::Shift(0x06));
    log.push(Record::Deselect);
    log.transfer(&[0x6B, 0x00]);
    log.transfer(&[0x06, 0x00]);
    log.transfer(&[0x10, 0x00, 0x00, 0x05]);
    log.transfer(&[0x06]);
    log.transfer(&[0xD8, 0x00, 0x00, 0x20]);
    log.transfer(&[0x06]);
    log.transfer(&[0xD8, 0x00, 0x00, 0x05]);
    log.transfer(&[0x06]);
    log.push(Record::Work(30));
    log.transfer(&[0xFF]);
    log.push(Record::Work(8));
    log.push(Record::Work(1));
    log.transfer(&[0x0B, 0x00, 0x13, 0x00, 0x00, 0x00, 0x00]);
    log.transfer(&[0x03, 0xFF, 0xFF, 0x00, 0x00]);
    log.transfer(&[0x02, 0x00, 0x12, 0x01, 0x02, 0x03]);
    log.transfer(&[0x13, 0x00, 0x00, 0x20]);
    log.push(Record::Work(20));
    log.transfer(&[0x1F]);
    log.transfer(&[0x1F, 0xB0, 0x01]);
    log.transfer(&[0x1F, 0xC0, 0x00]);
    log.transfer(&[0x1F, 0xD0, 0xFF]);
    log.transfer(&[0x1F, 0x55, 0x00]);
    log.transfer(&[0x1F, 0xA0, 0xFF]);
    log.transfer(&[0x0F, 0xA0, 0x00]);
    log.transfer(&[0x06]);
    log.transfer(&[0x10, 0x00, 0x00, 0x00]);
    log.push(Record::Level(false));
    log.transfer(&[0x1F, 0xA0, 0x00]);
    log.transfer(&[0x9F, 0x00, 0x00, 0x00]);
    log.push(Record::Select);
    log.push(Record::Power);
    let args = ["replay", "--trace", "--bytes", "2", "-"];
    let trace = succeeds(&with_input(&args, log.as_bytes()));
    for line in [
        "1Fh Set Feature A0h = 00h: 38h -> 00h, no block protected",
        "06h Write Enable; status 00h -> 02h (WEL)",
        "02h Program Load column 0 <- A5h",
        "10h Program Execute row 5: program of row 5 begins, 20 units; status 02h -> 01h (busy)",
        "work of 65535 units: program of row 5 ends with 20 of them; status 01h -> 00h (idle)",
        "shift 06h -> FFh: not selected, nothing happens",
        "deselect: not selected, nothing happens",
        "6Bh sent 00h; ignored: unknown instruction",
        "06h Write Enable and 00h: nothing happens, shifted 2 bytes, needs 1",
        "1Fh Set Feature: nothing happens, shifted 1 byte, needs 3",
        "10h Program Execute row 5: nothing happens, WEL is 0",
        "D8h Block Erase row 32 (outside the array): E_FAIL, the row is outside the array; \
         status 02h -> 04h (E_FAIL)",
        "D8h Block Erase row 5 (block 1): erase of block 1 begins, 80 units; \
         status 06h -> 01h (busy)",
        "06h Write Enable; ignored: busy at its first byte",
        "work of 30 units: erase of block 1, 30 of 80 units done",
        "FFh Reset: erase of block 1 cut after 30 of 80 units, reset begins, 8 units; \
         status stays 01h (busy)",
        "work of 8 units: reset ends; status 01h -> 00h (idle)",
        "work of 1 unit: the array is idle, nothing happens",
        "0Bh Fast Read From Cache column 19 -> FFh A5h .. 3 bytes in all \
         (2 past the page, from column 0 again)",
        "03h Read From Cache column 4095 (outside the page) -> FFh (1 past the page)",
        "02h Program Load column 18 <- 01h 02h .. 3 bytes in all (1 past the page, dropped)",
        "13h Page Read row 32 (outside the array): read of row 32 begins, 20 units, all FFh; \
         status 00h -> 01h (busy)",
        "1Fh Set Feature B0h = 01h: 10h -> 01h",
        "1Fh Set Feature C0h = 00h: nothing happens, C0h cannot be written",
        "1Fh Set Feature D0h = FFh: 40h -> 60h",
        "1Fh Set Feature 55h = 00h: nothing happens, there is no register at 55h",
        "1Fh Set Feature A0h = FFh: 00h -> BCh, all 8 blocks protected",
        "0Fh Get Feature A0h -> BCh (all 8 blocks protected)",
        "10h Program Execute row 0: P_FAIL, block 0 is protected; status 02h -> 08h (P_FAIL)",
        "WP# low",
        "1Fh Set Feature A0h = 00h: nothing happens, BRWD is 1 and WP# is low",
        "9Fh Read ID -> 5Ah 01h",
        "select without a byte; cut by power loss",
        "power lost and back: read of row 0 begins; set back to A0h 38h (all 8 blocks \
         protected), B0h 10h, D0h 40h and a cache register of FFh; WP# stays low; \
         status 08h -> 01h (busy)",
    ] {
        let found = trace.lines().any(|traced| traced.get(13..) == Some(line));
        assert!(found, "no line `{line}` in\n{trace}");
    }
}

/// A reset of an operation, of a reset, from idle, with WEL, with a fail bit, with a byte too many;
/// what is ignored and what is answered meanwhile; and one that a power loss cuts.
#[test]
fn a_trace_of_resets() {
    let sent = |bytes: &[u8]| {
        let mut log = Log::new();
        log.transfer(bytes);
        log
    };
    let work = |units| Log::from_iter([Record::Work(units)]);
    let steps = [
        (
            work(13),
            "work of 13 units: read of row 0, 13 of 20 units done",
        ),
        (
            sent(&[0xFF]),
            "FFh Reset: read of row 0 cut after 13 of 20 units, reset begins, 8 units; \
             status stays 01h (busy)",
        ),
        (
            sent(&[0x0F, 0xC0, 0x00]),
            "0Fh Get Feature C0h -> 01h (busy)",
        ),
        (sent(&[0x9F, 0x00, 0x00, 0x00]), "9Fh Read ID -> 5Ah 01h"),
        (work(5), "work of 5 units: reset, 5 of 8 units done"),
        (
            sent(&[0xFF]),
            "FFh Reset: reset begins anew after 5 of 8 units; status stays 01h (busy)",
        ),
        (work(7), "work of 7 units: reset, 7 of 8 units done"),
        (
            sent(&[0x06]),
            "06h Write Enable; ignored: busy at its first byte",
        ),
        (
            sent(&[0xFF, 0x00]),
            "FFh Reset and 00h: nothing happens, shifted 2 bytes, needs 1",
        ),
        (
            work(2),
            "work of 2 units: reset ends with 1 of them; status 01h -> 00h (idle)",
        ),
        (sent(&[0x06]), "06h Write Enable; status 00h -> 02h (WEL)"),
        (
            sent(&[0xFF]),
            "FFh Reset: reset begins, 8 units; status 02h -> 03h (busy, WEL)",
        ),
        (
            work(8),
            "work of 8 units: reset ends; status 03h -> 02h (WEL)",
        ),
        (
            sent(&[0x10, 0x00, 0x00, 0x00]),
            "10h Program Execute row 0: P_FAIL, block 0 is protected; \
             status 02h -> 08h (P_FAIL)",
        ),
        (
            sent(&[0x13, 0x00, 0x00, 0x01]),
            "13h Page Read row 1: read of row 1 begins, 20 units; \
             status 08h -> 09h (busy, P_FAIL)",
        ),
        (
            sent(&[0xFF]),
            "FFh Reset: read of row 1 cut after 0 of 20 units, reset begins, 8 units; \
             status 09h -> 01h (busy)",
        ),
        (
            Log::from_iter([Record::Power]),
            "power lost and back: reset cut after 0 of 8 units, read of row 0 begins; \
             set back to A0h 38h (all 8 blocks protected), B0h 10h, D0h 40h and a cache register \
             of FFh; WP# stays high",
        ),
    ];
    let log: Vec<_> = steps
        .iter()
        .flat_map(|(log, _)| log.as_bytes())
        .copied()
        .collect();
    let trace = succeeds(&with_input(&["replay", "--trace", "-"], &log));
    assert_eq!(texts(&trace), steps.map(|(_, line)| line));
}

/// The cache register of the bench part, loaded with 01h to 14h once the power-up read is done.
fn loaded() -> (Vec<u8>, Log) {
    let page: Vec<u8> = (0x01..=0x14).collect();
    let mut log = Log::new();
    log.push(Record::Work(20));
    log.transfer(&[&[0x02, 0x00, 0x00], &page[..]].concat());
    (page, log)
}

/// A cache read goes on at column 0 behind the page's end, as often as it comes there; one from
/// outside the page never does.
#[test]
fn a_trace_of_reads_past_the_page() {
    let folder = Folder::new("a_trace_of_reads_past_the_page");
    let out = folder.file("out");
    let (page, mut log) = loaded();
    let none = String::new;
    let past = |bytes| format!(" ({bytes} past the page)");
    let again = |bytes| format!(" ({bytes} past the page, from column 0 again)");
    #[rustfmt::skip]
    let steps = [
        (0x03, 18, 2, "column 18 -> 13h 14h", none()),
        (0x03, 18, 3, "column 18 -> 13h 14h 01h", again(1)),
        (0x0B, 19, 0, "column 19", none()),
        (0x0B, 19, 1, "column 19 -> 14h", none()),
        (0x0B, 19, 2, "column 19 -> 14h 01h", again(1)),
        (0x03, 0, 20, "column 0 -> 01h 02h 03h .. 20 bytes in all", none()),
        (0x03, 0, 21, "column 0 -> 01h 02h 03h .. 21 bytes in all", again(1)),
        (0x0B, 1, 39, "column 1 -> 02h 03h 04h .. 39 bytes in all", again(20)),
        (0x0B, 1, 40, "column 1 -> 02h 03h 04h .. 40 bytes in all", again(21)),
        (0x03, 18, 47, "column 18 -> 13h 14h 01h .. 47 bytes in all", again(45)),
        (0x03, 16, 4, "column 16 -> 11h 12h 13h .. 4 bytes in all", none()),
        (0x03, 16, 6, "column 16 -> 11h 12h 13h .. 6 bytes in all", again(2)),
        (0x03, 0xF013, 2, "column 19 -> 14h 01h", again(1)),
        (0x03, 20, 0, "column 20 (outside the page)", none()),
        (0x03, 20, 1, "column 20 (outside the page) -> FFh", past(1)),
        (0x0B, 20, 43, "column 20 (outside the page) -> FFh FFh FFh .. 43 bytes in all", past(43)),
        (0x03, 21, 2, "column 21 (outside the page) -> FFh FFh", past(2)),
        (0x0B, 4095, 1, "column 4095 (outside the page) -> FFh", past(1)),
        (0x03, 0xFFFF, 3, "column 4095 (outside the page) -> FFh FFh FFh", past(3)),
    ];
    let mut answers = vec![0xFF; 23];
    for &(code, address, count, ..) in &steps {
        let [high, low] = u16::to_be_bytes(address);
        log.transfer(&[&[code, high, low, 0x00], &vec![0x00; count][..]].concat());
        answers.extend([0xFF; 4]);
        match usize::from(address & 0x0FFF) {
            column @ 0..=19 => answers.extend(page.iter().cycle().skip(column).take(count)),
            _ => answers.extend(vec![0xFF; count]),
        }
    }
    let args = ["replay", "--trace", "--bytes", "3", "--out", &out, "-"];
    let trace = succeeds(&with_input(&args, log.as_bytes()));
    let lines = steps.map(|(code, _, _, words, past)| match code {
        0x03 => format!("03h Read From Cache {words}{past}"),
        _ => format!("0Bh Fast Read From Cache {words}{past}"),
    });
    assert_eq!(texts(&trace)[2..], lines);
    assert_eq!(fs::read(&out).expect("the bytes on DO"), answers);
}

/// Data of a load is dropped past the page, and goes on at no column; a read behind it does. What
/// is ignored goes nowhere.
#[test]
fn a_trace_of_loads_past_the_page() {
    let (_, mut log) = loaded();
    let steps = [
        (
            &[0x84, 0x00, 0x13, 0xA1][..],
            "84h Program Load Random Data column 19 <- A1h",
        ),
        (
            &[0x84, 0x00, 0x12, 0xB1, 0xB2, 0xB3, 0xB4],
            "84h Program Load Random Data column 18 <- B1h B2h B3h B4h \
             (2 past the page, dropped)",
        ),
        (
            &[0x84, 0x00, 0x14, 0xC1],
            "84h Program Load Random Data column 20 (outside the page) <- C1h \
             (1 past the page, dropped)",
        ),
        (
            &[0x84, 0x0F, 0xFF, 0xC1, 0xC2, 0xC3],
            "84h Program Load Random Data column 4095 (outside the page) <- C1h C2h C3h \
             (3 past the page, dropped)",
        ),
        (
            &[&[0x84, 0x00, 0x13], &[0xD1; 24][..]].concat(),
            "84h Program Load Random Data column 19 <- D1h D1h D1h D1h D1h .. 24 bytes in all \
             (23 past the page, dropped)",
        ),
        (
            &[0x03, 0x00, 0x11, 0x00, 0x00, 0x00, 0x00, 0x00, 0x00],
            "03h Read From Cache column 17 -> 12h B1h D1h 01h 02h \
             (2 past the page, from column 0 again)",
        ),
        (
            &[0x02, 0x00, 0x13, 0xE1, 0xE2],
            "02h Program Load column 19 <- E1h E2h (1 past the page, dropped)",
        ),
        (
            &[0x0B, 0x00, 0x13, 0x00, 0x00, 0x00],
            "0Bh Fast Read From Cache column 19 -> E1h FFh (1 past the page, from column 0 again)",
        ),
        (
            &[0x13, 0x00, 0x00, 0x00],
            "13h Page Read row 0: read of row 0 begins, 20 units; status 00h -> 01h (busy)",
        ),
        (
            &[0x03, 0x00, 0x13, 0x00, 0x00, 0x00],
            "03h Read From Cache column 19 -> FFh FFh; ignored: busy at its first byte",
        ),
        (
            &[0x02, 0x00, 0x13, 0xE1, 0xE2],
            "02h Program Load column 19 <- E1h E2h (1 past the page, dropped); \
             ignored: busy at its first byte",
        ),
    ];
    for (bytes, _) in steps {
        log.transfer(bytes);
    }
    let args = ["replay", "--trace", "--bytes", "5", "-"];
    let trace = succeeds(&with_input(&args, log.as_bytes()));
    assert_eq!(texts(&trace)[2..], steps.map(|(_, line)| line));
}

/// The paper for drivers shows what was printed, as it was printed.
#[track_caller]
fn is_shown_to_drivers(printed: &str) {
    let shown: String = printed
        .lines()
        .map(|line| format!("    {line}\n"))
        .collect();
    let paper = concat!(env!("CARGO_MANIFEST_DIR"), "/../docs/FOR-DRIVERS.md");
    let paper = fs::read_to_string(paper).expect("the paper");
    assert!(paper.contains(&format!("\n\n{shown}\n")), "{shown}");
}

/// The trace of a driver that does not wait for the end of its reset.
#[test]
fn a_trace_of_the_papers() {
    let mut log = Log::new();
    log.push(Record::Work(2176));
    log.transfer(&[0xFF]);
    log.transfer(&[0x9F, 0x00, 0x00, 0x00]);
    log.transfer(&[0x1F, 0xA0, 0x00]);
    log.push(Record::Work(8));
    log.transfer(&[0x06]);
    log.transfer(&[0x02, 0x00, 0x00, 0xA5]);
    log.transfer(&[0x10, 0x00, 0x00, 0x40]);
    log.transfer(&[0x0F, 0xC0, 0x00]);
    let args = ["replay", "--part", "fm25s005bi3", "--trace", "--judge", "-"];
    let output = with_input(&args, log.as_bytes());
    assert_eq!(output.status.code(), Some(3), "{}", text(&output.stderr));
    is_shown_to_drivers(&text(&output.stdout));
}

/// The trace of reads and a load that go past the page's end.
#[test]
fn a_trace_of_the_papers_past_the_page() {
    let mut log = Log::new();
    log.push(Record::Work(20));
    log.transfer(&[0x02, 0x00, 0x00, 0xA5, 0x5A]);
    log.transfer(&[0x84, 0x00, 0x10, 0xC0, 0xC1, 0xC2, 0xC3]);
    log.transfer(&[0x03, 0x00, 0x12, 0x00, 0x00, 0x00]);
    log.transfer(&[0x03, 0x00, 0x12, 0x00, 0x00, 0x00, 0x00, 0x00]);
    log.transfer(&[0x0B, 0x00, 0x10, 0x00, 0x00, 0x00, 0x00, 0x00, 0x00]);
    log.transfer(&[0x03, 0x00, 0x14, 0x00, 0x00, 0x00, 0x00]);
    log.transfer(&[0x84, 0x00, 0x13, 0x77, 0x88, 0x99]);
    log.transfer(&[0x03, 0x00, 0x13, 0x00, 0x00, 0x00, 0x00]);
    let output = with_input(&["replay", "--trace", "-"], log.as_bytes());
    is_shown_to_drivers(&succeeds(&output));
}

/// The protected blocks of the real part, at each BP number and on both sides.
#[test]
fn a_trace_of_protection() {
    let mut log = Log::new();
    log.push(Record::Work(u16::MAX));
    let expected = [
        (0x00, "no block protected"),
        (0x08, "blocks 504 to 511 protected"),
        (0x10, "blocks 496 to 511 protected"),
        (0x18, "blocks 480 to 511 protected"),
        (0x20, "blocks 448 to 511 protected"),
        (0x28, "blocks 384 to 511 protected"),
        (0x30, "blocks 256 to 511 protected"),
        (0x38, "all 512 blocks protected"),
        (0x04, "no block protected"),
        (0x0C, "blocks 0 to 7 protected"),
        (0x14, "blocks 0 to 15 protected"),
        (0x1C, "blocks 0 to 31 protected"),
        (0x24, "blocks 0 to 63 protected"),
        (0x2C, "blocks 0 to 127 protected"),
        (0x34, "blocks 0 to 255 protected"),
        (0x3C, "all 512 blocks protected"),
    ];
    for (a0, _) in expected {
        log.transfer(&[0x1F, 0xA0, a0]);
    }
    let args = ["replay", "--part", "fm25s005bi3", "--trace", "-"];
    let trace = succeeds(&with_input(&args, log.as_bytes()));
    let mut before = 0x38;
    let lines = expected.map(|(a0, blocks)| {
        let line = format!("1Fh Set Feature A0h = {a0:02X}h: {before:02X}h -> {a0:02X}h, {blocks}");
        before = a0;
        line
    });
    assert_eq!(texts(&trace)[1..], lines);
}

/// CMP, bit 1 of A0h, at each BP number and on both sides: the first stepping does not have it, on
/// the second the other blocks are the protected ones.
#[test]
fn a_trace_of_protection_with_cmp() {
    let expected = [
        (0x02, "no block protected", "no block protected"),
        (
            0x0A,
            "blocks 504 to 511 protected",
            "blocks 0 to 503 protected",
        ),
        (
            0x12,
            "blocks 496 to 511 protected",
            "blocks 0 to 495 protected",
        ),
        (
            0x1A,
            "blocks 480 to 511 protected",
            "blocks 0 to 479 protected",
        ),
        (
            0x22,
            "blocks 448 to 511 protected",
            "blocks 0 to 447 protected",
        ),
        (
            0x2A,
            "blocks 384 to 511 protected",
            "blocks 0 to 383 protected",
        ),
        (
            0x32,
            "blocks 256 to 511 protected",
            "blocks 0 to 255 protected",
        ),
        (0x3A, "all 512 blocks protected", "all 512 blocks protected"),
        (0x06, "no block protected", "no block protected"),
        (0x0E, "blocks 0 to 7 protected", "blocks 8 to 511 protected"),
        (
            0x16,
            "blocks 0 to 15 protected",
            "blocks 16 to 511 protected",
        ),
        (
            0x1E,
            "blocks 0 to 31 protected",
            "blocks 32 to 511 protected",
        ),
        (
            0x26,
            "blocks 0 to 63 protected",
            "blocks 64 to 511 protected",
        ),
        (
            0x2E,
            "blocks 0 to 127 protected",
            "blocks 128 to 511 protected",
        ),
        (
            0x36,
            "blocks 0 to 255 protected",
            "blocks 256 to 511 protected",
        ),
        (0x3E, "all 512 blocks protected", "all 512 blocks protected"),
        (0xFF, "all 512 blocks protected", "all 512 blocks protected"),
        (0x00, "no block protected", "no block protected"),
    ];
    let mut log = Log::new();
    log.push(Record::Work(u16::MAX));
    for (a0, ..) in expected {
        log.transfer(&[0x1F, 0xA0, a0]);
        log.transfer(&[0x0F, 0xA0, 0x00]);
    }
    for (stepping, mask) in [("1", 0xBC), ("2", 0xBE)] {
        let args = ["replay", "--part=fm25s005bi3", "--stepping", stepping];
        let args = [&args[..], &["--trace", "-"]].concat();
        let trace = succeeds(&with_input(&args, log.as_bytes()));
        let mut before = 0x38;
        let lines = expected.map(|(a0, first, second)| {
            let blocks = if stepping == "1" { first } else { second };
            let after = a0 & mask;
            let set = format!("1Fh Set Feature A0h = {a0:02X}h");
            let set = format!("{set}: {before:02X}h -> {after:02X}h, {blocks}");
            before = after;
            [
                set,
                format!("0Fh Get Feature A0h -> {after:02X}h ({blocks})"),
            ]
        });
        assert_eq!(texts(&trace)[1..], lines.concat());
    }
}

/// With CMP a block fails that was open, and the other way round; a power loss clears CMP, and with
/// BRWD and WP# low it stays. A verdict goes by the stepping too.
#[test]
fn a_trace_on_both_steppings() {
    let mut log = Log::new();
    log.push(Record::Work(20));
    log.transfer(&[0x1F, 0xA0, 0xA2]);
    log.push(Record::Level(false));
    log.transfer(&[0x1F, 0xA0, 0x00]);
    log.transfer(&[0x06]);
    log.transfer(&[0xD8, 0x00, 0x00, 0x1C]);
    log.push(Record::Work(80));
    log.transfer(&[0x06]);
    log.transfer(&[0x10, 0x00, 0x00, 0x1B]);
    log.push(Record::Work(20));
    log.push(Record::Power);
    log.push(Record::Work(20));
    let powered = "power lost and back: read of row 0 begins; set back to A0h 38h (all 8 blocks \
        protected), B0h 10h, D0h 40h and a cache register of FFh; WP# stays low; status ";
    let held = "1Fh Set Feature A0h = 00h: nothing happens, BRWD is 1 and WP# is low";
    let first = [
        "1Fh Set Feature A0h = A2h: 38h -> A0h, block 7 protected",
        "WP# low",
        held,
        "06h Write Enable; status 00h -> 02h (WEL)",
        "D8h Block Erase row 28 (block 7): E_FAIL, block 7 is protected; \
         status 02h -> 04h (E_FAIL)",
        "work of 80 units: the array is idle, nothing happens",
        "06h Write Enable; status 04h -> 06h (WEL, E_FAIL)",
        "10h Program Execute row 27: program of row 27 begins, 20 units; \
         status 06h -> 01h (busy)",
        "work of 20 units: program of row 27 ends; status 01h -> 00h (idle)",
        &format!("{powered}00h -> 01h (busy)"),
        "work of 20 units: read of row 0 ends; status 01h -> 00h (idle)",
    ];
    let second = [
        "1Fh Set Feature A0h = A2h: 38h -> A2h, blocks 0 to 6 protected",
        "WP# low",
        held,
        "06h Write Enable; status 00h -> 02h (WEL)",
        "D8h Block Erase row 28 (block 7): erase of block 7 begins, 80 units; \
         status 02h -> 01h (busy)",
        "work of 80 units: erase of block 7 ends; status 01h -> 00h (idle)",
        "06h Write Enable; status 00h -> 02h (WEL)",
        "10h Program Execute row 27: P_FAIL, block 6 is protected; status 02h -> 08h (P_FAIL)",
        "work of 20 units: the array is idle, nothing happens",
        &format!("{powered}08h -> 01h (busy)"),
        "work of 20 units: read of row 0 ends; status 01h -> 00h (idle)",
    ];
    for (args, lines) in [
        (&[][..], &first),
        (&["--stepping", "1"], &first),
        (&["--stepping", "2"], &second),
        (&["--part", "bench", "--stepping=2"], &second),
    ] {
        let args = [&["replay", "--trace"], args, &["-"]].concat();
        let trace = succeeds(&with_input(&args, log.as_bytes()));
        assert_eq!(texts(&trace)[1..], lines[..], "{args:?}");
    }

    // b 3 of 8 blocks: none is protected, and with CMP all.
    let mut log = Log::new();
    log.push(Record::Work(20));
    log.transfer(&[0x1F, 0xA0, 0x1A]);
    log.transfer(&[0x06]);
    log.transfer(&[0xD8, 0x00, 0x00, 0x00]);
    log.transfer(&[0x06]);
    log.push(Record::Work(80));
    let line = "not orderly: record 16, 06h begun while busy";
    judged(&["--stepping=1"], log.as_bytes(), 3, line);
    judged(&["--stepping=2"], log.as_bytes(), 0, "orderly");
}

/// The trace of a driver that opens the first eight blocks of the second stepping, and its write of
/// A0h on the first.
#[test]
fn a_trace_of_the_papers_on_the_second_stepping() {
    let mut log = Log::new();
    log.push(Record::Work(2176));
    log.transfer(&[0x1F, 0xA0, 0x0E]);
    log.transfer(&[0x0F, 0xA0, 0x00]);
    let read_back = log.clone();
    log.transfer(&[0x06]);
    log.transfer(&[0x02, 0x00, 0x00, 0xA5]);
    log.transfer(&[0x10, 0x00, 0x01, 0xFF]);
    log.push(Record::Work(2176));
    log.transfer(&[0x06]);
    log.transfer(&[0x10, 0x00, 0x02, 0x00]);
    log.transfer(&[0xFF]);
    log.push(Record::Work(8));
    log.transfer(&[0x0F, 0xA0, 0x00]);
    for (stepping, log) in [("2", &log), ("1", &read_back)] {
        let args = ["--part", "fm25s005bi3", "--stepping", stepping, "-"];
        let args = [&["replay", "--trace"], &args[..]].concat();
        is_shown_to_drivers(&succeeds(&with_input(&args, log.as_bytes())));
    }
}

/// The image of an idle bench part that was never written to, byte by byte; of version 1 without
/// state and cache register.
fn image_by_hand(version: u8, stepping: u8, a0: u8) -> Vec<u8> {
    let mut bytes = b"SLEETIMG".to_vec();
    bytes.extend([version, 0, 0, 0]);
    bytes.extend([16, 0, 0, 0, 4, 0, 0, 0, 4, 0, 0, 0, 8, 0, 0, 0]);
    bytes.extend([0x5A, 0x01, stepping, 0]);
    bytes.extend([0xFF; 640]);
    bytes.extend([0x00; 32]);
    if version == 2 {
        // A0h, B0h, C0h, D0h; WP# high; the instruction is 100h.
        bytes.extend([a0, 0x10, 0x00, 0x40, 1, 0, 0, 0, 0, 0, 0, 0]);
        bytes.extend([0x00, 0x01, 0, 0, 0, 0, 0, 0, 0, 0, 0, 0]);
        bytes.extend([0xFF; 20]);
    }
    bytes
}

/// A log of the bench part that waits for the power-up read and writes A0h.
fn setting_a0(a0: u8) -> Vec<u8> {
    let mut log = Log::new();
    log.push(Record::Work(20));
    log.transfer(&[0x1F, 0xA0, a0]);
    log.as_bytes().to_vec()
}

/// A replay of a log that saves its device in a file.
fn saving(file: &str, args: &[&str], log: &[u8]) -> Output {
    let args = [&["replay", "--save", file], args, &["-"]].concat();
    with_input(&args, log)
}

/// The image that such a replay leaves there.
fn saved_by(file: &str, args: &[&str], log: &[u8]) -> Vec<u8> {
    succeeds(&saving(file, args, log));
    fs::read(file).expect("the image")
}

/// The trace of a replay.
fn traced(args: &[&str], log: &[u8]) -> String {
    let args = [&["replay", "--trace"], args, &["-"]].concat();
    succeeds(&with_input(&args, log))
}

/// Images without a word about a stepping are of the first, and such an image is what is saved.
#[test]
fn an_image_of_the_first_stepping_is_as_before() {
    let folder = Folder::new("an_image_of_the_first_stepping_is_as_before");
    let last = folder.file("last");
    let saved = |args: &[&str], log: &[u8]| saved_by(&last, args, log);
    let idle = [0x04, 0x14, 0x00];
    let new = image_by_hand(2, 0, 0x38);
    assert_eq!(saved(&[], &idle), new);
    assert_eq!(saved(&["--stepping", "1"], &idle), new);
    let bytes = image_by_hand(2, 0, 0xA4);
    let image = folder.write("image", &bytes);
    assert_eq!(saved(&["--image", &image], &[]), bytes);
    assert_eq!(saved(&["--image", &image, "--stepping=1"], &[]), bytes);
    assert_eq!(saved(&["--image", &image, "--power-up"], &idle), new);
    let old = folder.write("old", &image_by_hand(1, 0, 0));
    assert_eq!(saved(&["--image", &old], &idle), new);
    assert_eq!(saved(&["--image", &old, "--stepping=1"], &idle), new);

    // They have no CMP.
    let log = setting_a0(0x22);
    for image in [&image, &old] {
        let args = ["--image", image];
        assert_eq!(saved(&args, &log), image_by_hand(2, 0, 0x20));
        assert!(traced(&args, &log).contains(" -> 20h, block 7 protected\n"));
    }
}

/// A saved image says the stepping that it was run with, and the next replay goes by it.
#[test]
fn an_image_names_its_stepping() {
    let folder = Folder::new("an_image_names_its_stepping");
    let last = folder.file("last");
    let saved = |args: &[&str], log: &[u8]| saved_by(&last, args, log);
    let idle = [0x04, 0x14, 0x00];
    let new = image_by_hand(2, 1, 0x38);
    assert_eq!(saved(&["--stepping", "2"], &idle), new);
    let bytes = image_by_hand(2, 1, 0xA2);
    let image = folder.write("image", &bytes);
    assert_eq!(saved(&["--image", &image], &[]), bytes);
    assert_eq!(saved(&["--image", &image, "--stepping=2"], &[]), bytes);
    assert_eq!(saved(&["--image", &image, "--power-up"], &idle), new);
    let old = folder.write("old", &image_by_hand(1, 1, 0));
    assert_eq!(saved(&["--image", &old], &idle), new);

    let log = setting_a0(0x26);
    for image in [&image, &old] {
        let args = ["--image", image];
        assert_eq!(saved(&args, &log), image_by_hand(2, 1, 0x26));
        assert!(traced(&args, &log).contains(" -> 26h, blocks 1 to 7 protected\n"));
    }
}

/// The same memory on the other stepping, both ways; with CMP there is no way to the first but
/// power-up.
#[test]
fn a_stepping_decides_over_the_image() {
    let folder = Folder::new("a_stepping_decides_over_the_image");
    let last = folder.file("last");
    let replay = |args: &[&str], log: &[u8]| saving(&last, args, log);
    let saved = |args: &[&str], log: &[u8]| saved_by(&last, args, log);
    let first = folder.write("first", &image_by_hand(2, 0, 0x20));
    let second = folder.write("second", &image_by_hand(2, 1, 0x20));
    let old = folder.write("old", &image_by_hand(1, 0, 0));
    let set = [1, 2, 0x1F, 2, 0xA0, 2, 0x22, 3];
    let args = ["--image", &first, "--stepping", "2"];
    assert_eq!(saved(&args, &[]), image_by_hand(2, 1, 0x20));
    assert_eq!(saved(&args, &set), image_by_hand(2, 1, 0x22));
    let args = ["--image", &second, "--stepping", "1"];
    assert_eq!(saved(&args, &[]), image_by_hand(2, 0, 0x20));
    assert_eq!(saved(&args, &set), image_by_hand(2, 0, 0x20));
    let args = ["--image", &old, "--stepping", "2"];
    let idle = [0x04, 0x14, 0x00];
    assert_eq!(saved(&args, &idle), image_by_hand(2, 1, 0x38));
    let up = [&idle[..], &set].concat();
    assert_eq!(saved(&args, &up), image_by_hand(2, 1, 0x22));

    // A state with CMP: of the second stepping, and one that was put by hand.
    let bytes = fs::read(&last).expect("the image");
    for (stepping, given) in [(1, &["--stepping", "1"][..]), (0, &[])] {
        let image = folder.write("image", &image_by_hand(2, stepping, 0x22));
        let output = replay(&[&["--image", &image], given].concat(), &set);
        fails(&output, 1, &format!("{image}: no replay can begin with it"));
        let hint = "the state is not sound: CMP, bit 1 of A0h, is 1, and the first stepping has \
            no CMP; give --stepping 2, or --power-up, which clears it\n";
        fails(&output, 1, hint);
        assert!(output.stdout.is_empty());
        assert_eq!(fs::read(&last).expect("the image"), bytes);
        // Both ways that it names.
        let args = ["--image", &image, "--stepping", "2"];
        assert_eq!(saved(&args, &[]), image_by_hand(2, 1, 0x22));
        let args = [&["--image", &image, "--power-up"], given].concat();
        assert_eq!(saved(&args, &idle), image_by_hand(2, 0, 0x38));
        fs::write(&last, &bytes).expect("the image");
    }
    // What is not sound on either has no hint.
    for (stepping, a0) in [(0, 0x23), (0, 0x62), (1, 0x23), (1, 0x62)] {
        let image = folder.write("image", &image_by_hand(2, stepping, a0));
        for given in ["--stepping=1", "--stepping=2"] {
            let output = replay(&["--image", &image, given], &[]);
            fails(&output, 1, "the state is not sound\n");
        }
    }
}

#[test]
fn an_image_is_saved_and_loaded_again() {
    let folder = Folder::new("an_image_is_saved_and_loaded_again");
    let image = folder.file("image");
    let log = program(5, 0x0F);
    succeeds(&with_input(
        &["replay", "--save", &image, "-"],
        log.as_bytes(),
    ));
    let saved = fs::read(&image).expect("the image");
    assert_eq!(saved.len(), BENCH_IMAGE);
    assert_eq!(saved[32 + 100..32 + 102], [0x0F, 0xFF]);
    assert_eq!(saved[32 + 640 + 5], 1);

    let log = program(5, 0xF1);
    let args = ["replay", "--image", &image, "--save", &image, "-"];
    succeeds(&with_input(&args, log.as_bytes()));
    let saved = fs::read(&image).expect("the image");
    assert_eq!(saved[32 + 100..32 + 102], [0x01, 0xFF]);
    assert_eq!(saved[32 + 640 + 5], 2);
    assert_eq!(folder.names(), ["image"]);
}

#[test]
fn the_real_part() {
    let folder = Folder::new("the_real_part");
    let image = folder.file("image");
    let log = program(32_767, 0x3C);
    let args = ["replay", "--part", "fm25s005bi3", "--save", &image, "-"];
    succeeds(&with_input(&args, log.as_bytes()));
    let mut log = Log::new();
    log.push(Record::Work(u16::MAX));
    log.transfer(&[0x13, 0x00, 0x7F, 0xFF]);
    log.push(Record::Work(u16::MAX));
    log.transfer(&[0x03, 0x00, 0x00, 0x00, 0x00, 0x00]);
    let args = ["replay", "--image", &image, "--trace", "-"];
    let trace = succeeds(&with_input(&args, log.as_bytes()));
    assert!(
        trace.contains("03h Read From Cache column 0 -> 3Ch FFh\n"),
        "{trace}"
    );
}

#[test]
fn a_bad_log_leaves_the_image_as_it_was() {
    let folder = Folder::new("a_bad_log_leaves_the_image_as_it_was");
    let image = folder.file("image");
    let good = program(5, 0x0F);
    succeeds(&with_input(
        &["replay", "--save", &image, "-"],
        good.as_bytes(),
    ));
    let before = fs::read(&image).expect("the image");

    for (end, refusal) in [
        (&[0x09][..], "(refusal 6): the byte is 09h; "),
        (&[0x02], "(refusal 7): nothing comes behind 02h; "),
        (&[0x04, 0x01], "(refusal 7): nothing comes behind 04h 01h; "),
        (&[0x05, 0x02], "(refusal 8): the level is 02h; "),
    ] {
        let begun = program(6, 0x00);
        let records = begun.records().count();
        let place = format!("byte {}, record {records}: ", begun.as_bytes().len());
        let bad = [begun.as_bytes(), end].concat();
        for trace in [&[][..], &["--trace"]] {
            let args = [&["replay", "--image", &image, "--save", &image, "-"], trace].concat();
            let output = with_input(&args, &bad);
            fails(&output, 1, refusal);
            fails(&output, 1, &place);
            fails(&output, 1, "is left as it was");
            let number = &refusal[9..10];
            assert!(text(&output.stdout).ends_with(&format!("end {number} {records}\n")));
            assert_eq!(fs::read(&image).expect("the image"), before);
            assert_eq!(folder.names(), ["image"]);
        }
    }
}

#[test]
fn a_bad_image() {
    let folder = Folder::new("a_bad_image");
    let image = folder.file("image");
    succeeds(&with_input(&["replay", "--save", &image, "-"], &[]));
    let good = fs::read(&image).expect("the image");

    type Change = fn(&mut Vec<u8>);
    let changes: [(Change, &str); 20] = [
        (|bytes| bytes.clear(), "not an image file"),
        (|bytes| bytes[0] = b'X', "not an image file"),
        (|bytes| bytes.truncate(20), "ends inside its head"),
        (|bytes| bytes[8] = 3, "version 3"),
        (|bytes| bytes[8] = 1, "has 748 bytes"),
        (|bytes| bytes[12] = 17, "no part that is known"),
        (|bytes| bytes[30] = 2, "no part that is known"),
        (|bytes| bytes[30] = 0xFF, "no part that is known"),
        (|bytes| bytes[31] = 1, "no part that is known"),
        (|bytes| bytes.push(0), "has 749 bytes"),
        (|bytes| bytes.truncate(OLD_IMAGE), "has 704 bytes"),
        (|bytes| bytes[OLD_IMAGE] = 0x3A, "the state is not sound"),
        (|bytes| bytes[OLD_IMAGE + 2] = 0, "the state is not sound"),
        (|bytes| bytes[OLD_IMAGE + 4] = 2, "the state is not sound"),
        (|bytes| bytes[OLD_IMAGE + 10] = 5, "the state is not sound"),
        (
            |bytes| (bytes[OLD_IMAGE + 10], bytes[OLD_IMAGE + 16]) = (4, 1),
            "the state is not sound",
        ),
        (
            |bytes| (bytes[OLD_IMAGE + 10], bytes[OLD_IMAGE + 20]) = (4, 8),
            "the state is not sound",
        ),
        (|bytes| bytes[OLD_IMAGE + 11] = 1, "has to be 0"),
        (|bytes| bytes[OLD_IMAGE + 18] = 1, "has to be 0"),
        (|bytes| bytes[OLD_IMAGE + 23] = 1, "the state is not sound"),
    ];
    for (change, message) in changes {
        let mut bytes = good.clone();
        change(&mut bytes);
        let bad = folder.write("bad", &bytes);
        let args = ["replay", "--image", &bad, "--save", &bad, "-"];
        fails(&with_input(&args, &REPLAY), 1, message);
        assert_eq!(fs::read(&bad).expect("the bad image"), bytes);
    }

    let args = ["replay", "--part", "fm25s005bi3", "--image", &image, "-"];
    fails(
        &with_input(&args, &REPLAY),
        1,
        "of part bench, not fm25s005bi3",
    );
}

#[test]
fn files_that_are_not_there() {
    let folder = Folder::new("files_that_are_not_there");
    let missing = folder.file("missing");
    fails(&sleetanvil(&["replay", &missing]), 1, "missing");
    let args = ["replay", "--image", &missing, "-"];
    fails(&with_input(&args, &REPLAY), 1, "missing");
    let save = folder.file("no/such/folder");
    let args = ["replay", "--save", &save, "-"];
    fails(&with_input(&args, &REPLAY), 1, "cannot save");
    assert!(folder.names().is_empty());
}

/// The mode of a file.
fn mode(file: &str) -> u32 {
    let found = fs::metadata(file).expect("the file");
    found.permissions().mode() & 0o7777
}

#[test]
fn a_file_keeps_its_mode() {
    let folder = Folder::new("a_file_keeps_its_mode");
    let (image, usual) = (folder.file("image"), folder.write("usual", &[]));
    let save = ["replay", "--save", &image, "-"];
    succeeds(&with_input(&save, &REPLAY));
    assert_eq!(mode(&image), mode(&usual));
    for bits in [0o600, 0o640, 0o664, 0o755] {
        fs::set_permissions(&image, Permissions::from_mode(bits)).expect("a mode");
        succeeds(&with_input(&save, &[]));
        let saved = fs::read(&image).expect("the image");
        succeeds(&with_input(&save, &REPLAY));
        assert_ne!(fs::read(&image).expect("the image"), saved);
        assert_eq!(mode(&image), bits);
    }
    assert_eq!(folder.names(), ["image", "usual"]);
}

#[test]
fn links_are_followed() {
    let folder = Folder::new("links_are_followed");
    for name in ["here", "there"] {
        fs::create_dir(folder.file(name)).expect("a folder");
    }
    let image = folder.file("there/image");
    symlink("../there/next", folder.file("here/link")).expect("a link");
    symlink("image", folder.file("there/next")).expect("a link");
    let link = folder.file("here/link");
    let args = ["replay", "--save", &link, "-"];
    // First the links lead to nothing, then to a file.
    for log in [&[][..], &REPLAY] {
        succeeds(&with_input(&args, log));
        assert!(fs::symlink_metadata(&image).expect("the image").is_file());
        for link in [&link, &folder.file("there/next")] {
            assert!(fs::symlink_metadata(link).expect("a link").is_symlink());
        }
    }
    let plain = folder.file("plain");
    succeeds(&with_input(&["replay", "--save", &plain, "-"], &REPLAY));
    assert_eq!(
        fs::read(&plain).expect("a file"),
        fs::read(&image).expect("the image")
    );
    assert_eq!(folder.names(), ["here", "plain", "there"]);
    assert_eq!(
        fs::read_dir(folder.file("there"))
            .expect("a folder")
            .count(),
        2
    );

    symlink("round", folder.file("round")).expect("a link");
    let args = ["replay", "--save", &folder.file("round"), "-"];
    fails(
        &with_input(&args, &REPLAY),
        1,
        "cannot save: too many links",
    );
}

#[test]
fn what_is_not_a_file_is_not_replaced() {
    let folder = Folder::new("not_a_file");
    let fifo = folder.file("fifo");
    let made = Command::new("mkfifo").arg(&fifo).status();
    assert!(made.expect("mkfifo").success());
    let socket = folder.file("socket");
    let _held = UnixListener::bind(&socket).expect("a socket");
    let inner = folder.file("folder");
    fs::create_dir(&inner).expect("a folder");
    symlink(&fifo, folder.file("link")).expect("a link");
    let (link, missing) = (folder.file("link"), folder.file("no/image"));
    let names = folder.names();
    for (path, message) in [
        (&fifo[..], "it is a FIFO, not a file"),
        (&link, "it is a FIFO, not a file"),
        (&socket, "it is a socket, not a file"),
        (&inner, "it is a folder, not a file"),
        ("/dev/null", "it is a device, not a file"),
        (&missing, "there is no folder"),
    ] {
        // It is refused before the replay, so there is no trace and no output.
        let out = folder.file("out");
        let args = ["replay", "--save", path, "--trace", "--out", &out, "-"];
        let output = with_input(&args, &REPLAY);
        fails(&output, 1, message);
        fails(&output, 1, &format!("{path}: cannot save: "));
        assert!(output.stdout.is_empty());
        assert_eq!(folder.names(), names);
    }
}

/// A log cut in two at any record, with the device saved between, does what the whole does.
#[test]
fn a_device_is_saved_and_goes_on() {
    let folder = Folder::new("a_device_is_saved_and_goes_on");
    let mut log = program(5, 0xA5);
    log.transfer(&[0x06]);
    log.transfer(&[0xD8, 0x00, 0x00, 0x00]);
    log.push(Record::Work(33));
    log.push(Record::Level(false));
    log.extend([Record::Select, Record::Shift(0x0F), Record::Shift(0xC0)]);
    log.extend([Record::Shift(0), Record::Work(60), Record::Shift(0)]);
    log.push(Record::Deselect);
    log.transfer(&[0x13, 0x00, 0x00, 0x05]);
    log.push(Record::Work(20));
    log.transfer(&[0x0B, 0x00, 0x12, 0x00, 0x00, 0x00, 0x00]);
    log.transfer(&[0x84, 0x00, 0x11, 0x01, 0x02, 0x03, 0x04, 0x05]);
    log.transfer(&[0x10, 0x00, 0x00, 0x05, 0x00, 0x00]);
    log.transfer(&[0x6B, 0x00]);
    log.transfer(&[0xFF]);
    log.push(Record::Work(5));
    log.transfer(&[0xFF]);
    log.push(Record::Work(7));
    log.transfer(&[0x0F, 0xC0, 0x00]);
    log.push(Record::Work(1));
    log.transfer(&[0x0F, 0xC0, 0x00]);
    log.push(Record::Power);
    log.push(Record::Select);
    cut_everywhere(&folder, Stepping::First, log.as_bytes());
    let mut logs =
        (0..100).map(|number| Generator::new(0xC07, number).sound_log(&Geometry::bench(), 8));
    let log = logs.find(|log| log.len() > 30);
    cut_everywhere(
        &folder,
        Stepping::First,
        &log.expect("a log that is not short"),
    );
}

/// The same on the second stepping, which is named for the first part alone: CMP is kept.
#[test]
fn a_device_of_the_second_stepping_is_saved_and_goes_on() {
    let folder = Folder::new("a_device_of_the_second_stepping_is_saved_and_goes_on");
    let mut log = Log::new();
    log.push(Record::Work(20));
    log.transfer(&[0x1F, 0xA0, 0x26]);
    log.transfer(&[0x06]);
    log.transfer(&[0xD8, 0x00, 0x00, 0x03]);
    log.push(Record::Work(33));
    log.transfer(&[0xFF]);
    log.push(Record::Work(8));
    log.transfer(&[0x0F, 0xA0, 0x00]);
    log.transfer(&[0x06]);
    log.transfer(&[0xD8, 0x00, 0x00, 0x04]);
    log.push(Record::Power);
    log.transfer(&[0x0F, 0xA0, 0x00]);
    cut_everywhere(&folder, Stepping::Second, log.as_bytes());
}

/// Saved after 5 units of a reset, a device goes on with the sixth.
#[test]
fn a_device_is_saved_in_a_reset() {
    let folder = Folder::new("a_device_is_saved_in_a_reset");
    let image = folder.file("image");
    let mut log = Log::new();
    log.transfer(&[0xFF]);
    log.push(Record::Work(5));
    let args = ["replay", "--save", &image, "-"];
    succeeds(&with_input(&args, log.as_bytes()));
    let saved = fs::read(&image).expect("the image");
    let [job, units] = [10, 20].map(|place| saved[OLD_IMAGE + place]);
    assert_eq!((job, units), (4, 5));
    let mut log = Log::new();
    log.push(Record::Work(1));
    log.transfer(&[0xFF]);
    let args = ["replay", "--trace", "--image", &image, "-"];
    let trace = succeeds(&with_input(&args, log.as_bytes()));
    assert_eq!(
        texts(&trace),
        [
            "work of 1 unit: reset, 6 of 8 units done",
            "FFh Reset: reset begins anew after 6 of 8 units; status stays 01h (busy)",
        ]
    );
}

fn cut_everywhere(folder: &Folder, stepping: Stepping, log: &[u8]) {
    let named = match stepping {
        Stepping::First => "--stepping=1",
        Stepping::Second => "--stepping=2",
    };
    let file = |name: &str| folder.file(name);
    let read = |name: &str| fs::read(folder.file(name)).expect("a file");
    let (image, out, between, last) = (file("image"), file("out"), file("between"), file("last"));
    let args = [
        "replay", "--trace", named, "--save", &image, "--out", &out, "-",
    ];
    let whole = succeeds(&with_input(&args, log));
    let (image, out) = (read("image"), read("out"));
    let mut records = Records::new(log);
    loop {
        let (first, second) = log.split_at(records.place());
        let (before, after) = (file("before"), file("after"));
        let args = [
            "replay", "--trace", named, "--save", &between, "--out", &before, "-",
        ];
        let one = succeeds(&with_input(&args, first));
        let args = ["--image", &between, "--save", &last, "--out", &after, "-"];
        let args = [&["replay", "--trace"], &args[..]].concat();
        let two = succeeds(&with_input(&args, second));
        let place = records.place();
        assert!(read("last") == image, "cut at byte {place}");
        assert_eq!(
            [read("before"), read("after")].concat(),
            out,
            "cut at byte {place}"
        );

        let part = Geometry::bench().with_stepping(stepping);
        let mut device = Device::power_up(part).expect("a device");
        let answer = device.run(first, &mut vec![0; first.len() / 2]);
        assert_eq!(answer.refusal, None);
        if !device.state().is_selected() {
            let lines = [texts(&one), texts(&two)].concat();
            assert_eq!(lines, texts(&whole), "cut at byte {place}");
        } else if !second.is_empty() {
            let line = texts(&two)[0];
            assert!(line.starts_with("begun before the log: "), "{line}");
        }
        if records.next().is_none() {
            return;
        }
    }
}

/// The lines of a trace without their records, and without the last.
fn texts(trace: &str) -> Vec<&str> {
    let lines = trace.lines().filter(|line| !line.starts_with("end "));
    lines.map(|line| &line[13..]).collect()
}

#[test]
fn a_transfer_begun_before_the_log() {
    let folder = Folder::new("a_transfer_begun_before_the_log");
    let image = folder.file("image");
    let ready = [0x04, 0x14, 0x00];
    for (first, second, line) in [
        (
            &[0x0B, 0x00, 0x12][..],
            &[0x00, 0x00, 0x00, 0x00][..],
            "03h Read From Cache column 18 -> FFh FFh FFh (1 past the page, from column 0 again)",
        ),
        (
            &[0x03, 0x00, 0x10, 0x00, 0x00, 0x00],
            &[0x00, 0x00, 0x00],
            "03h Read From Cache column 16 -> FFh FFh FFh (1 past the page, from column 0 again)",
        ),
        (
            &[0x02, 0x00, 0x10, 0x01, 0x02],
            &[0x03, 0x04, 0x05],
            "02h Program Load column 16 <- 03h 04h 05h (1 past the page, dropped)",
        ),
        (&[0x0F], &[0xC0, 0x00], "0Fh Get Feature C0h -> 00h (idle)"),
        (
            &[0x0F, 0xA0, 0x00],
            &[0x00],
            "0Fh Get Feature A0h -> 38h (all 8 blocks protected)",
        ),
        (
            &[0x1F, 0xA0],
            &[0x00],
            "1Fh Set Feature A0h = 00h: 38h -> 00h, no block protected",
        ),
        (
            &[0x13, 0x00, 0x00, 0x00, 0x00, 0x00],
            &[0x07],
            "13h Page Read row 0 and 07h: nothing happens, shifted 5 bytes or more, needs 4",
        ),
        (&[0x6B], &[0x01], "an ignored transfer with 01h"),
        (&[], &[0x06], "06h Write Enable; status 00h -> 02h (WEL)"),
        (&[], &[], "select without a byte"),
    ] {
        let mut log = Log::new();
        log.push(Record::Select);
        log.extend(first.iter().copied().map(Record::Shift));
        let log = [&ready, log.as_bytes()].concat();
        succeeds(&with_input(&["replay", "--save", &image, "-"], &log));
        let mut log: Log = second.iter().copied().map(Record::Shift).collect();
        log.push(Record::Deselect);
        let args = ["replay", "--trace", "--image", &image, "-"];
        let trace = succeeds(&with_input(&args, log.as_bytes()));
        assert_eq!(texts(&trace), [format!("begun before the log: {line}")]);
    }
}

/// A read told in parts: each tells of the page's end as far as it comes there itself, from the
/// column that the part before it came to.
#[test]
fn a_read_past_the_page_in_parts() {
    let folder = Folder::new("a_read_past_the_page_in_parts");
    let image = folder.file("image");
    #[rustfmt::skip]
    let reads = [
        (18, "column 18", vec![
            (1, 19, " -> 13h"),
            (1, 0, " -> 14h"),
            (3, 3, " -> 01h 02h 03h"),
            (17, 0, " -> 04h 05h 06h .. 17 bytes in all"),
            (21, 1, " -> 01h 02h 03h .. 21 bytes in all (1 past the page, from column 0 again)"),
            (59, 0, " -> 02h 03h 04h .. 59 bytes in all (40 past the page, from column 0 again)"),
        ]),
        (16, "column 16", vec![
            (7, 3, " -> 11h 12h 13h .. 7 bytes in all (3 past the page, from column 0 again)"),
            (13, 16, " -> 04h 05h 06h .. 13 bytes in all"),
            (3, 19, " -> 11h 12h 13h"),
            (2, 1, " -> 14h 01h (1 past the page, from column 0 again)"),
            (40, 1, " -> 02h 03h 04h .. 40 bytes in all (21 past the page, from column 0 again)"),
        ]),
        (20, "column 20 (outside the page)", vec![
            (1, 21, " -> FFh (1 past the page)"),
            (2, 23, " -> FFh FFh (2 past the page)"),
            (4072, 4095, " -> FFh FFh FFh .. 4072 bytes in all (4072 past the page)"),
            (1, 4096, " -> FFh (1 past the page)"),
            (4097, 4096, " -> FFh FFh FFh .. 4097 bytes in all (4097 past the page)"),
        ]),
    ];
    for (address, begun, parts) in reads {
        let (_, mut log) = loaded();
        log.push(Record::Select);
        log.extend([0x03, 0x00, address].map(Record::Shift));
        let args = ["replay", "--save", &image, "-"];
        succeeds(&with_input(&args, log.as_bytes()));
        // The idle byte is a part of its own.
        let idle = (1, u16::from(address), "");
        for (count, column, words) in [idle].into_iter().chain(parts) {
            let args = ["--image", &image, "--save", &image, "--bytes", "3", "-"];
            let args = [&["replay", "--trace"], &args[..]].concat();
            let trace = succeeds(&with_input(&args, &[0x02, 0x00].repeat(count)));
            let read = format!("begun before the log: 03h Read From Cache {begun}");
            assert_eq!(texts(&trace), [format!("{read}{words}; still selected")]);
            let saved = fs::read(&image).expect("the image");
            assert_eq!(saved[OLD_IMAGE + 14..OLD_IMAGE + 16], column.to_le_bytes());
        }
    }
}

/// It is the column that counts, not the address: a device that was put together by hand may have
/// the one inside the page and the other outside.
#[test]
fn a_read_whose_column_was_put_by_hand() {
    let folder = Folder::new("a_read_whose_column_was_put_by_hand");
    let image = folder.file("image");
    for (address, column, words) in [
        (
            0,
            19,
            "column 0 -> 14h 01h 02h (2 past the page, from column 0 again)",
        ),
        (0, 20, "column 0 -> FFh FFh FFh (3 past the page)"),
        (0, 4096, "column 0 -> FFh FFh FFh (3 past the page)"),
        (20, 0, "column 20 (outside the page) -> 01h 02h 03h"),
        (
            20,
            18,
            "column 20 (outside the page) -> 13h 14h 01h (1 past the page, from column 0 again)",
        ),
    ] {
        for count in [4, 5] {
            let (_, mut log) = loaded();
            log.push(Record::Select);
            let bytes = [0x03, 0x00, address, 0x00, 0x00].map(Record::Shift);
            log.extend(bytes.into_iter().take(count));
            let args = ["replay", "--save", &image, "-"];
            succeeds(&with_input(&args, log.as_bytes()));
            let mut saved = fs::read(&image).expect("the image");
            assert_eq!(usize::from(saved[OLD_IMAGE + 6]), count);
            saved[OLD_IMAGE + 14..OLD_IMAGE + 16].copy_from_slice(&u16::to_le_bytes(column));
            let by_hand = folder.write("by hand", &saved);
            let args = ["replay", "--trace", "--image", &by_hand, "-"];
            let trace = succeeds(&with_input(&args, &[2, 0, 2, 0, 2, 0, 3]));
            let line = format!("begun before the log: 03h Read From Cache {words}");
            assert_eq!(texts(&trace), [line]);
        }
    }
}

#[test]
fn an_old_image_and_power_up() {
    let folder = Folder::new("an_old_image_and_power_up");
    let image = folder.file("image");
    // It ends in the middle of an erase, with WP# low.
    let mut log = program(5, 0xA5);
    log.transfer(&[0x06]);
    log.transfer(&[0xD8, 0x00, 0x00, 0x05]);
    log.push(Record::Work(22));
    log.push(Record::Level(false));
    succeeds(&with_input(
        &["replay", "--save", &image, "-"],
        log.as_bytes(),
    ));
    let saved = fs::read(&image).expect("the image");
    let mut bytes = saved[..OLD_IMAGE].to_vec();
    bytes[8] = 1;
    let old = folder.write("old", &bytes);

    let end = |args: &[&str]| {
        let last = folder.file("last");
        let args = [&["replay", "--trace", "--save", &last], args, &["-"]].concat();
        let trace = succeeds(&with_input(&args, &[0x04, 0x01, 0x00]));
        (trace, fs::read(&last).expect("the image"))
    };
    let on = end(&["--image", &image]);
    assert!(
        on.0.contains("erase of block 1, 23 of 80 units done"),
        "{}",
        on.0
    );
    let up = end(&["--image", &image, "--power-up"]);
    assert!(
        up.0.contains("read of row 0, 1 of 20 units done"),
        "{}",
        up.0
    );
    assert_eq!(up.1[32..OLD_IMAGE], saved[32..OLD_IMAGE]);
    assert_eq!(up.1[OLD_IMAGE + 4], 1);
    assert_eq!(end(&["--image", &old]), up);
    assert_eq!(end(&["--image", &old, "--power-up"]), up);
    assert_eq!(end(&["--power-up"]), end(&[]));
}

#[test]
fn the_bytes_on_do() {
    let folder = Folder::new("the_bytes_on_do");
    let out = folder.write("out", b"old and longer than the new");
    for trace in [&[][..], &["--trace"]] {
        let args = [&["replay", "--out", &out, "-"], trace].concat();
        succeeds(&with_input(&args, &REPLAY));
        assert_eq!(
            fs::read(&out).expect("the output"),
            [0xFF, 0xFF, 0x01, 0x00]
        );
        // Of a log that is refused, the bytes of the records done.
        let bad = [&REPLAY[..10], &[0x07]].concat();
        fails(&with_input(&args, &bad), 1, "(refusal 6)");
        assert_eq!(fs::read(&out).expect("the output"), [0xFF, 0xFF, 0x01]);
    }
    let args = ["replay", "--out", "/dev/full", "-"];
    fails(&with_input(&args, &REPLAY), 1, "/dev/full: ");
    let long = REPLAY.repeat(20_000);
    fails(&with_input(&args, &long), 1, "/dev/full: ");
    let args = ["replay", "--out", &folder.file("no/out"), "-"];
    fails(&with_input(&args, &REPLAY), 1, "no/out: ");
}

#[test]
fn the_bytes_expected() {
    let folder = Folder::new("the_bytes_expected");
    let (out, image) = (folder.file("out"), folder.file("image"));
    let right = [0xFF, 0xFF, 0x01, 0x00];
    let in_transfer = "in the transfer of record 1 (0Fh Get Feature)";
    for (expected, record, message) in [
        (&right[..], 0, String::new()),
        (
            &[0xFF, 0xFE, 0x01, 0x00],
            3,
            "DO is FFh, and byte 1 of ".into(),
        ),
        (
            &[0xFF, 0xFF, 0x01, 0x01],
            6,
            "DO is 00h, and byte 3 of ".into(),
        ),
        (&[0xFF, 0xFF], 4, "DO is 01h, and ".into()),
        (&[], 2, "DO is FFh, and ".into()),
        (
            &[0xFF, 0xFF, 0x01, 0x00, 0x77],
            0,
            "ended with 4 bytes on DO".into(),
        ),
    ] {
        let wanted = folder.write("wanted", expected);
        for trace in [&[][..], &["--trace"], &["--judge"]] {
            let args = ["--expect", &wanted, "--out", &out, "--save", &image, "-"];
            let args = [&["replay"], trace, &args].concat();
            let output = with_input(&args, &REPLAY);
            let kept = fs::read(&out).expect("the output");
            if message.is_empty() {
                assert!(succeeds(&output).ends_with("end 0 8\n"));
                assert_eq!(kept, right);
                fs::remove_file(&image).expect("it was saved");
                continue;
            }
            fails(&output, 1, &message);
            fails(&output, 1, "image is left as it was");
            assert!(!Path::new(&image).exists());
            assert!(!text(&output.stdout).contains("end "));
            if record == 0 {
                fails(&output, 1, "goes on with 77h");
                assert_eq!(kept, right);
                continue;
            }
            fails(
                &output,
                1,
                &format!("record {record}, {in_transfer}: DO is "),
            );
            let same = expected
                .iter()
                .zip(right)
                .take_while(|(left, right)| **left == *right);
            let same = same.count();
            assert_eq!(kept, right[..=same]);
            match expected.get(same) {
                Some(byte) => fails(&output, 1, &format!("wanted is {byte:02X}h;")),
                None => fails(&output, 1, &format!("wanted ends after {same} bytes;")),
            }
        }
    }

    // Outside a transfer, of an unknown instruction, and in a transfer begun before the log.
    let wanted = folder.write("wanted", &[0xFF, 0xFF, 0x00]);
    let args = ["replay", "--expect", &wanted, "-"];
    let outside = [0x01, 0x02, 0x6B, 0x03, 0x02, 0x00, 0x02, 0x00];
    fails(
        &with_input(&args, &outside),
        1,
        "record 4, not selected: DO is FFh",
    );
    let unknown = [0x01, 0x02, 0x6B, 0x02, 0x00, 0x02, 0x00];
    let message = "record 3, in the transfer of record 0 (6Bh, unknown): DO is FFh";
    fails(&with_input(&args, &unknown), 1, message);
    succeeds(&with_input(
        &["replay", "--save", &image, "-"],
        &[0x01, 0x02, 0x9F],
    ));
    let args = ["replay", "--image", &image, "--expect", &wanted, "-"];
    let message = "record 1, in the transfer begun before the log (9Fh Read ID): DO is 5Ah";
    fails(&with_input(&args, &[0x02, 0x00, 0x02, 0x00]), 1, message);
    let missing = folder.file("missing");
    let args = [
        "replay",
        "--expect",
        &missing,
        "--out",
        &folder.file("new"),
        "-",
    ];
    fails(&with_input(&args, &REPLAY), 1, "missing: ");
    assert!(!Path::new(&folder.file("new")).exists());
}

/// The difference is far behind the first piece, in a transfer that a piece cuts.
#[test]
fn a_difference_late_in_a_long_log() {
    let mut log = REPLAY[..13].to_vec();
    log.extend([0x02, 0x00].repeat(200_000));
    let mut device = Device::power_up(Geometry::bench()).expect("a device");
    let mut out = vec![0; log.len() / 2];
    let answer = device.run(&log, &mut out);
    out.truncate(answer.written);
    out[199_999] ^= 0x10;
    let folder = Folder::new("a_difference_late_in_a_long_log");
    let wanted = folder.write("wanted", &out);
    let message = "record 200002, in the transfer of record 1 (0Fh Get Feature): \
        DO is 00h, and byte 199999 of ";
    for trace in [&[][..], &["--trace"]] {
        let args = [&["replay", "--expect", &wanted, "-"], trace].concat();
        let output = with_input(&args, &log);
        fails(&output, 1, message);
        fails(&output, 1, "wanted is 10h");
    }
}

#[test]
fn a_file_is_not_read_and_written() {
    let folder = Folder::new("a_file_is_not_read_and_written");
    let (log, image) = (folder.write("log", &REPLAY), folder.file("image"));
    succeeds(&sleetanvil(&["replay", "--save", &image, &log]));
    let linked = folder.file("linked");
    fs::hard_link(&log, &linked).expect("a link");
    let new = folder.file("new");
    let round = folder.file("../a_file_is_not_read_and_written/new");
    for (args, message) in [
        (&["--out", &log[..]][..], "--out and the log"),
        (&["--out", &linked], "--out and the log"),
        (&["--out", &image, "--image", &image], "--out and --image"),
        (&["--out", &image, "--save", &image], "--out and --save"),
        (&["--out", &new, "--save", &round], "--out and --save"),
        (&["--out", &image, "--expect", &image], "--out and --expect"),
        (&["--save", &log], "--save and the log"),
        (
            &["--save", &image, "--expect", &image],
            "--save and --expect",
        ),
    ] {
        let before = fs::read(&image).expect("the image");
        let output = sleetanvil(&[&["replay"], args, &[&log]].concat());
        fails(&output, 1, message);
        assert_eq!(fs::read(&log).expect("the log"), REPLAY);
        assert_eq!(fs::read(&image).expect("the image"), before);
        assert_eq!(folder.names(), ["image", "linked", "log"]);
    }
}

/// As with `| head`: no message, and the status of a program that the closed pipe ended.
#[test]
fn nobody_reads_the_output() {
    let log = REPLAY.repeat(20_000);
    for args in [&["replay", "--trace", "-"][..], &["replay", "-"]] {
        let mut child = start(args);
        let stdout = child.stdout.take().expect("its standard output");
        if args.len() > 2 {
            let mut line = String::new();
            let mut stdin = child.stdin.take().expect("its standard input");
            let writer = std::thread::spawn({
                let log = log.clone();
                move || drop(stdin.write_all(&log))
            });
            let mut reader = BufReader::new(stdout);
            reader.read_line(&mut line).expect("a line");
            assert!(line.ends_with("19 of 20 units done\n"), "{line}");
            drop(reader);
            writer.join().expect("the writer");
        } else {
            drop(stdout);
        }
        let output = child.wait_with_output().expect("the program ends");
        assert_eq!(text(&output.stderr), "");
        assert_eq!(output.status.code(), Some(141));
    }
}

/// The three copies of a part's page.
fn copies(part: &Geometry) -> Vec<u8> {
    let mut bytes = vec![0; page::COPIES * page::LEN];
    for copy in bytes.chunks_exact_mut(page::LEN) {
        page::make(part, copy).expect("a sound part");
    }
    bytes
}

/// Put the check of a copy behind it.
fn put_check(copy: &mut [u8]) {
    let check = page::check(&copy[..254]);
    copy[254..256].copy_from_slice(&check.to_le_bytes());
}

/// The lines of the copies, the bytes of the table put together again, and the last line.
fn page_read(text: &str) -> (Vec<&str>, Vec<u8>, &str) {
    let lines: Vec<_> = text.lines().collect();
    let (copies, rest) = lines.split_at(3);
    let [empty, title, table @ .., blank, last] = rest else {
        panic!("{text}");
    };
    assert!(empty.is_empty() && blank.is_empty(), "{text}");
    let number = title.strip_prefix("fields of copy ").expect("a title");
    assert_eq!(number.len(), 2, "{title}");
    let (mut bytes, mut end) = (Vec::new(), 0);
    for line in table {
        let places = line[..9].trim();
        if !places.is_empty() {
            // Each field begins where the one before it ended, and has the bytes that it says.
            let (from, to) = places.split_once('-').unwrap_or((places, places));
            let place = |text: &str| text.parse::<usize>().expect("a place");
            assert_eq!((bytes.len(), end), (place(from), place(from)), "{line}");
            end = place(to) + 1;
        }
        let shown = &line[65..];
        let byte = |text: &str| u8::from_str_radix(text, 16).expect("a byte");
        match shown.split_once(", ") {
            Some((one, times)) => {
                let times = times.strip_suffix(" times").expect("how many");
                let times = times.parse().expect("a number");
                bytes.extend(std::iter::repeat_n(byte(one), times));
            }
            None => bytes.extend(shown.split(' ').map(byte)),
        }
    }
    assert_eq!((bytes.len(), end), (page::LEN, page::LEN));
    (copies.to_vec(), bytes, last)
}

#[test]
fn a_page_is_written_and_read_back() {
    let folder = Folder::new("a_page_is_written_and_read_back");
    let file = folder.file("page");
    let bench = "D 16, S 4, K 4, N 8: a sound geometry, that of bench";
    let real = "D 2048, S 128, K 64, N 512: a sound geometry, that of fm25s005bi3";
    let (out, read) = (format!("--out={file}"), format!("--read={file}"));
    for (args, part, check, sizes) in [
        (&["-o", &file][..], Geometry::bench(), "F954h", bench),
        (
            &["--part", "FM25S005BI3", "-o", &file],
            Geometry::fm25s005bi3(),
            "B77Ch",
            real,
        ),
        (&[&out, "--part=bench"], Geometry::bench(), "F954h", bench),
    ] {
        assert_eq!(succeeds(&sleetanvil(&[&["page"], args].concat())), "");
        let saved = fs::read(&file).expect("the page");
        assert_eq!(saved, copies(&part));
        assert_eq!(folder.names(), ["page"]);

        let text = succeeds(&sleetanvil(&["page", &read]));
        let (lines, bytes, last) = page_read(&text);
        let line = |copy, bytes| format!("copy {copy}, bytes {bytes}: holds; check {check}");
        let wanted = [
            line(0, "0 to 255"),
            line(1, "256 to 511"),
            line(2, "512 to 767"),
        ];
        assert_eq!(lines, wanted);
        assert_eq!(bytes, saved[..page::LEN]);
        assert_eq!(last, sizes);
        // From standard input, with what a whole page of the array has behind the copies.
        let longer = [&saved[..], &[0xFF; 1408]].concat();
        let again = with_input(&["page", "--read", "-"], &longer);
        assert_eq!(succeeds(&again), text);
    }
    let output = sleetanvil(&["page", "-o", "-"]);
    assert_eq!(output.status.code(), Some(0));
    assert_eq!(output.stdout, copies(&Geometry::bench()));
}

/// What each field says, of the real part.
#[test]
fn a_page_is_put_into_words() {
    let output = with_input(&["page", "--read", "-"], &copies(&Geometry::fm25s005bi3()));
    let text = succeeds(&output);
    for (places, what, says) in [
        ("0-3", "signature", "\"ONFI\""),
        ("6-7", "features supported", "no bit"),
        ("8-9", "optional commands supported", "bits 1, 2"),
        ("32-43", "manufacturer", "\"FUDANMICRO\""),
        ("44-63", "model", "\"FM25S005BI3\""),
        ("64", "manufacturer's identity", "A1h"),
        ("80-83", "D, data bytes per page", "2048"),
        ("84-85", "S, spare bytes per page", "128"),
        ("92-95", "K, pages per block", "64"),
        ("96-99", "N, blocks per logical unit", "512"),
        ("103-104", "bad blocks per unit, at most", "10"),
        ("105-106", "endurance of a block", "5 * 10^4"),
        ("110", "programs per page", "4"),
        ("128", "pin capacitance, at most", "8 pF"),
        ("133-134", "page program, at most", "900 us"),
        ("135-136", "block erase, at most", "10000 us"),
        ("137-138", "page read, at most", "105 us"),
        ("166-253", "vendor's own", "all 00h"),
        ("254-255", "check", "B77Ch"),
    ] {
        let line = format!("{places:>9}  {what:<28}  {says:<22}  ");
        assert!(text.contains(&line), "no `{line}` in\n{text}");
    }
}

/// The first copy that holds is the one that is shown, and each of the others has its reason.
#[test]
fn a_page_with_damaged_copies() {
    let folder = Folder::new("a_page_with_damaged_copies");
    let mut bytes = copies(&Geometry::fm25s005bi3());
    bytes[256 + 84] = 0x40; // another S, and a check to it
    put_check(&mut bytes[256..512]);
    bytes[84] = 0x05;
    bytes[512..516].copy_from_slice(b"ONFX");
    let stored = page::check(&copies(&Geometry::fm25s005bi3())[..254]);
    let computed = page::check(&bytes[..254]);
    let second = page::check(&bytes[256..510]);
    let file = folder.write("page", &bytes);
    let text = succeeds(&sleetanvil(&["page", "--read", &file]));
    let (lines, table, last) = page_read(&text);
    assert_eq!(
        lines,
        [
            format!("copy 0, bytes 0 to 255: wrong check: stored {stored:04X}h, computed {computed:04X}h"),
            format!("copy 1, bytes 256 to 511: holds; check {second:04X}h"),
            "copy 2, bytes 512 to 767: no signature: 4Fh 4Eh 46h 58h, not 4Fh 4Eh 46h 49h".into(),
        ]
    );
    assert!(text.contains("\nfields of copy 1:\n"));
    assert_eq!(table, bytes[256..512]);
    assert_eq!(
        last,
        "D 2048, S 64, K 64, N 512: a sound geometry, of no named part"
    );

    // None holds: the copies are told all the same, and no table.
    bytes[256] = 0x00;
    let file = folder.write("page", &bytes);
    let output = sleetanvil(&["page", "--read", &file]);
    fails(
        &output,
        1,
        &format!("{file}: {} (refusal 10)", Refusal::NoCopy),
    );
    let told = text_of_copies(&output);
    assert!(told[0].contains("wrong check") && told[2].contains("no signature"));
    assert!(
        told[1].contains("no signature: 00h 4Eh 46h 49h"),
        "{told:?}"
    );
    assert_eq!(fs::read(&file).expect("the page"), bytes);
}

/// The three lines of the copies where nothing else is printed.
fn text_of_copies(output: &Output) -> [String; 3] {
    let lines: Vec<_> = text(&output.stdout).lines().map(String::from).collect();
    lines.try_into().expect("three lines")
}

/// Bytes that no table knows come out as they stand, and sizes that no part has are told to be so.
#[test]
fn a_page_of_any_bytes() {
    let mut bytes = vec![0; 768];
    for (place, byte) in bytes[512..].iter_mut().enumerate() {
        *byte = (place * place / 3 + 7) as u8;
    }
    bytes[512..516].copy_from_slice(b"ONFI");
    bytes[512 + 32..512 + 44].copy_from_slice(b"a \"b\"\0\xFF     ");
    bytes[512 + 166..512 + 254].fill(0xEE);
    bytes[512 + 80..512 + 100].fill(0xFF);
    put_check(&mut bytes[512..]);
    let text = succeeds(&with_input(&["page", "--read", "-"], &bytes));
    let (lines, table, last) = page_read(&text);
    assert!(lines[2].contains(": holds; check "), "{text}");
    assert_eq!(table, bytes[512..]);
    assert_eq!(
        last,
        "D 4294967295, S 65535, K 4294967295, N 4294967295: not a sound geometry, no device can \
         have it"
    );
    assert!(text.contains(r#"  "a "b".."    "#), "{text}");
    assert!(text.contains("not all 00h             EE, 88 times\n"));
}

#[test]
fn a_page_that_is_too_short() {
    let folder = Folder::new("a_page_that_is_too_short");
    let good = copies(&Geometry::bench());
    for length in [0, 1, 256, 767] {
        let file = folder.write("page", &good[..length]);
        let told = format!("{} (refusal 11): {length} bytes", Refusal::ShortMemory);
        for output in [
            sleetanvil(&["page", "--read", &file]),
            with_input(&["page", "--read", "-"], &good[..length]),
        ] {
            fails(&output, 1, &told);
            assert!(output.stdout.is_empty());
        }
    }
    let missing = folder.file("missing");
    fails(&sleetanvil(&["page", "--read", &missing]), 1, "missing: ");
    let inner = folder.file("");
    fails(&sleetanvil(&["page", "--read", &inner]), 1, &inner);
}

/// A page is saved as an image is: whole, by its old mode, and over nothing but a file.
#[test]
fn a_page_is_saved_as_other_files_are() {
    let folder = Folder::new("a_page_is_saved_as_other_files_are");
    let file = folder.write("page", b"old");
    fs::set_permissions(&file, Permissions::from_mode(0o640)).expect("a mode");
    symlink("page", folder.file("link")).expect("a link");
    succeeds(&sleetanvil(&["page", "-o", &folder.file("link")]));
    assert_eq!(
        fs::read(&file).expect("the page"),
        copies(&Geometry::bench())
    );
    assert_eq!(mode(&file), 0o640);
    let (inner, none) = (folder.file("inner"), folder.file("no/page"));
    fs::create_dir(&inner).expect("a folder");
    for (path, message) in [
        (&inner[..], "it is a folder, not a file"),
        ("/dev/null", "it is a device, not a file"),
        (&none, "there is no folder"),
    ] {
        let output = sleetanvil(&["page", "-o", path]);
        fails(&output, 1, &format!("{path}: cannot save: {message}"));
    }
    assert_eq!(folder.names(), ["inner", "link", "page"]);
}
