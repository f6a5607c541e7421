//! The command line.

use std::ffi::{OsStr, OsString};
use std::fmt;
use std::os::unix::ffi::OsStrExt;
use std::path::PathBuf;

use sleetanvil::{Geometry, Stepping};

pub const HELP: &str = "\
sleetanvil - replays bus logs on a proved model of a serial NAND flash, makes
and reads its parameter page, and runs the logs of a memory card

usage:
  sleetanvil replay [options] LOG        replay a log file; - is standard input
  sleetanvil page [--part NAME] -o FILE  make the parameter page of a part
  sleetanvil page --read FILE            read one, and say what stands in it
  sleetanvil card [options] LOG          run a card log; - is standard input
  sleetanvil --help                      print this text
  sleetanvil --version                   print the version

options of replay; a value may also be given as --part=NAME:
  --part NAME     the part: bench or fm25s005bi3; bench if neither this nor
                  an image names one
  --stepping N    its stepping, 1 or 2; 1 if neither this nor an image names
                  one. The second has CMP, bit 1 of A0h: with CMP 1 and a BP
                  number from 1 to 6 the other blocks are the protected ones.
                  This decides over an image: its device is then run on that
                  stepping. A device whose CMP is 1 cannot be run on the first,
                  but for --power-up, which clears CMP
  --image FILE    the device to begin with. The replay goes on where the log
                  ended whose device was saved. Without an image it begins at
                  power-up, all cells FFh and all page counts 0
  --power-up      begin at power-up, with WP# high, and take nothing but cells
                  and page counts from the image
  --save FILE     where to put the device once the log has been read to its
                  end; may be the file of --image
  --out FILE      where to put the bytes on DO, one for each shift
  --expect FILE   compare the bytes on DO with those of the file. The replay
                  stops at the first that differs; nothing is saved then, and
                  neither a verdict nor `end` is printed. The log has to end
                  where the file does
  --trace         print a line for each transfer and each other record, in the
                  order in which they begin. An indented line is of a record
                  inside the transfer above it. Where A0h is written or read,
                  or set back by a power loss, the protected blocks are named
  --bytes N       data bytes that a line of the trace shows; 16 if not given
  --judge         print `orderly`, or `not orderly` and the first reason, before
                  the last line. A log is orderly if it begins at power-up or
                  idle, if while the array is busy no command is begun but Get
                  Feature, Read ID and Reset, no reset and no power loss takes
                  effect, and if it ends with the array idle: its end is then
                  the one reached if each operation is done whole as it begins.
                  A reset is an operation too, of 8 units. Of a log that is
                  refused it speaks of the records done

options of page; boot code sizes a part from this page:
  --part NAME     the part whose page is made: bench or fm25s005bi3; bench if
                  not given. The page is the same for both steppings
  -o FILE         where to put the three copies of the page, 768 bytes; - is
  --out FILE      standard output
  --read FILE     the file to read three copies from; - is standard input. For
                  each copy a line says whether its signature and check hold;
                  then come the fields of the first copy that does, a line for
                  each: its bytes by number, what it is, what it says, and the
                  bytes in hex; and last the four sizes that a driver needs, and
                  whether they are a sound geometry. What stands behind the 768
                  bytes is not read. Fewer bytes, or no copy that holds, is
                  refused by number

options of card; the card is an FM4428:
  --image FILE    the card to begin with, as it is put in: power has just come
                  to it. Without an image it is a new one, all FFh: nothing is
                  written, nothing is protected, the code is FFh FFh
  --save FILE     where to put the card once the log has been read to its end,
                  as it is pulled; may be the file of --image
  --trace         print a line for each record: a command's three bytes, what
                  they ask, the bytes answered, what became of it or why
                  nothing changes, and what that does to the security code

The last line that replay and card print is `end`, the number of refusal and the
records done; `end 0 8` is a log of 8 records read to its end. Before it card
prints how the log ended, the card, its counter and the protected bytes, a line
for each. Records, and the bytes of a log, of the bytes on DO and of a page, are
numbered from 0.

A log is a row of records: a byte of kind, then a body.
  01      chip select falls           04 nn nn  array work, low byte first
  02 nn   a byte shifted in on DI     05 nn     WP# level, 0 or 1
  03      chip select rises           06        power lost and back
That is a log of the flash. A card log has two kinds:
  20 nn nn nn  a command to the card  06        power lost and back
A log is read in pieces and may be larger than memory; but with --judge it is
read whole, for the verdict is of the whole. Of a long log standard error tells
how much is done, if it is a terminal.

An image file holds, with numbers low byte first:
  8 bytes  `SLEETIMG`
  4 bytes  version, 2
  16 bytes data and spare bytes per page, pages per block and blocks,
           4 bytes each
  4 bytes  the two identity bytes, the stepping (0 is the first, 1 the second)
           and a zero
  then     the cells, row by row, and the page counts, a byte per page
  24 bytes the state, as in `sleet_state` of sleetanvil.h: A0h, B0h, C0h, D0h,
           WP#, selected, count, first, second, third and job, a byte each; a
           zero; instruction, column and row, 2 bytes each; two zeros; units,
           4 bytes
  then     the cache register
Version 1 ends with the page counts; a replay of it begins at power-up. A file
of version 2 is what is saved.

The image of a card is 1152 bytes: the cells, 1024 bytes, then the protect bits,
128 bytes, where bit a mod 8 of byte a / 8 belongs to address a. How far the
code has come is not in it: a card that was pulled is closed.

A file is saved under another name in the same folder and then renamed, so that
it is whole or as it was. Links are followed, and a file that is replaced gives
its mode to the new one; what is there and is not a file is refused before
anything is done. A log that is refused leaves it as it was.

exit status:
  0    done
  1    a bad file, a refused log (judged or not, of the flash or of a card),
       output that differs, or a parameter page that is refused
  2    a bad command line
  3    with --judge: the log was read to its end, all is done, and the log is
       not orderly
  141  nobody reads standard output any more; nothing is saved, if that was
       noticed before the end of the log
";

/// What is asked for.
#[derive(Debug)]
pub enum Command {
    Help,
    Version,
    Replay(Replay),
    Page(Page),
    Card(Card),
}

/// A replay and its options.
#[derive(Debug)]
pub struct Replay {
    pub part: Option<Part>,
    pub stepping: Option<Stepping>,
    pub image: Option<PathBuf>,
    pub power_up: bool,
    pub save: Option<PathBuf>,
    pub out: Option<PathBuf>,
    pub expect: Option<PathBuf>,
    pub trace: bool,
    pub bytes: usize,
    pub judge: bool,
    pub log: Source,
}

/// A parameter page to be made or read.
#[derive(Debug)]
pub enum Page {
    Make { part: Part, to: Destination },
    Read { from: Source },
}

/// A card log to be run, and its options.
#[derive(Debug)]
pub struct Card {
    pub image: Option<PathBuf>,
    pub save: Option<PathBuf>,
    pub trace: bool,
    pub log: Source,
}

/// A part by name.
#[derive(Clone, Copy, Debug, Default, PartialEq, Eq)]
pub enum Part {
    #[default]
    Bench,
    Fm25s005bi3,
}

impl Part {
    pub const ALL: [Part; 2] = [Part::Bench, Part::Fm25s005bi3];

    pub fn name(self) -> &'static str {
        match self {
            Part::Bench => "bench",
            Part::Fm25s005bi3 => "fm25s005bi3",
        }
    }

    pub fn geometry(self) -> Geometry {
        match self {
            Part::Bench => Geometry::bench(),
            Part::Fm25s005bi3 => Geometry::fm25s005bi3(),
        }
    }
}

/// Where a log or a page comes from.
#[derive(Debug)]
pub enum Source {
    Stdin,
    File(PathBuf),
}

impl fmt::Display for Source {
    fn fmt(&self, f: &mut fmt::Formatter<'_>) -> fmt::Result {
        match self {
            Source::Stdin => f.write_str("standard input"),
            Source::File(path) => path.display().fmt(f),
        }
    }
}

impl Source {
    fn of(name: OsString) -> Self {
        match name == "-" {
            true => Source::Stdin,
            false => Source::File(name.into()),
        }
    }
}

/// Where a page goes.
#[derive(Debug)]
pub enum Destination {
    Stdout,
    File(PathBuf),
}

impl Destination {
    fn of(name: OsString) -> Self {
        match name == "-" {
            true => Destination::Stdout,
            false => Destination::File(name.into()),
        }
    }
}

/// What the arguments ask for, or what is wrong with them.
pub fn parse(mut args: impl Iterator<Item = OsString>) -> Result<Command, String> {
    let first = args.next().ok_or("no command given")?;
    match first.to_str() {
        Some("--help" | "-h" | "help") => Ok(Command::Help),
        Some("--version" | "-V") => Ok(Command::Version),
        Some("replay") => parse_replay(args),
        Some("page") => parse_page(args),
        Some("card") => parse_card(args),
        _ => Err(format!("no such command: {}", first.to_string_lossy())),
    }
}

fn parse_replay(mut args: impl Iterator<Item = OsString>) -> Result<Command, String> {
    let (mut part, mut image, mut save, mut bytes, mut log) = (None, None, None, None, None);
    let (mut stepping, mut out, mut expect) = (None, None, None);
    let (mut trace, mut judge, mut power_up) = (false, false, false);
    let mut options_end = false;
    while let Some(arg) = args.next() {
        let (option, mut attached) = match options_end {
            true => ("", None),
            false => split(&arg),
        };
        let mut value = || {
            let attached = attached.take().map(OsStr::to_os_string);
            let value = attached.or_else(|| args.next());
            value.ok_or(format!("{option} needs a value"))
        };
        match option {
            "--" => options_end = true,
            "--help" | "-h" => return Ok(Command::Help),
            "--trace" => trace = true,
            "--judge" => judge = true,
            "--power-up" => power_up = true,
            "--part" => set(&mut part, option, part_of(&value()?)?)?,
            "--stepping" => set(&mut stepping, option, stepping_of(&value()?)?)?,
            "--image" => set(&mut image, option, value()?.into())?,
            "--save" => set(&mut save, option, value()?.into())?,
            "--out" => set(&mut out, option, value()?.into())?,
            "--expect" => set(&mut expect, option, value()?.into())?,
            "--bytes" => set(&mut bytes, option, number_of(&value()?)?)?,
            _ if option.starts_with('-') && option != "-" => {
                return Err(format!("no such option: {option}"));
            }
            _ if log.is_some() => return Err("more than one log".into()),
            "-" => log = Some(Source::Stdin),
            _ => log = Some(Source::File(arg.clone().into())),
        }
        if attached.is_some() {
            return Err(format!("{option} takes no value"));
        }
    }
    Ok(Command::Replay(Replay {
        part,
        stepping,
        image,
        power_up,
        save,
        out,
        expect,
        trace,
        bytes: bytes.unwrap_or(16),
        judge,
        log: log.ok_or("no log given")?,
    }))
}

fn parse_page(mut args: impl Iterator<Item = OsString>) -> Result<Command, String> {
    let (mut part, mut to, mut from) = (None, None, None);
    while let Some(arg) = args.next() {
        let (option, attached) = split(&arg);
        let mut value = || {
            let value = attached.map(OsStr::to_os_string).or_else(|| args.next());
            value.ok_or(format!("{option} needs a value"))
        };
        match option {
            "--help" | "-h" => return Ok(Command::Help),
            "--part" => set(&mut part, option, part_of(&value()?)?)?,
            "-o" | "--out" => set(&mut to, option, Destination::of(value()?))?,
            "--read" => set(&mut from, option, Source::of(value()?))?,
            _ if option.starts_with('-') && option != "-" => {
                return Err(format!("no such option: {option}"));
            }
            _ => {
                let arg = arg.to_string_lossy();
                return Err(format!("page takes its file by -o or --read: {arg}"));
            }
        }
    }
    Ok(Command::Page(match (part, to, from) {
        (None, None, Some(from)) => Page::Read { from },
        (part, Some(to), None) => Page::Make {
            part: part.unwrap_or_default(),
            to,
        },
        (_, None, None) => return Err("no file given: page needs -o or --read".into()),
        (_, Some(_), Some(_)) => return Err("-o and --read do not go together".into()),
        (Some(_), None, Some(_)) => return Err("--part and --read do not go together".into()),
    }))
}

fn parse_card(mut args: impl Iterator<Item = OsString>) -> Result<Command, String> {
    let (mut image, mut save, mut trace, mut log) = (None, None, false, None);
    let mut options_end = false;
    while let Some(arg) = args.next() {
        let (option, mut attached) = match options_end {
            true => ("", None),
            false => split(&arg),
        };
        let mut value = || {
            let attached = attached.take().map(OsStr::to_os_string);
            let value = attached.or_else(|| args.next());
            value.ok_or(format!("{option} needs a value"))
        };
        match option {
            "--" => options_end = true,
            "--help" | "-h" => return Ok(Command::Help),
            "--trace" => trace = true,
            "--image" => set(&mut image, option, value()?.into())?,
            "--save" => set(&mut save, option, value()?.into())?,
            _ if option.starts_with('-') && option != "-" => {
                return Err(format!("no such option: {option}"));
            }
            _ if log.is_some() => return Err("more than one log".into()),
            "-" => log = Some(Source::Stdin),
            _ => log = Some(Source::File(arg.clone().into())),
        }
        if attached.is_some() {
            return Err(format!("{option} takes no value"));
        }
    }
    Ok(Command::Card(Card {
        image,
        save,
        trace,
        log: log.ok_or("no log given")?,
    }))
}

/// The name of an option and the value behind its `=`, if it has one; a name of no length for what
/// cannot be an option.
fn split(arg: &OsStr) -> (&str, Option<&OsStr>) {
    let bytes = arg.as_bytes();
    let equals = bytes.iter().position(|&byte| byte == b'=');
    match equals.filter(|_| bytes.starts_with(b"--")) {
        None => (arg.to_str().unwrap_or_default(), None),
        Some(place) => {
            let (name, value) = (&bytes[..place], &bytes[place + 1..]);
            let name = std::str::from_utf8(name).unwrap_or("--?");
            (name, Some(OsStr::from_bytes(value)))
        }
    }
}

/// Take the value of an option that may be given once.
fn set<T>(place: &mut Option<T>, option: &str, value: T) -> Result<(), String> {
    match place.replace(value) {
        None => Ok(()),
        Some(_) => Err(format!("{option} is given twice")),
    }
}

fn part_of(name: &OsString) -> Result<Part, String> {
    Part::ALL
        .into_iter()
        .find(|part| name.eq_ignore_ascii_case(part.name()))
        .ok_or_else(|| {
            format!(
                "no such part: {}; there are bench and fm25s005bi3",
                name.to_string_lossy()
            )
        })
}

fn stepping_of(number: &OsString) -> Result<Stepping, String> {
    match number.to_str() {
        Some("1") => Ok(Stepping::First),
        Some("2") => Ok(Stepping::Second),
        _ => Err(format!(
            "no such stepping: {}; there are 1 and 2",
            number.to_string_lossy()
        )),
    }
}

fn number_of(text: &OsString) -> Result<usize, String> {
    text.to_str()
        .and_then(|text| text.parse().ok())
        .ok_or_else(|| format!("not a number: {}", text.to_string_lossy()))
}
