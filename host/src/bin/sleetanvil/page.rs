//! Parameter pages: a named part's, made and saved; a file's, read and put into words.

use std::fmt::Write as _;
use std::fs::File;
use std::io::{self, Read, Write as _};
use std::ops::Range;

use sleetanvil::page::{self, Sizes};
use sleetanvil::Refusal;

use crate::args::{Destination, Page, Part, Source};
use crate::save::Target;
use crate::words::{hex, numbered};
use crate::{print, put, Failure};

/// The three copies.
const BYTES: usize = page::COPIES * page::LEN;
const SIGNATURE: [u8; 4] = *b"ONFI";
/// Where a copy's check stands, behind what it is made of.
const CHECK: usize = page::LEN - 2;
/// As many bytes stand in a line of the table.
const LINE: usize = 12;

/// Make or read a parameter page as the command line asks.
pub fn run(page: &Page) -> Result<(), Failure> {
    match page {
        Page::Make { part, to } => make(*part, to),
        Page::Read { from } => read(from),
    }
}

fn make(part: Part, to: &Destination) -> Result<(), Failure> {
    let mut bytes = [0; BYTES];
    for copy in bytes.chunks_exact_mut(page::LEN) {
        page::make(&part.geometry(), copy)
            .map_err(|refusal| format!("{}: {}", part.name(), numbered(refusal)))?;
    }
    match to {
        Destination::Stdout => put(&bytes),
        Destination::File(path) => Ok(Target::of(path)?.save(|file| file.write_all(&bytes))?),
    }
}

fn read(from: &Source) -> Result<(), Failure> {
    let bytes = load(from).map_err(|error| format!("{from}: {error}"))?;
    let sizes = match page::read(&bytes) {
        Ok(sizes) => sizes,
        Err(refusal) => {
            let mut message = format!("{from}: {}", numbered(refusal));
            match refusal {
                Refusal::ShortMemory => {
                    message += &format!(": {} bytes, and three copies have {BYTES}", bytes.len());
                }
                // The refusal counts more than a reader who is gone.
                _ => drop(print(&copies(&bytes))),
            }
            return Err(message.into());
        }
    };
    let copy = usize::from(sizes.copy);
    let text = copies(&bytes)
        + &format!("\nfields of copy {copy}:\n")
        + &table(&bytes[span(copy)])
        + &format!("\n{}\n", verdict(&sizes));
    print(&text)
}

/// The three copies, or as much of them as there is. What stands behind them is not read.
fn load(from: &Source) -> io::Result<Vec<u8>> {
    let file: Box<dyn Read> = match from {
        Source::Stdin => Box::new(io::stdin()),
        Source::File(path) => Box::new(File::open(path)?),
    };
    let mut bytes = Vec::with_capacity(BYTES);
    file.take(BYTES as u64).read_to_end(&mut bytes)?;
    Ok(bytes)
}

/// The bytes of a copy.
fn span(copy: usize) -> Range<usize> {
    copy * page::LEN..(copy + 1) * page::LEN
}

/// A line for each copy: whether it holds, and if not, why.
fn copies(bytes: &[u8]) -> String {
    let line = |copy| {
        let (from, to) = (span(copy).start, span(copy).end - 1);
        let judged = judged(&bytes[span(copy)]);
        format!("copy {copy}, bytes {from} to {to}: {judged}\n")
    };
    (0..page::COPIES).map(line).collect()
}

/// Whether a copy holds, which the library says where it is handed all three alike; and if not, why.
fn judged(copy: &[u8]) -> String {
    let (signature, stored) = (&copy[..SIGNATURE.len()], number(&copy[CHECK..]));
    let computed = page::check(&copy[..CHECK]);
    if page::read(&copy.repeat(page::COPIES)).is_ok() {
        format!("holds; check {computed:04X}h")
    } else if signature != SIGNATURE {
        let (wanted, found) = (hex(&SIGNATURE), hex(signature));
        format!("no signature: {found}, not {wanted}")
    } else {
        format!("wrong check: stored {stored:04X}h, computed {computed:04X}h")
    }
}

/// The four sizes, and what part they are of.
fn verdict(sizes: &Sizes) -> String {
    let of = |part: &Part| {
        let geometry = part.geometry();
        sizes.geometry(geometry.identity) == geometry
    };
    let judged = match Part::ALL.into_iter().find(of) {
        Some(part) => format!("a sound geometry, that of {}", part.name()),
        None if sizes.geometry([0; 2]).is_sound() => "a sound geometry, of no named part".into(),
        None => "not a sound geometry, no device can have it".into(),
    };
    let Sizes {
        data,
        spare,
        pages,
        blocks,
        ..
    } = sizes;
    format!("D {data}, S {spare}, K {pages}, N {blocks}: {judged}")
}

/// What the bytes of a field mean.
enum Kind {
    Text,
    /// A number, low byte first, and what it counts.
    Number(&'static str),
    /// A number that counts nothing.
    Code,
    Bits,
    /// A factor, and a power of ten.
    Power,
    /// All 00h, in the datasheet.
    Unused,
}

/// A field: its first byte, its length, what it is, and how it is read.
struct Field(usize, usize, &'static str, Kind);

/// The datasheet's table, in its order.
const FIELDS: [Field; 37] = [
    Field(0, 4, "signature", Kind::Text),
    Field(4, 2, "revision", Kind::Code),
    Field(6, 2, "features supported", Kind::Bits),
    Field(8, 2, "optional commands supported", Kind::Bits),
    Field(10, 22, "reserved", Kind::Unused),
    Field(32, 12, "manufacturer", Kind::Text),
    Field(44, 20, "model", Kind::Text),
    Field(64, 1, "manufacturer's identity", Kind::Code),
    Field(65, 2, "date code", Kind::Code),
    Field(67, 13, "reserved", Kind::Unused),
    Field(80, 4, "D, data bytes per page", Kind::Number("")),
    Field(84, 2, "S, spare bytes per page", Kind::Number("")),
    Field(86, 6, "reserved", Kind::Unused),
    Field(92, 4, "K, pages per block", Kind::Number("")),
    Field(96, 4, "N, blocks per logical unit", Kind::Number("")),
    Field(100, 1, "logical units", Kind::Number("")),
    Field(101, 1, "address bytes", Kind::Code),
    Field(102, 1, "bits per cell", Kind::Number("")),
    Field(103, 2, "bad blocks per unit, at most", Kind::Number("")),
    Field(105, 2, "endurance of a block", Kind::Power),
    Field(107, 1, "blocks good for certain", Kind::Number("")),
    Field(108, 2, "their endurance", Kind::Power),
    Field(110, 1, "programs per page", Kind::Number("")),
    Field(111, 1, "reserved", Kind::Unused),
    Field(112, 1, "ECC bits", Kind::Number("")),
    Field(113, 1, "plane address bits", Kind::Number("")),
    Field(114, 1, "multi-plane operation", Kind::Bits),
    Field(115, 13, "reserved", Kind::Unused),
    Field(128, 1, "pin capacitance, at most", Kind::Number(" pF")),
    Field(129, 4, "reserved", Kind::Unused),
    Field(133, 2, "page program, at most", Kind::Number(" us")),
    Field(135, 2, "block erase, at most", Kind::Number(" us")),
    Field(137, 2, "page read, at most", Kind::Number(" us")),
    Field(139, 25, "reserved", Kind::Unused),
    Field(164, 2, "vendor's revision", Kind::Code),
    Field(166, 88, "vendor's own", Kind::Unused),
    Field(254, 2, "check", Kind::Code),
];

/// A line for each field of a copy, and further ones where its bytes do not fit: the places of its
/// bytes, what it is, what it says, and the bytes themselves.
fn table(copy: &[u8]) -> String {
    let mut text = String::new();
    for Field(place, length, what, kind) in &FIELDS {
        let bytes = &copy[*place..place + length];
        let places = match length {
            1 => place.to_string(),
            _ => format!("{place}-{}", place + length - 1),
        };
        let mut rows = rows(bytes).into_iter();
        let (says, row) = (kind.says(bytes), rows.next().unwrap_or_default());
        // Memory takes whatever is written.
        let _ = writeln!(text, "{places:>9}  {what:<28}  {says:<22}  {row}");
        for row in rows {
            let _ = writeln!(text, "{:65}{row}", "");
        }
    }
    text
}

/// Bytes as lines; one line for many that are the same.
fn rows(bytes: &[u8]) -> Vec<String> {
    match bytes {
        [first, rest @ ..] if rest.len() >= LINE && rest.iter().all(|byte| byte == first) => {
            vec![format!("{first:02X}, {} times", bytes.len())]
        }
        _ => bytes.chunks(LINE).map(plain_hex).collect(),
    }
}

impl Kind {
    fn says(&self, bytes: &[u8]) -> String {
        match self {
            Kind::Text => {
                let padded: String = bytes.iter().map(|&byte| letter(byte)).collect();
                format!("\"{}\"", padded.trim_end_matches(' '))
            }
            Kind::Number(unit) => format!("{}{unit}", number(bytes)),
            Kind::Code => format!("{:0width$X}h", number(bytes), width = 2 * bytes.len()),
            Kind::Bits => bits(number(bytes)),
            Kind::Power => match bytes {
                [factor, power] => format!("{factor} * 10^{power}"),
                _ => String::new(),
            },
            Kind::Unused if bytes.iter().all(|&byte| byte == 0) => "all 00h".into(),
            Kind::Unused => "not all 00h".into(),
        }
    }
}

/// A byte of a text; a dot for one that cannot be shown.
fn letter(byte: u8) -> char {
    match byte {
        b' '..=b'~' => byte.into(),
        _ => '.',
    }
}

/// The bits that are 1, if they are few.
fn bits(number: u32) -> String {
    let set: Vec<_> = (0..u32::BITS)
        .filter(|bit| number >> bit & 1 == 1)
        .map(|bit| bit.to_string())
        .collect();
    match &set[..] {
        [] => "no bit".into(),
        [bit] => format!("bit {bit}"),
        set if set.len() <= 4 => format!("bits {}", set.join(", ")),
        set => format!("{} bits", set.len()),
    }
}

/// A number of at most four bytes, low byte first.
fn number(bytes: &[u8]) -> u32 {
    let digits = bytes.iter().rev();
    digits.fold(0, |number, &byte| number << 8 | u32::from(byte))
}

fn plain_hex(bytes: &[u8]) -> String {
    let bytes: Vec<_> = bytes.iter().map(|byte| format!("{byte:02X}")).collect();
    bytes.join(" ")
}
