//! The card slot: the FM4428, a memory card with a protect bit for each byte and a security code.
//!
//! A command is three bytes and answers one byte, or two where the protect bit is read too. Until
//! the security code has passed, the code bytes read 00h, and the only thing that changes is the
//! counter, which loses a bit with each try. The code passes by three commands, each right behind
//! the other:
//!
//! ```
//! use sleetanvil::card::{Card, Command, Stage, CODE};
//!
//! let mut card = Card::new();
//! card.command(Command::Count { mask: 0xFE }); // a counter bit is newly cleared
//! assert_eq!(card.stage(), Stage::Counted);
//! card.command(Command::Compare { address: CODE, data: 0xFF });
//! card.command(Command::Compare { address: CODE + 1, data: 0xFF });
//! assert!(card.is_open());
//!
//! card.command(Command::Write { address: 5, data: 0xA5 });
//! card.command(Command::Write { address: 1021, data: 0xFF }); // all eight tries again
//! assert_eq!(card.command(Command::ReadBit { address: 5 }), [0xA5, 0x01]);
//!
//! card.power_loss();
//! assert_eq!(card.stage(), Stage::Fresh);
//! assert_eq!(card.command(Command::Read { address: 5 }), [0xA5]);
//! ```
//!
//! Any other command between the three starts the code anew, a read too; nothing on the wire says so:
//!
//! ```
//! use sleetanvil::card::{Card, Stage};
//!
//! let mut card = Card::new();
//! card.command([0xF2, 0xFD, 0xFE]); // the counter, FFh AND FEh
//! card.command([0xCD, 0xFE, 0xFF]); // the first code byte, right
//! assert_eq!(card.stage(), Stage::Half);
//! assert_eq!(card.command([0xCE, 0xFD, 0x00]), [0xFE]); // the counter is read
//! card.command([0xCD, 0xFF, 0xFF]); // the second code byte, right, and too late
//! assert_eq!(card.stage(), Stage::Fresh);
//! ```
//!
//! The card shares nothing with the [`Device`](crate::Device). It is the library's functions that do
//! all of it. The project's `docs/FOR-DRIVERS.md` has the commands as a table, and what goes wrong.

use std::fmt;

use crate::raw::RawCard;
use crate::{ffi, Refusal};

/// The bytes of a card's cells.
pub const CELLS: usize = 1024;

/// The bytes of its protect bits.
pub const BITS: usize = 128;

/// The address of the counter, which has a bit for each try that is left.
pub const COUNTER: u16 = 1021;

/// The address of the first code byte; the second stands behind it.
pub const CODE: u16 = 1022;

/// The kind of a command in a card log, whose body is the command's three bytes.
pub const KIND_COMMAND: u8 = 0x20;

/// The kind of a power loss, the other one in a card log. It has no body.
pub const KIND_POWER: u8 = 0x06;

/// How far the security code has come.
#[derive(Clone, Copy, Debug, PartialEq, Eq, PartialOrd, Ord, Hash)]
pub enum Stage {
    /// No step is taken.
    Fresh = 0,
    /// A counter bit was cleared.
    Counted = 1,
    /// And the first code byte was right.
    Half = 2,
    /// And the second: the code has passed, until power is lost.
    Open = 3,
}

impl Stage {
    /// The number of the stage in [`RawCard`].
    pub fn number(self) -> u8 {
        self as u8
    }

    /// What an answer's number says.
    ///
    /// # Panics
    ///
    /// If the number is above 3, which the library does not answer to a sound card.
    fn of_answer(number: u8) -> Self {
        match number {
            0 => Stage::Fresh,
            1 => Stage::Counted,
            2 => Stage::Half,
            3 => Stage::Open,
            _ => panic!("the library answered stage {number}"),
        }
    }
}

/// The commands of the card.
///
/// An address is 0 to 1,023. What the card ignores can be said all the same, a [`Command::Compare`]
/// at any address for one; what is not in the table at all, by three bytes.
#[derive(Clone, Copy, Debug, PartialEq, Eq, Hash)]
pub enum Command {
    /// Write a byte, and protect it for ever: 31h.
    WriteProtect {
        /// Where.
        address: u16,
        /// The byte.
        data: u8,
    },
    /// Write a byte: 33h.
    Write {
        /// Where.
        address: u16,
        /// The byte.
        data: u8,
    },
    /// Protect a byte for ever, if it is the one given: 30h.
    Protect {
        /// Where.
        address: u16,
        /// What the byte has to be.
        data: u8,
    },
    /// Read a byte and its protect bit, which is 01h where the byte is open: 0Ch.
    ReadBit {
        /// Where.
        address: u16,
    },
    /// Read a byte: 0Eh.
    Read {
        /// Where.
        address: u16,
    },
    /// Clear a bit of the counter: 32h at [`COUNTER`]. The counter AND the mask is put in if that
    /// clears exactly one bit.
    Count {
        /// The mask.
        mask: u8,
    },
    /// Compare a code byte: 0Dh. At [`CODE`] and the address behind it; at any other it is ignored.
    Compare {
        /// Which code byte.
        address: u16,
        /// What it is said to be.
        data: u8,
    },
}

impl Command {
    /// The three bytes of the command: the code, with bits 9 and 8 of the address above it; bits 7 to
    /// 0 of the address; the data, 00h for a read.
    ///
    /// # Panics
    ///
    /// For an address above 1,023, which three bytes cannot say.
    ///
    /// ```
    /// use sleetanvil::card::Command;
    ///
    /// assert_eq!(Command::Count { mask: 0x7F }.bytes(), [0xF2, 0xFD, 0x7F]);
    /// assert_eq!(Command::Write { address: 0x2A5, data: 0x11 }.bytes(), [0xB3, 0xA5, 0x11]);
    /// ```
    pub fn bytes(self) -> [u8; 3] {
        let (code, address, data) = match self {
            Command::WriteProtect { address, data } => (0x31, address, data),
            Command::Write { address, data } => (0x33, address, data),
            Command::Protect { address, data } => (0x30, address, data),
            Command::ReadBit { address } => (0x0C, address, 0),
            Command::Read { address } => (0x0E, address, 0),
            Command::Count { mask } => (0x32, COUNTER, mask),
            Command::Compare { address, data } => (0x0D, address, data),
        };
        assert!(usize::from(address) < CELLS, "no address {address}");
        let [high, low] = address.to_be_bytes();
        [code | high << 6, low, data]
    }

    /// The command as a record of a card log: [`KIND_COMMAND`], then its three bytes.
    pub fn record(self) -> [u8; 4] {
        let [first, second, third] = self.bytes();
        [KIND_COMMAND, first, second, third]
    }
}

impl From<Command> for [u8; 3] {
    fn from(command: Command) -> Self {
        command.bytes()
    }
}

/// What the run of a card log gives back.
#[derive(Clone, Copy, Debug, PartialEq, Eq)]
#[must_use]
pub struct CardAnswer {
    /// Records done.
    pub records: usize,
    /// Log bytes used: those of the records done.
    pub used: usize,
    /// Output bytes written: one for each command done, two for [`Command::ReadBit`].
    pub written: usize,
    /// Why it stopped; none where the log was read to its end.
    pub refusal: Option<Refusal>,
}

impl CardAnswer {
    /// The refusal as an error.
    pub fn result(&self) -> Result<(), Refusal> {
        self.refusal.map_or(Ok(()), Err)
    }
}

/// A memory card with cells, protect bits and stage of its own.
///
/// It is sound from its making on, so its commands cannot be refused, and a run can be refused only
/// for its log or its output room: with [`Refusal::BadKind`], [`Refusal::ShortBody`] and
/// [`Refusal::NoRoom`]. Two are equal where memory and stage are.
#[derive(Clone, PartialEq, Eq)]
pub struct Card {
    stage: Stage,
    cells: Vec<u8>,
    bits: Vec<u8>,
}

/// The stage and the lengths of the memory.
impl fmt::Debug for Card {
    fn fmt(&self, f: &mut fmt::Formatter<'_>) -> fmt::Result {
        let bytes = |memory: &[u8]| format!("{} bytes", memory.len());
        f.debug_struct("Card")
            .field("stage", &self.stage)
            .field("cells", &bytes(&self.cells))
            .field("bits", &bytes(&self.bits))
            .finish()
    }
}

impl Card {
    /// A new card at power-up, all cells and protect bits FFh: nothing is written, nothing is
    /// protected, all eight tries are left, and the security code is FFh FFh.
    ///
    /// The datasheet does not say what a card holds as it is delivered. This content is our choice:
    /// it is that of cells that were erased and never written. For another one there is
    /// [`Card::from_memory`].
    pub fn new() -> Self {
        Card::from_memory(vec![0xFF; CELLS], vec![0xFF; BITS])
            .expect("memory of the right lengths is never refused")
    }

    /// A card at power-up, with this memory: one that was pulled and is put in again.
    ///
    /// It is [`Refusal::BadCardCells`] for cells that are not [`CELLS`] bytes, and else
    /// [`Refusal::BadCardBits`] for protect bits that are not [`BITS`] bytes.
    pub fn from_memory(cells: Vec<u8>, bits: Vec<u8>) -> Result<Self, Refusal> {
        let stage = Stage::of_answer(ffi::card_power_up().stage);
        Card::from_parts(stage, cells, bits)
    }

    /// A card at any stage, with this memory. It is refused as by [`Card::from_memory`].
    pub fn from_parts(stage: Stage, cells: Vec<u8>, bits: Vec<u8>) -> Result<Self, Refusal> {
        let mut card = Card { stage, cells, bits };
        card.run(&[], &mut []).result()?;
        Ok(card)
    }

    /// How far the security code has come.
    pub fn stage(&self) -> Stage {
        self.stage
    }

    /// Whether the security code has passed.
    pub fn is_open(&self) -> bool {
        self.stage == Stage::Open
    }

    /// The counter: a bit that is 1 for each try that is left.
    pub fn counter(&self) -> u8 {
        self.cells[usize::from(COUNTER)]
    }

    /// Whether the byte at an address is protected: its protect bit is 0.
    ///
    /// # Panics
    ///
    /// For an address above 1,023.
    pub fn is_protected(&self, address: u16) -> bool {
        self.bits[usize::from(address / 8)] >> (address % 8) & 1 == 0
    }

    /// The cells, as they are: the code bytes too, which a read does not show before the code has
    /// passed.
    pub fn cells(&self) -> &[u8] {
        &self.cells
    }

    /// The protect bits. Bit a mod 8 of byte a / 8 belongs to address a; 1 is open, 0 protected.
    pub fn bits(&self) -> &[u8] {
        &self.bits
    }

    /// The cells, to be changed by hand: what no reader does.
    pub fn cells_mut(&mut self) -> &mut [u8] {
        &mut self.cells
    }

    /// The protect bits, to be changed by hand.
    pub fn bits_mut(&mut self) -> &mut [u8] {
        &mut self.bits
    }

    /// What [`Card::from_parts`] takes: stage, cells and protect bits.
    pub fn into_parts(self) -> (Stage, Vec<u8>, Vec<u8>) {
        (self.stage, self.cells, self.bits)
    }

    /// The cells and the protect bits, which outlive a loss of power.
    pub fn into_memory(self) -> (Vec<u8>, Vec<u8>) {
        (self.cells, self.bits)
    }

    /// One command, by name or by its three bytes. Gives the bytes answered: one, or two for
    /// [`Command::ReadBit`].
    pub fn command(&mut self, command: impl Into<[u8; 3]>) -> Vec<u8> {
        let mut out = [0xFF; 2];
        let (cells, bits) = (&mut self.cells, &mut self.bits);
        let raw = ffi::card_command(raw(self.stage), command.into(), cells, bits, &mut out);
        let answer = self.keep(raw);
        let refusal = answer.refusal;
        assert_eq!(refusal, None, "a command to a sound card is never refused");
        out[..answer.written].to_vec()
    }

    /// Run a card log.
    pub fn run(&mut self, log: &[u8], out: &mut [u8]) -> CardAnswer {
        let (cells, bits) = (&mut self.cells, &mut self.bits);
        let raw = ffi::card_run(raw(self.stage), log, cells, bits, out);
        self.keep(raw)
    }

    /// Run a card log, and give its output beside the answer.
    pub fn replay(&mut self, log: &[u8]) -> (CardAnswer, Vec<u8>) {
        // A command takes four bytes of the log and answers two at most, so this is room for all.
        let mut out = vec![0xFF; log.len() / 2];
        let answer = self.run(log, &mut out);
        out.truncate(answer.written);
        (answer, out)
    }

    /// Power lost and back, or the card pulled and put in again: it is no longer open, and steps
    /// already taken are undone.
    pub fn power_loss(&mut self) {
        self.stage = Stage::of_answer(ffi::card_power_up().stage);
    }

    fn keep(&mut self, raw: ffi::RawCardAnswer) -> CardAnswer {
        self.stage = Stage::of_answer(raw.card.stage);
        CardAnswer {
            records: raw.records,
            used: raw.used,
            written: raw.written,
            refusal: Refusal::of_answer(raw.refusal),
        }
    }
}

impl Default for Card {
    fn default() -> Self {
        Card::new()
    }
}

fn raw(stage: Stage) -> RawCard {
    RawCard {
        stage: stage.number(),
    }
}
