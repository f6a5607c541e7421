//! Numbers of refusal.

use std::error::Error;
use std::fmt;

use crate::ffi;

/// Why a call stopped or was not begun.
///
/// 1 to 5 are found before anything is done. 6 to 9 stop a run before one record; the records
/// before it stand. 10 and 11 are of parameter pages alone: no byte is changed. 14 to 16 and 20 come
/// from a keeper of the bus alone, which is then as it was. 17 and 18 come from a card alone: nothing
/// is done. Later versions may have more.
#[derive(Clone, Copy, Debug, PartialEq, Eq, PartialOrd, Ord, Hash)]
#[repr(u8)]
#[non_exhaustive]
pub enum Refusal {
    /// The geometry is not sound.
    BadPart = 1,
    /// The cells have the wrong length.
    BadCells = 2,
    /// The cache register has the wrong length.
    BadCache = 3,
    /// The page counts have the wrong length.
    BadCounts = 4,
    /// The state is not sound.
    BadState = 5,
    /// The next kind is not in the log's table.
    BadKind = 6,
    /// The log ends inside a body.
    ShortBody = 7,
    /// A WP# level above 1.
    BadLevel = 8,
    /// No output room left for a shift or for a card's answer, or too little room for a record.
    NoRoom = 9,
    /// No copy of the parameter page has both signature and check.
    NoCopy = 10,
    /// The memory is too short for a parameter page, or for its three copies.
    ShortMemory = 11,
    /// A core above 3.
    BadCore = 14,
    /// Eight transfers wait in that core's queue.
    QueueFull = 15,
    /// No transfer waits.
    AllEmpty = 16,
    /// The card's cells are not 1,024 bytes.
    BadCardCells = 17,
    /// The card's protect bits are not 128 bytes.
    BadCardBits = 18,
    /// The keeper is not sound.
    BadKeeper = 20,
}

impl Refusal {
    /// All of them, by number.
    pub const ALL: [Refusal; 17] = [
        Refusal::BadPart,
        Refusal::BadCells,
        Refusal::BadCache,
        Refusal::BadCounts,
        Refusal::BadState,
        Refusal::BadKind,
        Refusal::ShortBody,
        Refusal::BadLevel,
        Refusal::NoRoom,
        Refusal::NoCopy,
        Refusal::ShortMemory,
        Refusal::BadCore,
        Refusal::QueueFull,
        Refusal::AllEmpty,
        Refusal::BadCardCells,
        Refusal::BadCardBits,
        Refusal::BadKeeper,
    ];

    /// The number: 1 to 11, 14 to 18 or 20.
    pub fn number(self) -> u8 {
        self as u8
    }

    /// The refusal of a number; none for 0 and for a number that no refusal has.
    pub fn from_number(number: u8) -> Option<Refusal> {
        Refusal::ALL
            .into_iter()
            .find(|refusal| refusal.number() == number)
    }

    /// What an answer's number says.
    ///
    /// # Panics
    ///
    /// If the number is neither 0 nor that of a refusal, which the library does not answer.
    pub(crate) fn of_answer(number: u8) -> Option<Refusal> {
        let refusal = Refusal::from_number(number);
        assert!(
            number == 0 || refusal.is_some(),
            "the library answered refusal {number}"
        );
        refusal
    }
}

impl fmt::Display for Refusal {
    /// The library's own words.
    fn fmt(&self, f: &mut fmt::Formatter<'_>) -> fmt::Result {
        let mut room = [0; ffi::TEXT];
        let length = ffi::text(self.number(), &mut room);
        f.pad(&String::from_utf8_lossy(&room[..length]))
    }
}

impl Error for Refusal {}
