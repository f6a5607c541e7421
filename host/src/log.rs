//! Bus logs: their records, a reader that stays on the log, and a writer.

use crate::{ffi, Refusal};

/// One record of a log.
#[derive(Clone, Copy, Debug, PartialEq, Eq, Hash)]
pub enum Record {
    /// 01h: chip select falls.
    Select,
    /// 02h: one byte shifted in on DI, one out on DO.
    Shift(u8),
    /// 03h: chip select rises.
    Deselect,
    /// 04h: array work of some units.
    Work(u16),
    /// 05h: WP# at a level, `true` for high.
    Level(bool),
    /// 06h: power lost and back.
    Power,
}

impl Record {
    /// The most bytes that a record takes.
    pub const MAX_LEN: usize = 3;

    /// The bytes of the record, and how many of them count.
    pub fn encode(self) -> ([u8; Record::MAX_LEN], usize) {
        let mut bytes = [0; Record::MAX_LEN];
        let length = self
            .write_at(&mut bytes, 0)
            .expect("every record has room in three bytes");
        (bytes, length)
    }

    /// Write the record at a place of a buffer, and give the place after it. Where there is too
    /// little room nothing is written.
    pub fn write_at(self, log: &mut [u8], place: usize) -> Result<usize, Refusal> {
        let wrote = ffi::write(self.into(), log, place);
        match Refusal::of_answer(wrote.refusal) {
            None => Ok(wrote.place),
            Some(refusal) => Err(refusal),
        }
    }

    /// The record at a place of a log and the place after it; none at the end of the log.
    pub fn read_at(log: &[u8], place: usize) -> Result<Option<(Record, usize)>, Refusal> {
        let found = ffi::next(log, place);
        match Refusal::of_answer(found.refusal) {
            Some(refusal) => Err(refusal),
            None => Ok(Record::from_raw(found.record).map(|record| (record, found.place))),
        }
    }

    fn from_raw(raw: ffi::RawRecord) -> Option<Record> {
        match raw.kind {
            1 => Some(Record::Select),
            2 => Some(Record::Shift(raw.byte)),
            3 => Some(Record::Deselect),
            4 => Some(Record::Work(raw.units)),
            5 => Some(Record::Level(raw.byte != 0)),
            6 => Some(Record::Power),
            _ => None,
        }
    }
}

impl From<Record> for ffi::RawRecord {
    fn from(record: Record) -> Self {
        let (kind, byte, units) = match record {
            Record::Select => (1, 0, 0),
            Record::Shift(byte) => (2, byte, 0),
            Record::Deselect => (3, 0, 0),
            Record::Work(units) => (4, 0, units),
            Record::Level(high) => (5, high.into(), 0),
            Record::Power => (6, 0, 0),
        };
        ffi::RawRecord { kind, byte, units }
    }
}

/// A log in memory of its own, to be built record by record.
#[derive(Clone, Debug, Default, PartialEq, Eq)]
pub struct Log {
    bytes: Vec<u8>,
}

impl Log {
    /// An empty log.
    pub fn new() -> Self {
        Log::default()
    }

    /// Add a record.
    pub fn push(&mut self, record: Record) {
        let (bytes, length) = record.encode();
        self.bytes.extend_from_slice(&bytes[..length]);
    }

    /// Add a whole transfer: select, the bytes, deselect.
    pub fn transfer(&mut self, bytes: &[u8]) {
        self.push(Record::Select);
        self.extend(bytes.iter().copied().map(Record::Shift));
        self.push(Record::Deselect);
    }

    /// The bytes of the log.
    pub fn as_bytes(&self) -> &[u8] {
        &self.bytes
    }

    /// The records of the log.
    pub fn records(&self) -> Records<'_> {
        Records::new(&self.bytes)
    }
}

impl Extend<Record> for Log {
    fn extend<I: IntoIterator<Item = Record>>(&mut self, records: I) {
        for record in records {
            self.push(record);
        }
    }
}

impl FromIterator<Record> for Log {
    fn from_iter<I: IntoIterator<Item = Record>>(records: I) -> Self {
        let mut log = Log::new();
        log.extend(records);
        log
    }
}

impl AsRef<[u8]> for Log {
    fn as_ref(&self) -> &[u8] {
        &self.bytes
    }
}

/// A reader that stays on a log and remembers its place.
///
/// It ends after the last record, or after giving the refusal of the record that cannot be read.
#[derive(Clone, Debug)]
pub struct Records<'a> {
    log: &'a [u8],
    place: usize,
    refused: bool,
}

impl<'a> Records<'a> {
    /// A reader at the start of a log.
    pub fn new(log: &'a [u8]) -> Self {
        Records {
            log,
            place: 0,
            refused: false,
        }
    }

    /// Where the next record begins, or the one that was refused.
    pub fn place(&self) -> usize {
        self.place
    }
}

impl Iterator for Records<'_> {
    type Item = Result<Record, Refusal>;

    fn next(&mut self) -> Option<Self::Item> {
        if self.refused {
            return None;
        }
        match Record::read_at(self.log, self.place) {
            Ok(Some((record, place))) => {
                self.place = place;
                Some(Ok(record))
            }
            Ok(None) => None,
            Err(refusal) => {
                self.refused = true;
                Some(Err(refusal))
            }
        }
    }
}

impl std::iter::FusedIterator for Records<'_> {}
