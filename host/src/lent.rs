//! The library's calls over memory that stays the caller's.
//!
//! Nothing is kept between two calls: the state comes back with each [`Answer`] and is handed in
//! again with the next. Each call answers for every content of its arguments; bad input is refused.
//! [`Device`](crate::Device) is the convenient form, which owns all of it.

use crate::{ffi, Geometry, Refusal, State};

/// The memory of a device, lent for the length of a call.
#[derive(Debug, PartialEq, Eq)]
pub struct Memory<'a> {
    /// The cell array, [`Geometry::cells_len`] bytes.
    pub cells: &'a mut [u8],
    /// The cache register, [`Geometry::cache_len`] bytes.
    pub cache: &'a mut [u8],
    /// The page counts, [`Geometry::counts_len`] bytes.
    pub counts: &'a mut [u8],
}

/// What a call gives back.
#[derive(Clone, Copy, Debug, PartialEq, Eq)]
#[must_use]
pub struct Answer {
    /// The state after the records done.
    pub state: State,
    /// Records done.
    pub records: usize,
    /// Log bytes used: those of the records done.
    pub used: usize,
    /// Output bytes written: one per shift.
    pub written: usize,
    /// Why it stopped; none where the log was read to its end.
    pub refusal: Option<Refusal>,
}

impl Answer {
    /// The refusal as an error.
    pub fn result(&self) -> Result<(), Refusal> {
        self.refusal.map_or(Ok(()), Err)
    }
}

impl From<ffi::RawAnswer> for Answer {
    #[inline]
    fn from(raw: ffi::RawAnswer) -> Self {
        Answer {
            state: raw.state,
            records: raw.records,
            used: raw.used,
            written: raw.written,
            refusal: Refusal::of_answer(raw.refusal),
        }
    }
}

/// A whole transfer: chip select falls, `di` goes in while as many bytes come out, chip select
/// rises.
///
/// It is the run of those records, and refused as that run is. Where the output has room for r bytes
/// only, it is [`Refusal::NoRoom`] behind r of them, with the chip left selected: [`shifts`] with
/// the bytes that are left and [`deselect`] complete it. `used` is 0, for no log was lent.
///
/// On a chip that is selected already the bytes continue the old transfer.
#[inline]
pub fn transfer(
    geometry: &Geometry,
    state: State,
    di: &[u8],
    memory: &mut Memory<'_>,
    out: &mut [u8],
) -> Answer {
    ffi::transfer(*geometry, state, di, memory, out).into()
}

/// A piece of a transfer: the bytes alone, with chip select as it is.
#[inline]
pub fn shifts(
    geometry: &Geometry,
    state: State,
    di: &[u8],
    memory: &mut Memory<'_>,
    out: &mut [u8],
) -> Answer {
    ffi::shifts(*geometry, state, di, memory, out).into()
}

/// The byte that the next shift will put on DO, whatever is shifted in. It needs the cache register
/// alone, and is refused with [`Refusal::BadPart`], [`Refusal::BadCache`] or [`Refusal::BadState`].
#[inline]
pub fn peek(geometry: &Geometry, state: State, cache: &[u8]) -> Result<u8, Refusal> {
    let peeked = ffi::peek(*geometry, state, cache);
    Refusal::of_answer(peeked.refusal).map_or(Ok(peeked.byte), Err)
}

/// Make the memory that of a device which was never used: cells and cache register FFh, page counts
/// 0. It is refused as a run from power-up would be, and then not a byte is changed.
pub fn blank(geometry: &Geometry, memory: &mut Memory<'_>) -> Result<(), Refusal> {
    Refusal::of_answer(ffi::blank(*geometry, memory)).map_or(Ok(()), Err)
}

/// Run a log.
///
/// After a refusal of 1 to 5 nothing has been touched; after 6 to 9 the earlier records stand, and
/// output past `written` is unchanged.
#[inline]
pub fn run(
    geometry: &Geometry,
    state: State,
    log: &[u8],
    memory: &mut Memory<'_>,
    out: &mut [u8],
) -> Answer {
    ffi::run(*geometry, state, log, memory, out).into()
}

/// Run a log as [`run`] does, and say whether it was orderly.
///
/// It was if it began at power-up or with the array idle, if each instruction other than Get
/// Feature, Read ID and Reset had its first byte while the array was idle, if no reset and no power
/// loss took effect while it was busy, and if it ended idle. The array is busy during the 8 units
/// of a reset too. The end of an orderly log is proved to be the one reached if every operation is
/// done whole as it begins, so that two orderly logs with the same bus records have one end.
pub fn judge(
    geometry: &Geometry,
    state: State,
    log: &[u8],
    memory: &mut Memory<'_>,
    out: &mut [u8],
) -> (Answer, bool) {
    let judged = ffi::judge(*geometry, state, log, memory, out);
    (judged.answer.into(), judged.orderly)
}

/// Chip select falls.
#[inline]
pub fn select(geometry: &Geometry, state: State, memory: &mut Memory<'_>) -> Answer {
    ffi::select(*geometry, state, memory).into()
}

/// One byte in on DI; the byte on DO is written to `out[0]`.
#[inline]
pub fn shift(
    geometry: &Geometry,
    state: State,
    byte: u8,
    memory: &mut Memory<'_>,
    out: &mut [u8],
) -> Answer {
    ffi::shift(*geometry, state, byte, memory, out).into()
}

/// Chip select rises.
#[inline]
pub fn deselect(geometry: &Geometry, state: State, memory: &mut Memory<'_>) -> Answer {
    ffi::deselect(*geometry, state, memory).into()
}

/// Array work of any number of units.
///
/// It ends as any work records do whose units add up to it; the answer counts one record.
#[inline]
pub fn work(geometry: &Geometry, state: State, units: u64, memory: &mut Memory<'_>) -> Answer {
    ffi::work(*geometry, state, units, memory).into()
}

/// WP# at a level, 0 low or 1 high; refused with [`Refusal::BadLevel`] above 1.
#[inline]
pub fn level(geometry: &Geometry, state: State, level: u8, memory: &mut Memory<'_>) -> Answer {
    ffi::level(*geometry, state, level, memory).into()
}

/// Power lost and back.
#[inline]
pub fn power(geometry: &Geometry, state: State, memory: &mut Memory<'_>) -> Answer {
    ffi::power(*geometry, state, memory).into()
}
