//! The C interface of the proved library, and one thin safe function for each of its functions.
//!
//! This is the only file with unsafe code. What the header asks of a caller holds by Rust's own
//! rules: the pointer of a slice is never null, not even of an empty one, a slice has the length
//! that goes with it, and the mutable slices of one call cannot overlap with any other.

use std::mem::{align_of, offset_of, size_of};

use crate::lent::Memory;
use crate::{Geometry, State, Stepping};

/// `sleet_answer`.
#[repr(C)]
#[derive(Clone, Copy, Debug, PartialEq, Eq)]
pub struct RawAnswer {
    /// The state after the records done.
    pub state: State,
    /// Records done.
    pub records: usize,
    /// Log bytes used.
    pub used: usize,
    /// Output bytes written.
    pub written: usize,
    /// The number of refusal, 0 to 9.
    pub refusal: u8,
}

/// `sleet_judged`.
#[repr(C)]
#[derive(Clone, Copy, Debug, PartialEq, Eq)]
pub struct RawJudged {
    /// What the run answers.
    pub answer: RawAnswer,
    /// Whether the log was orderly.
    pub orderly: bool,
}

/// `sleet_peeked`.
#[repr(C)]
#[derive(Clone, Copy, Debug, PartialEq, Eq)]
pub struct RawPeeked {
    /// 0, 1, 3 or 5.
    pub refusal: u8,
    /// The byte; FFh where it is refused.
    pub byte: u8,
}

/// `sleet_record`.
#[repr(C)]
#[derive(Clone, Copy, Debug, PartialEq, Eq)]
pub struct RawRecord {
    /// The kind, 1 to 6.
    pub kind: u8,
    /// The byte shifted in, or the level.
    pub byte: u8,
    /// The units of work.
    pub units: u16,
}

/// `sleet_found`.
#[repr(C)]
#[derive(Clone, Copy, Debug, PartialEq, Eq)]
pub struct RawFound {
    /// The record; kind 0 where none stands.
    pub record: RawRecord,
    /// 0, 6, 7 or 8.
    pub refusal: u8,
    /// Where the next record begins.
    pub place: usize,
}

/// `sleet_wrote`.
#[repr(C)]
#[derive(Clone, Copy, Debug, PartialEq, Eq)]
pub struct RawWrote {
    /// 0, 6, 8 or 9.
    pub refusal: u8,
    /// The place after the record.
    pub place: usize,
}

/// `sleet_queue`.
#[repr(C)]
#[derive(Clone, Copy, Debug, PartialEq, Eq)]
pub struct RawQueue {
    /// The tags that wait, from place `head` on, round from place 7 to 0. The other places are never
    /// looked at.
    pub tags: [u8; 8],
    /// The place of the front, 0 to 7, in an empty queue too.
    pub head: u8,
    /// How many wait, 0 to 8.
    pub length: u8,
}

/// `sleet_keeper`.
#[repr(C)]
#[derive(Clone, Copy, Debug, PartialEq, Eq)]
pub struct RawKeeper {
    /// One queue for each core.
    pub queues: [RawQueue; 4],
    /// The core that was granted last, 0 to 3.
    pub last: u8,
}

/// `sleet_added`.
#[repr(C)]
#[derive(Clone, Copy, Debug, PartialEq, Eq)]
pub struct RawAdded {
    /// The keeper after the adding; as it was where it is refused.
    pub keeper: RawKeeper,
    /// 0, 20, 14 or 15.
    pub refusal: u8,
}

/// `sleet_granted`.
#[repr(C)]
#[derive(Clone, Copy, Debug, PartialEq, Eq)]
pub struct RawGranted {
    /// The keeper after the grant; as it was where it is refused.
    pub keeper: RawKeeper,
    /// 0, 20 or 16.
    pub refusal: u8,
    /// Whose transfer it is; 0 where it is refused.
    pub core: u8,
    /// The transfer; 0 where it is refused.
    pub tag: u8,
}

/// `sleet_sizes`.
#[repr(C)]
#[derive(Clone, Copy, Debug, PartialEq, Eq)]
pub struct RawSizes {
    /// D, data bytes per page.
    pub data: u32,
    /// K, pages per block.
    pub pages: u32,
    /// N, blocks.
    pub blocks: u32,
    /// S, spare bytes per page.
    pub spare: u16,
    /// The copy that they were read from, 0 to 2.
    pub copy: u8,
    /// 0, 11 or 10; all else is then 0.
    pub refusal: u8,
}

/// `sleet_card`.
#[repr(C)]
#[derive(Clone, Copy, Debug, PartialEq, Eq)]
pub struct RawCard {
    /// The stage: 0 fresh, 1 a counter bit cleared, 2 the first code byte right too, 3 open.
    pub stage: u8,
}

/// `sleet_card_answer`.
#[repr(C)]
#[derive(Clone, Copy, Debug, PartialEq, Eq)]
pub struct RawCardAnswer {
    /// Records done.
    pub records: usize,
    /// Log bytes used.
    pub used: usize,
    /// Output bytes written.
    pub written: usize,
    /// The card after the records done.
    pub card: RawCard,
    /// The number of refusal: 0, 17, 18, 5, 6, 7 or 9.
    pub refusal: u8,
}

/// `SLEET_VERSION`: that of the header which this file was written for.
pub const VERSION: u32 = 3;

/// `SLEET_TEXT`: room for every text and its NUL.
pub const TEXT: usize = 48;

const _: () = {
    assert!(size_of::<Geometry>() == 20 && align_of::<Geometry>() == 4);
    assert!(offset_of!(Geometry, identity) == 16 && offset_of!(Geometry, stepping) == 18);
    assert!(size_of::<Stepping>() == 1);
    assert!(Stepping::First as u8 == 0 && Stepping::Second as u8 == 1);
    assert!(size_of::<RawRecord>() == 4 && align_of::<RawRecord>() == 2);
    assert!(size_of::<RawPeeked>() == 2 && align_of::<RawPeeked>() == 1);
    assert!(size_of::<RawQueue>() == 10 && align_of::<RawQueue>() == 1);
    assert!(size_of::<RawKeeper>() == 41 && align_of::<RawKeeper>() == 1);
    assert!(size_of::<RawAdded>() == 42 && align_of::<RawAdded>() == 1);
    assert!(size_of::<RawGranted>() == 44 && align_of::<RawGranted>() == 1);
    assert!(size_of::<RawSizes>() == 16 && align_of::<RawSizes>() == 4);
    assert!(size_of::<RawCard>() == 1 && align_of::<RawCard>() == 1);
};

#[cfg(target_pointer_width = "64")]
const _: () = {
    assert!(size_of::<State>() == 32 && align_of::<State>() == 8);
    assert!(size_of::<RawAnswer>() == 64 && align_of::<RawAnswer>() == 8);
    assert!(size_of::<RawJudged>() == 72 && align_of::<RawJudged>() == 8);
    assert!(size_of::<RawFound>() == 16 && align_of::<RawFound>() == 8);
    assert!(size_of::<RawWrote>() == 16 && align_of::<RawWrote>() == 8);
    assert!(size_of::<RawCardAnswer>() == 32 && align_of::<RawCardAnswer>() == 8);
};

extern "C" {
    fn sleet_version() -> u32;
    fn sleet_fm25s005bi3() -> Geometry;
    fn sleet_bench() -> Geometry;
    fn sleet_geometry_sound(part: Geometry) -> bool;
    fn sleet_cells_length(part: Geometry) -> usize;
    fn sleet_cache_length(part: Geometry) -> usize;
    fn sleet_counts_length(part: Geometry) -> usize;
    fn sleet_power_up() -> State;
    fn sleet_state_sound(part: Geometry, state: State) -> bool;
    fn sleet_operation_length(part: Geometry, job: u8) -> usize;
    fn sleet_units_left(part: Geometry, state: State) -> usize;
    fn sleet_peek(part: Geometry, state: State, cache: *const u8, cache_length: usize)
        -> RawPeeked;
    fn sleet_next(log: *const u8, log_length: usize, place: usize) -> RawFound;
    fn sleet_write(record: RawRecord, log: *mut u8, log_length: usize, place: usize) -> RawWrote;
    fn sleet_keeper_new() -> RawKeeper;
    fn sleet_keeper_add(keeper: RawKeeper, core: u8, tag: u8) -> RawAdded;
    fn sleet_keeper_grant(keeper: RawKeeper) -> RawGranted;
    fn sleet_page_make(part: Geometry, memory: *mut u8, length: usize) -> u8;
    fn sleet_page_read(memory: *const u8, length: usize) -> RawSizes;
    fn sleet_page_check(bytes: *const u8, length: usize) -> u16;
    fn sleet_card_power_up() -> RawCard;
    fn sleet_card_run(
        card: RawCard,
        log: *const u8,
        log_length: usize,
        cells: *mut u8,
        cells_length: usize,
        bits: *mut u8,
        bits_length: usize,
        out: *mut u8,
        out_length: usize,
    ) -> RawCardAnswer;
    fn sleet_card_command(
        card: RawCard,
        first: u8,
        second: u8,
        third: u8,
        cells: *mut u8,
        cells_length: usize,
        bits: *mut u8,
        bits_length: usize,
        out: *mut u8,
        out_length: usize,
    ) -> RawCardAnswer;
    fn sleet_text(refusal: u8, out: *mut u8, out_length: usize) -> usize;
}

/// `sleet_version`.
pub fn version() -> u32 {
    // SAFETY: takes nothing, gives a number.
    unsafe { sleet_version() }
}

/// The archive is of this package's version.
///
/// # Panics
///
/// Where it is not.
pub fn assert_version() {
    assert_eq!(
        version(),
        VERSION,
        "the archive is of another version than this package: make it again"
    );
}

/// `sleet_fm25s005bi3`.
///
/// # Panics
///
/// Where the archive that was linked is of another version than this package.
pub fn fm25s005bi3() -> Geometry {
    assert_version();
    // SAFETY: takes nothing, gives a struct of plain numbers; in this version the stepping is the
    // first.
    unsafe { sleet_fm25s005bi3() }
}

/// `sleet_bench`.
///
/// # Panics
///
/// Where the archive that was linked is of another version than this package.
pub fn bench() -> Geometry {
    assert_version();
    // SAFETY: takes nothing, gives a struct of plain numbers; in this version the stepping is the
    // first.
    unsafe { sleet_bench() }
}

/// `sleet_geometry_sound`.
pub fn geometry_sound(part: Geometry) -> bool {
    // SAFETY: answers for every content of its argument.
    unsafe { sleet_geometry_sound(part) }
}

/// `sleet_cells_length`.
pub fn cells_length(part: Geometry) -> usize {
    // SAFETY: answers for every content of its argument.
    unsafe { sleet_cells_length(part) }
}

/// `sleet_cache_length`.
pub fn cache_length(part: Geometry) -> usize {
    // SAFETY: answers for every content of its argument.
    unsafe { sleet_cache_length(part) }
}

/// `sleet_counts_length`.
pub fn counts_length(part: Geometry) -> usize {
    // SAFETY: answers for every content of its argument.
    unsafe { sleet_counts_length(part) }
}

/// `sleet_power_up`.
pub fn power_up() -> State {
    // SAFETY: takes nothing, gives a struct of plain numbers.
    unsafe { sleet_power_up() }
}

/// `sleet_state_sound`.
pub fn state_sound(part: Geometry, state: State) -> bool {
    // SAFETY: answers for every content of its arguments.
    unsafe { sleet_state_sound(part, state) }
}

/// `sleet_operation_length`.
pub fn operation_length(part: Geometry, job: u8) -> usize {
    // SAFETY: answers for every content of its arguments.
    unsafe { sleet_operation_length(part, job) }
}

/// `sleet_units_left`.
#[inline]
pub fn units_left(part: Geometry, state: State) -> usize {
    // SAFETY: answers for every content of its arguments.
    unsafe { sleet_units_left(part, state) }
}

/// `sleet_peek`.
#[inline]
pub fn peek(part: Geometry, state: State, cache: &[u8]) -> RawPeeked {
    // SAFETY: the pointer comes with the length of its slice.
    unsafe { sleet_peek(part, state, cache.as_ptr(), cache.len()) }
}

/// For each call on lent memory its declaration and a safe function: first the plain arguments, then
/// the bytes that go in, the memory, and the output, where the call has them.
macro_rules! on_memory {
    ($(
        $name:ident, $call:ident, ($($argument:ident: $kind:ty),*), ($($bytes:ident)?), ($($out:ident)?)
        -> $answer:ty;
    )*) => {
        extern "C" {
            $(fn $call(
                $($argument: $kind,)*
                $($bytes: *const u8, length: usize,)?
                cells: *mut u8,
                cells_length: usize,
                cache: *mut u8,
                cache_length: usize,
                counts: *mut u8,
                counts_length: usize,
                $($out: *mut u8, out_length: usize,)?
            ) -> $answer;)*
        }

        $(
            #[doc = concat!("`", stringify!($call), "`.")]
            #[inline]
            pub fn $name(
                $($argument: $kind,)*
                $($bytes: &[u8],)?
                memory: &mut Memory<'_>,
                $($out: &mut [u8],)?
            ) -> $answer {
                let Memory {
                    cells,
                    cache,
                    counts,
                } = memory;
                // SAFETY: each pointer comes with the length of its own slice, and the slices do
                // not overlap.
                unsafe {
                    $call(
                        $($argument,)*
                        $($bytes.as_ptr(), $bytes.len(),)?
                        cells.as_mut_ptr(),
                        cells.len(),
                        cache.as_mut_ptr(),
                        cache.len(),
                        counts.as_mut_ptr(),
                        counts.len(),
                        $($out.as_mut_ptr(), $out.len(),)?
                    )
                }
            }
        )*
    };
}

on_memory! {
    blank, sleet_blank, (part: Geometry), (), () -> u8;

    transfer, sleet_transfer, (part: Geometry, state: State), (bytes), (out) -> RawAnswer;
    shifts, sleet_shifts, (part: Geometry, state: State), (bytes), (out) -> RawAnswer;
    run, sleet_run, (part: Geometry, state: State), (bytes), (out) -> RawAnswer;
    judge, sleet_judge, (part: Geometry, state: State), (bytes), (out) -> RawJudged;

    select, sleet_select, (part: Geometry, state: State), (), () -> RawAnswer;
    shift, sleet_shift, (part: Geometry, state: State, byte: u8), (), (out) -> RawAnswer;
    deselect, sleet_deselect, (part: Geometry, state: State), (), () -> RawAnswer;
    work, sleet_work, (part: Geometry, state: State, units: u64), (), () -> RawAnswer;
    level, sleet_level, (part: Geometry, state: State, level: u8), (), () -> RawAnswer;
    power, sleet_power, (part: Geometry, state: State), (), () -> RawAnswer;
}

/// `sleet_next`.
pub fn next(log: &[u8], place: usize) -> RawFound {
    // SAFETY: the pointer comes with the length of its slice; every place is answered for.
    unsafe { sleet_next(log.as_ptr(), log.len(), place) }
}

/// `sleet_write`.
pub fn write(record: RawRecord, log: &mut [u8], place: usize) -> RawWrote {
    // SAFETY: the pointer comes with the length of its slice; every record and place is answered
    // for.
    unsafe { sleet_write(record, log.as_mut_ptr(), log.len(), place) }
}

/// `sleet_keeper_new`.
pub fn keeper_new() -> RawKeeper {
    // SAFETY: takes nothing, gives a struct of plain numbers.
    unsafe { sleet_keeper_new() }
}

/// `sleet_keeper_add`.
#[inline]
pub fn keeper_add(keeper: RawKeeper, core: u8, tag: u8) -> RawAdded {
    // SAFETY: answers for every content of its arguments.
    unsafe { sleet_keeper_add(keeper, core, tag) }
}

/// `sleet_keeper_grant`.
#[inline]
pub fn keeper_grant(keeper: RawKeeper) -> RawGranted {
    // SAFETY: answers for every content of its argument.
    unsafe { sleet_keeper_grant(keeper) }
}

/// `sleet_page_make`.
pub fn page_make(part: Geometry, memory: &mut [u8]) -> u8 {
    // SAFETY: the pointer comes with the length of its slice; every part is answered for.
    unsafe { sleet_page_make(part, memory.as_mut_ptr(), memory.len()) }
}

/// `sleet_page_read`.
pub fn page_read(memory: &[u8]) -> RawSizes {
    // SAFETY: the pointer comes with the length of its slice.
    unsafe { sleet_page_read(memory.as_ptr(), memory.len()) }
}

/// `sleet_page_check`.
#[inline]
pub fn page_check(bytes: &[u8]) -> u16 {
    // SAFETY: the pointer comes with the length of its slice.
    unsafe { sleet_page_check(bytes.as_ptr(), bytes.len()) }
}

/// `sleet_card_power_up`.
pub fn card_power_up() -> RawCard {
    // SAFETY: takes nothing, gives a struct of plain numbers.
    unsafe { sleet_card_power_up() }
}

/// `sleet_card_run`.
pub fn card_run(
    card: RawCard,
    log: &[u8],
    cells: &mut [u8],
    bits: &mut [u8],
    out: &mut [u8],
) -> RawCardAnswer {
    // SAFETY: each pointer comes with the length of its own slice, and the slices do not overlap;
    // every card is answered for.
    unsafe {
        sleet_card_run(
            card,
            log.as_ptr(),
            log.len(),
            cells.as_mut_ptr(),
            cells.len(),
            bits.as_mut_ptr(),
            bits.len(),
            out.as_mut_ptr(),
            out.len(),
        )
    }
}

/// `sleet_card_command`.
#[inline]
pub fn card_command(
    card: RawCard,
    [first, second, third]: [u8; 3],
    cells: &mut [u8],
    bits: &mut [u8],
    out: &mut [u8],
) -> RawCardAnswer {
    // SAFETY: each pointer comes with the length of its own slice, and the slices do not overlap;
    // every card and command is answered for.
    unsafe {
        sleet_card_command(
            card,
            first,
            second,
            third,
            cells.as_mut_ptr(),
            cells.len(),
            bits.as_mut_ptr(),
            bits.len(),
            out.as_mut_ptr(),
            out.len(),
        )
    }
}

/// `sleet_text`.
pub fn text(refusal: u8, out: &mut [u8]) -> usize {
    // SAFETY: the pointer comes with the length of its slice; every number is answered for.
    unsafe { sleet_text(refusal, out.as_mut_ptr(), out.len()) }
}
