//! The parameter page, from which boot code sizes a part.
//!
//! A part says what it is in a page of 256 bytes that stands there three times: copies 0, 1 and 2,
//! at bytes 0, 256 and 512. A copy holds if its first four bytes are the signature `ONFI` and its
//! last two, low byte first, the check of the others.
//!
//! These calls stand beside the [`Device`](crate::Device). The real part answers the page over the
//! bus where its OTP pages are; the model has none of those pages.
//!
//! Boot code reads the first copy that holds, and makes sure of what it found before it is used:
//!
//! ```
//! use sleetanvil::{page, Device, Geometry};
//!
//! let mut memory = [0; page::COPIES * page::LEN];
//! for copy in memory.chunks_exact_mut(page::LEN) {
//!     page::make(&Geometry::bench(), copy)?;
//! }
//! memory[84] = 0x05; // a byte of copy 0 is damaged
//!
//! let sizes = page::read(&memory)?;
//! assert_eq!(sizes.copy, 1);
//! let part = sizes.geometry([0x5A, 0x01]);
//! assert!(part.is_sound());
//!
//! let mut device = Device::power_up(part)?;
//! device.work(device.units_left() as u64);
//! assert_eq!(device.transfer(&[0x9F, 0, 0, 0])[2..], part.identity);
//! # Ok::<(), sleetanvil::Refusal>(())
//! ```

use crate::{ffi, Geometry, Refusal, Stepping};

/// The bytes of a copy.
pub const LEN: usize = 256;

/// The copies, each behind the other.
pub const COPIES: usize = 3;

/// The sizes of a part as they stand in a copy, sound or not.
#[derive(Clone, Copy, Debug, PartialEq, Eq, Hash)]
pub struct Sizes {
    /// The copy that they were read from, 0 to 2.
    pub copy: u8,
    /// D, data bytes per page.
    pub data: u32,
    /// S, spare bytes per page.
    pub spare: u16,
    /// K, pages per block.
    pub pages: u32,
    /// N, blocks.
    pub blocks: u32,
}

impl Sizes {
    /// The part of these sizes, with the two bytes that Read ID answers, and of the first stepping:
    /// a page names none, and [`Geometry::with_stepping`] makes it the second. Ask
    /// [`Geometry::is_sound`] before it is used: a page is only as good as who wrote it.
    pub fn geometry(&self, identity: [u8; 2]) -> Geometry {
        Geometry {
            data: self.data,
            spare: self.spare.into(),
            pages: self.pages,
            blocks: self.blocks,
            identity,
            stepping: Stepping::First,
        }
    }
}

/// Make the page of a part: the datasheet's own, with the sizes of the part in it, and its check.
///
/// The first [`LEN`] bytes of the memory are written and no others; lend the rest again for further
/// copies. Manufacturer, model and the manufacturer's identity byte are those of the FM25S005BI3 for
/// every part; a page is the same for both steppings.
///
/// It is [`Refusal::BadPart`] for a part that is not sound, and else [`Refusal::ShortMemory`] for
/// fewer than [`LEN`] bytes. Then not a byte is changed.
pub fn make(part: &Geometry, memory: &mut [u8]) -> Result<(), Refusal> {
    Refusal::of_answer(ffi::page_make(*part, memory)).map_or(Ok(()), Err)
}

/// Read the sizes of a part from the first copy whose signature and check hold. Nothing else of a
/// copy is judged, and bytes behind the three copies are not looked at.
///
/// It is [`Refusal::ShortMemory`] for fewer than [`COPIES`] times [`LEN`] bytes, and else
/// [`Refusal::NoCopy`] where no copy holds.
pub fn read(memory: &[u8]) -> Result<Sizes, Refusal> {
    let found = ffi::page_read(memory);
    let sizes = Sizes {
        copy: found.copy,
        data: found.data,
        spare: found.spare,
        pages: found.pages,
        blocks: found.blocks,
    };
    Refusal::of_answer(found.refusal).map_or(Ok(sizes), Err)
}

/// The check of any bytes, ONFI 1.0's: 16 bits, polynomial 8005h, start 4F4Eh, the highest bit of
/// each byte first, nothing turned round or inverted at the end.
///
/// ```
/// assert_eq!(sleetanvil::page::check(b"123456789"), 0x2771);
/// ```
pub fn check(bytes: &[u8]) -> u16 {
    ffi::page_check(bytes)
}
