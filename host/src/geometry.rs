//! Parts: their geometry and identity.

use crate::{ffi, Job};

/// The stepping of a part.
///
/// The second has CMP, bit 1 of A0h: with it and a BP number from 1 to 6, the protected blocks are
/// those that would be open without it.
#[repr(u8)]
#[derive(Clone, Copy, Debug, Default, PartialEq, Eq, Hash)]
pub enum Stepping {
    /// The first: bit 1 of A0h is always 0.
    #[default]
    First = 0,
    /// The second: bit 1 of A0h is CMP.
    Second = 1,
}

/// A part: the bytes of a page, the pages of a block, the blocks, the two identity bytes, and the
/// stepping.
///
/// Sound: `data` at least 1, `data + spare` at most 4,096, `pages` from 1 to 256, `blocks` at least
/// 1, `pages * blocks` at most 65,536, of either stepping. Any other is refused with
/// [`Refusal::BadPart`](crate::Refusal::BadPart).
#[repr(C)]
#[derive(Clone, Copy, Debug, PartialEq, Eq, Hash)]
pub struct Geometry {
    /// D, data bytes per page.
    pub data: u32,
    /// S, spare bytes per page.
    pub spare: u32,
    /// K, pages per block.
    pub pages: u32,
    /// N, blocks.
    pub blocks: u32,
    /// The two bytes that Read ID answers.
    pub identity: [u8; 2],
    /// The stepping.
    pub stepping: Stepping,
}

impl Geometry {
    /// The FM25S005BI3: 2,048 + 128 bytes a page, 64 pages a block, 512 blocks; of the first
    /// stepping.
    ///
    /// # Panics
    ///
    /// Where the archive that was linked is of another version than this package.
    pub fn fm25s005bi3() -> Self {
        ffi::fm25s005bi3()
    }

    /// The small bench part: 16 + 4 bytes a page, 4 pages a block, 8 blocks; of the first stepping.
    ///
    /// # Panics
    ///
    /// Where the archive that was linked is of another version than this package.
    pub fn bench() -> Self {
        ffi::bench()
    }

    /// The same part of another stepping.
    pub fn with_stepping(self, stepping: Stepping) -> Self {
        Geometry { stepping, ..self }
    }

    /// Whether the geometry is sound.
    pub fn is_sound(&self) -> bool {
        ffi::geometry_sound(*self)
    }

    /// The bytes of the cell array; 0 for a geometry that is not sound.
    pub fn cells_len(&self) -> usize {
        ffi::cells_length(*self)
    }

    /// The bytes of the cache register, which are those of a page; 0 for a geometry that is not
    /// sound.
    pub fn cache_len(&self) -> usize {
        ffi::cache_length(*self)
    }

    /// The bytes of the page counts, one a page; 0 for a geometry that is not sound.
    pub fn counts_len(&self) -> usize {
        ffi::counts_length(*self)
    }

    /// How many units of array work a job has: the bytes of a page for a read and for a program,
    /// those of a block for an erase, 8 for a reset; 0 for a geometry that is not sound.
    pub fn operation_len(&self, job: Job) -> usize {
        ffi::operation_length(*self, job.number())
    }
}
