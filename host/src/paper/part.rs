//! Parts: "The article", and of "Registers" the rule of protection; document 02, item 7: the stepping,
//! and when protected and open blocks change places.

use super::registers::{A0_COMPLEMENT, A0_INVERTED};

/// The two steppings. A0h has one bit more on the second, CMP.
#[derive(Clone, Copy, Debug, PartialEq, Eq)]
pub enum Stepping {
    First,
    Second,
}

/// A part, as given: D and S bytes a page, K pages a block, N blocks, the two identity bytes and the
/// stepping.
#[derive(Clone, Copy, Debug, PartialEq, Eq)]
pub struct Part {
    pub data: u32,
    pub spare: u32,
    pub pages: u32,
    pub blocks: u32,
    pub identity: [u8; 2],
    pub stepping: Stepping,
}

impl Part {
    pub const FM25S005BI3: Part = Part {
        data: 2048,
        spare: 128,
        pages: 64,
        blocks: 512,
        identity: [0xA1, 0xD5],
        stepping: Stepping::First,
    };

    pub const BENCH: Part = Part {
        data: 16,
        spare: 4,
        pages: 4,
        blocks: 8,
        identity: [0x5A, 0x01],
        stepping: Stepping::First,
    };

    /// Whether the geometry is sound.
    pub fn is_sound(&self) -> bool {
        self.array().is_some()
    }

    /// The lengths of cells, cache register and page counts; none for a geometry that is not sound.
    pub fn lengths(&self) -> Option<[usize; 3]> {
        self.array()
            .map(|array| [array.cells(), array.page, array.rows()])
    }

    /// P, as a number that cannot run over.
    pub(super) fn page(&self) -> u64 {
        u64::from(self.data) + u64::from(self.spare)
    }

    /// K times N, as a number that cannot run over.
    pub(super) fn rows(&self) -> u64 {
        u64::from(self.pages) * u64::from(self.blocks)
    }

    /// The array of a part; none if the geometry is not sound.
    pub(super) fn array(&self) -> Option<Array> {
        let sound = self.data >= 1
            && self.page() <= 4096
            && (1..=256).contains(&self.pages)
            && self.blocks >= 1
            && self.rows() <= 65_536;
        sound.then_some(Array {
            page: self.page() as usize,
            pages: self.pages as usize,
            blocks: self.blocks as usize,
            identity: self.identity,
            stepping: self.stepping,
        })
    }
}

/// A sound part: P bytes a page, K pages a block, N blocks.
#[derive(Clone, Copy)]
pub(super) struct Array {
    pub page: usize,
    pub pages: usize,
    pub blocks: usize,
    pub identity: [u8; 2],
    pub stepping: Stepping,
}

impl Array {
    pub fn rows(&self) -> usize {
        self.pages * self.blocks
    }

    pub fn cells(&self) -> usize {
        self.page * self.rows()
    }

    pub fn has(&self, row: u16) -> bool {
        usize::from(row) < self.rows()
    }

    /// The first cell of a row.
    pub fn page_of(&self, row: u16) -> usize {
        usize::from(row) * self.page
    }

    pub fn block_of(&self, row: u16) -> usize {
        usize::from(row) / self.pages
    }

    /// Whether register A0h protects the block of a row of the array.
    pub fn protects(&self, a0: u8, row: u16) -> bool {
        let block = self.block_of(row);
        match a0 >> 3 & 7 {
            0 => false,
            7 => true,
            number => self.counts(number, a0 & A0_INVERTED != 0, block) != self.complements(a0),
        }
    }

    /// Whether a block is among those that a BP number counts off, from the highest down or, inverted,
    /// from the lowest up.
    fn counts(&self, number: u8, inverted: bool, block: usize) -> bool {
        let counted = self.blocks >> (7 - number);
        if inverted {
            block < counted
        } else {
            block >= self.blocks - counted
        }
    }

    /// Whether protected and open blocks change places: CMP is 1, on a part that has it.
    fn complements(&self, a0: u8) -> bool {
        self.stepping == Stepping::Second && a0 & A0_COMPLEMENT != 0
    }
}
