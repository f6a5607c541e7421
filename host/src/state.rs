//! The device state, which goes into each call whole and comes back whole.

use crate::{ffi, Geometry};

/// The device state, in the C interface's own form.
///
/// The fields may hold anything; a state that is not sound is refused with
/// [`Refusal::BadState`](crate::Refusal::BadState) and comes back as it was. The methods read it in
/// Rust's terms.
#[repr(C)]
#[derive(Clone, Copy, Debug, PartialEq, Eq, Hash)]
pub struct State {
    /// Register A0h: protection. Bits 5 to 3 are the BP number b: for 0 no block is protected,
    /// otherwise `blocks` / 2^(7-b) of them, rounded down, the highest numbered, or the lowest if
    /// bit 2, INV, is 1. If bit 1, CMP, is 1, and b is from 1 to 6, the others are the protected
    /// ones; a part of the first stepping has no CMP, and there a state in which the bit is 1 is not
    /// sound. While bit 7, BRWD, is 1 and WP# is low, the register cannot be written.
    pub a0: u8,
    /// Register B0h: ECC_E and QE.
    pub b0: u8,
    /// Register C0h: status.
    pub c0: u8,
    /// Register D0h: drive strength.
    pub d0: u8,
    /// Level of WP#: 0 low, 1 high.
    pub wp: u8,
    /// 1 while chip select is low.
    pub selected: u8,
    /// Bytes shifted in this transfer; 5 stands for five or more.
    pub count: u8,
    /// The first byte after the instruction, as it came.
    pub first: u8,
    /// The second byte after the instruction.
    pub second: u8,
    /// The third byte after the instruction.
    pub third: u8,
    /// The operation in progress: 0 none, 1 read, 2 program, 3 erase, 4 reset.
    pub job: u8,
    /// The code of the instruction under way, or [`State::IGNORED`].
    pub instruction: u16,
    /// The next column. In a cache read (03h, 0Bh) 0 comes behind the page's last column. A load,
    /// and a read outside the page, whose answers are FFh, runs on up to 4,096 and stays there.
    pub column: u16,
    /// The row of the operation; 0 while idle and during a reset.
    pub row: u16,
    /// The units that the operation has done; 0 while idle.
    pub units: usize,
}

/// What the array is doing.
#[derive(Clone, Copy, Debug, PartialEq, Eq, Hash)]
pub enum Job {
    /// A page goes from the cells to the cache register.
    Read,
    /// The cache register is ANDed into a page.
    Program,
    /// A block becomes FFh.
    Erase,
    /// A reset takes its 8 units, the same on every part, and touches no memory. It has no row.
    Reset,
}

impl Job {
    /// The number of the job in [`State::job`].
    pub fn number(self) -> u8 {
        match self {
            Job::Read => 1,
            Job::Program => 2,
            Job::Erase => 3,
            Job::Reset => 4,
        }
    }
}

/// An operation of the array in progress.
#[derive(Clone, Copy, Debug, PartialEq, Eq, Hash)]
pub struct Operation {
    /// What is done.
    pub job: Job,
    /// The row it was begun for; 0 for a reset.
    pub row: u16,
    /// The units done so far.
    pub units: usize,
}

impl State {
    /// The `instruction` where there is none to carry out: no byte has come yet, or the transfer is
    /// ignored.
    pub const IGNORED: u16 = 0x100;

    /// The power-up state: WP# high, the read of row 0 just begun.
    pub fn power_up() -> Self {
        ffi::power_up()
    }

    /// Whether the state is sound on a part.
    pub fn is_sound(&self, geometry: &Geometry) -> bool {
        ffi::state_sound(*geometry, *self)
    }

    /// How many units the operation in progress has left on a part; 0 while idle, and where part or
    /// state is not sound.
    #[inline]
    pub fn units_left(&self, geometry: &Geometry) -> usize {
        ffi::units_left(*geometry, *self)
    }

    /// OIP: an operation is in progress, a reset too.
    pub fn is_busy(&self) -> bool {
        self.c0 & 0x01 != 0
    }

    /// WEL: a program or an erase would be begun.
    pub fn is_write_enabled(&self) -> bool {
        self.c0 & 0x02 != 0
    }

    /// E_FAIL: the last erase was refused.
    pub fn erase_failed(&self) -> bool {
        self.c0 & 0x04 != 0
    }

    /// P_FAIL: the last program was refused.
    pub fn program_failed(&self) -> bool {
        self.c0 & 0x08 != 0
    }

    /// Whether chip select is low.
    pub fn is_selected(&self) -> bool {
        self.selected != 0
    }

    /// Whether the transfer under way is ignored.
    pub fn is_ignoring(&self) -> bool {
        self.is_selected() && self.count > 0 && self.instruction == State::IGNORED
    }

    /// The operation in progress, if there is one.
    pub fn operation(&self) -> Option<Operation> {
        let job = match self.job {
            1 => Job::Read,
            2 => Job::Program,
            3 => Job::Erase,
            4 => Job::Reset,
            _ => return None,
        };
        Some(Operation {
            job,
            row: self.row,
            units: self.units,
        })
    }
}
