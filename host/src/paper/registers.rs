//! "Registers": A0h to D0h, their masks and bits, read and written by address; document 02, item 7: the
//! second stepping has a bit more in A0h.

use super::{State, Stepping};

const A0_LOCK: u8 = 0x80;
pub(super) const A0_INVERTED: u8 = 0x04;
pub(super) const A0_COMPLEMENT: u8 = 0x02;
const B0_MASK: u8 = 0x11;
const D0_MASK: u8 = 0x60;

pub(super) const BUSY: u8 = 0x01;
pub(super) const WRITE_ENABLED: u8 = 0x02;
pub(super) const ERASE_FAILED: u8 = 0x04;
pub(super) const PROGRAM_FAILED: u8 = 0x08;
const STATUS_MASK: u8 = 0x0F;

/// The bits of A0h that a stepping has.
fn a0_mask(stepping: Stepping) -> u8 {
    match stepping {
        Stepping::First => 0xBC,
        Stepping::Second => 0xBE,
    }
}

/// The registers. OIP is not kept: it is whether there is an operation.
#[derive(Clone, Copy)]
pub(super) struct Registers {
    pub a0: u8,
    pub b0: u8,
    /// C0h without OIP.
    pub flags: u8,
    pub d0: u8,
}

impl Registers {
    pub const POWER_UP: Registers = Registers {
        a0: 0x38,
        b0: 0x10,
        flags: 0,
        d0: 0x40,
    };

    /// The registers of a state; none if a bit outside the masks is 1.
    pub fn of(state: &State, stepping: Stepping) -> Option<Registers> {
        let sound = state.a0 & !a0_mask(stepping) == 0
            && state.b0 & !B0_MASK == 0
            && state.c0 & !STATUS_MASK == 0
            && state.d0 & !D0_MASK == 0;
        sound.then_some(Registers {
            a0: state.a0,
            b0: state.b0,
            flags: state.c0 & !BUSY,
            d0: state.d0,
        })
    }

    pub fn status(&self, busy: bool) -> u8 {
        self.flags | if busy { BUSY } else { 0 }
    }

    pub fn read(&self, address: u8, busy: bool) -> u8 {
        match address {
            0xA0 => self.a0,
            0xB0 => self.b0,
            0xC0 => self.status(busy),
            0xD0 => self.d0,
            _ => 0,
        }
    }

    pub fn write(&mut self, address: u8, value: u8, wp_high: bool, stepping: Stepping) {
        let locked = self.a0 & A0_LOCK != 0 && !wp_high;
        match address {
            0xA0 if !locked => self.a0 = value & a0_mask(stepping),
            0xB0 => self.b0 = value & B0_MASK,
            0xD0 => self.d0 = value & D0_MASK,
            _ => {}
        }
    }

    /// Whether WEL was set. If so, it and both fail bits are cleared.
    pub fn take_write_enable(&mut self) -> bool {
        let enabled = self.flags & WRITE_ENABLED != 0;
        if enabled {
            self.flags &= !(WRITE_ENABLED | ERASE_FAILED | PROGRAM_FAILED);
        }
        enabled
    }
}
