//! Sleetanvil: a proved model of a serial NAND flash, and of a memory card, for Rust.
//!
//! The model itself is the proved static library behind `sleetanvil.h`; this package is a safe
//! wrapper over it and adds no behaviour.
//!
//! * [`Device`] owns a part's memory and state, and takes transfers, bus events or whole logs.
//! * [`lent`] has the same calls over borrowed memory, [`raw`] the C interface's own types.
//! * [`Log`], [`Record`] and [`Records`] write and read bus logs.
//! * [`Keeper`] says whose transfer is next where four cores share one device.
//! * [`page`] makes and reads the parameter page, from which boot code sizes a part.
//! * [`Card`] is a memory card that owns its memory; [`card`] has its commands.
//!
//! What the machine is and what each refusal means stands in the project's `docs/MACHINE.md`. The
//! independent model against which the library is tested and measured, `paper`, is no part of this
//! interface, nor are the cases and vectors that both are run on.
//!
//! ```
//! use sleetanvil::{Device, Geometry};
//!
//! let mut device = Device::power_up(Geometry::bench())?;
//! assert_eq!(device.status(), 0x01);
//! device.work(20);
//! assert_eq!(device.units_left(), 0);
//! assert_eq!(device.transfer(&[0x9F, 0, 0, 0]), [0xFF, 0xFF, 0x5A, 0x01]);
//! # Ok::<(), sleetanvil::Refusal>(())
//! ```

#![deny(unsafe_code)]
#![warn(missing_docs)]

pub mod card;
#[doc(hidden)]
pub mod case;
mod convert;
mod device;
#[allow(unsafe_code)]
mod ffi;
mod geometry;
mod keeper;
pub mod lent;
mod log;
pub mod page;
#[doc(hidden)]
#[allow(missing_docs)]
pub mod paper;
mod refusal;
mod state;
#[doc(hidden)]
pub mod vectors;

pub use card::Card;
pub use device::Device;
pub use geometry::{Geometry, Stepping};
pub use keeper::{Grant, Keeper};
pub use lent::Answer;
pub use log::{Log, Record, Records};
pub use refusal::Refusal;
pub use state::{Job, Operation, State};

/// The C interface's own structs and functions, one safe function for each.
pub mod raw {
    pub use crate::ffi::{
        bench, blank, cache_length, card_command, card_power_up, card_run, cells_length,
        counts_length, deselect, fm25s005bi3, geometry_sound, judge, keeper_add, keeper_grant,
        keeper_new, level, next, operation_length, page_check, page_make, page_read, peek, power,
        power_up, run, select, shift, shifts, state_sound, text, transfer, units_left, version,
        work, write, RawAdded, RawAnswer, RawCard, RawCardAnswer, RawFound, RawGranted, RawJudged,
        RawKeeper, RawPeeked, RawQueue, RawRecord, RawSizes, RawWrote, TEXT, VERSION,
    };
}
