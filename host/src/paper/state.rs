//! The device state: as plain numbers, sound or not, and as a machine, which is always sound.

use super::instructions::Instruction;
use super::registers::{Registers, BUSY};
use super::transfer::Transfer;
use super::work::Operation;
use super::Part;

/// The device state as plain numbers, sound or not.
#[derive(Clone, Copy, Debug, PartialEq, Eq)]
pub struct State {
    pub a0: u8,
    pub b0: u8,
    pub c0: u8,
    pub d0: u8,
    pub wp: u8,
    pub selected: u8,
    pub count: u8,
    pub bytes: [u8; 3],
    pub job: u8,
    pub instruction: u16,
    pub column: u16,
    pub row: u16,
    pub units: usize,
}

impl State {
    /// The `instruction` that is ignored, or not there yet.
    pub const IGNORED: u16 = 0x100;

    /// The power-up state: power loss with WP# high.
    pub const POWER_UP: State = State {
        a0: 0x38,
        b0: 0x10,
        c0: 0x01,
        d0: 0x40,
        wp: 1,
        selected: 0,
        count: 0,
        bytes: [0; 3],
        job: 1,
        instruction: State::IGNORED,
        column: 0,
        row: 0,
        units: 0,
    };

    /// The `instruction` that a first byte leaves while the array is idle.
    pub fn instruction_of(byte: u8) -> u16 {
        Instruction::of_byte(byte).map_or(State::IGNORED, |instruction| instruction as u16)
    }

    /// Whether the state is sound on a part. The part's numbers are taken as they are, sound or
    /// not.
    pub fn is_sound(&self, part: &Part) -> bool {
        Machine::new(self, part).is_some()
    }
}

/// A sound device state.
#[derive(Clone, Copy)]
pub(super) struct Machine {
    pub registers: Registers,
    pub wp_high: bool,
    pub selected: bool,
    pub transfer: Transfer,
    pub operation: Option<Operation>,
}

impl Machine {
    pub fn power_up(wp_high: bool) -> Machine {
        Machine {
            registers: Registers::POWER_UP,
            wp_high,
            selected: false,
            transfer: Transfer::NONE,
            operation: Some(Operation::POWER_UP),
        }
    }

    /// The machine of a state; none if it is not sound.
    pub fn new(state: &State, part: &Part) -> Option<Machine> {
        let machine = Machine {
            registers: Registers::of(state, part.stepping)?,
            wp_high: flag(state.wp)?,
            selected: flag(state.selected)?,
            transfer: Transfer::of(state)?,
            operation: Operation::of(state, part)?,
        };
        let Transfer {
            instruction, count, ..
        } = machine.transfer;
        let heard = instruction.is_none_or(Instruction::heard_while_busy);
        let in_transfer = machine.selected && count >= 1;
        let sound = (state.c0 & BUSY != 0) == machine.is_busy()
            && (!machine.is_busy() || !in_transfer || heard);
        sound.then_some(machine)
    }

    /// The state of the machine.
    pub fn state(&self) -> State {
        let Transfer {
            instruction,
            count,
            bytes,
            column,
        } = self.transfer;
        let (job, row) = self
            .operation
            .map_or((0, 0), |operation| operation.job.numbers());
        State {
            a0: self.registers.a0,
            b0: self.registers.b0,
            c0: self.registers.status(self.is_busy()),
            d0: self.registers.d0,
            wp: self.wp_high.into(),
            selected: self.selected.into(),
            count,
            bytes,
            job,
            instruction: instruction.map_or(State::IGNORED, |instruction| instruction as u16),
            column,
            row,
            units: self.operation.map_or(0, |operation| operation.units),
        }
    }

    /// OIP: whether there is an operation in progress.
    pub fn is_busy(&self) -> bool {
        self.operation.is_some()
    }
}

/// A number that is 0 or 1.
fn flag(number: u8) -> Option<bool> {
    (number <= 1).then_some(number == 1)
}
