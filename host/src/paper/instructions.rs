//! "Instructions": the codes, and what acts when chip select rises.

use super::registers::{ERASE_FAILED, PROGRAM_FAILED, WRITE_ENABLED};
use super::run::Device;
use super::transfer::Transfer;
use super::work::Job;
use super::State;

/// How often a page may be programmed between two erases.
const PROGRAMS: u8 = 4;

/// The twelve instructions; 03h and 0Bh are one.
#[derive(Clone, Copy, PartialEq, Eq)]
pub(super) enum Instruction {
    WriteEnable = 0x06,
    WriteDisable = 0x04,
    GetFeature = 0x0F,
    SetFeature = 0x1F,
    ReadId = 0x9F,
    PageRead = 0x13,
    ReadCache = 0x03,
    Load = 0x02,
    LoadOver = 0x84,
    Program = 0x10,
    Erase = 0xD8,
    Reset = 0xFF,
}

impl Instruction {
    /// The instruction of a first byte.
    pub fn of_byte(byte: u8) -> Option<Instruction> {
        match byte {
            0x0B => Some(Instruction::ReadCache),
            _ => Instruction::of_code(byte),
        }
    }

    /// The instruction of a code as the state keeps it.
    pub fn of_code(code: u8) -> Option<Instruction> {
        use Instruction::*;
        Some(match code {
            0x06 => WriteEnable,
            0x04 => WriteDisable,
            0x0F => GetFeature,
            0x1F => SetFeature,
            0x9F => ReadId,
            0x13 => PageRead,
            0x03 => ReadCache,
            0x02 => Load,
            0x84 => LoadOver,
            0x10 => Program,
            0xD8 => Erase,
            0xFF => Reset,
            _ => return None,
        })
    }

    /// The instruction of a state's number, if it has one; none at all if no state has that number.
    pub fn of_number(number: u16) -> Option<Option<Instruction>> {
        match u8::try_from(number) {
            Ok(code) => Instruction::of_code(code).map(Some),
            Err(_) => (number == State::IGNORED).then_some(None),
        }
    }

    /// Whether the device hears it while an operation is in progress.
    pub fn heard_while_busy(self) -> bool {
        matches!(
            self,
            Instruction::GetFeature | Instruction::ReadId | Instruction::Reset
        )
    }
}

impl Device<'_> {
    /// Chip select rises: what was shifted acts, if exactly its bytes were.
    pub fn deselect(&mut self) {
        if !self.machine.selected {
            return;
        }
        let transfer = self.machine.transfer;
        self.machine.selected = false;
        self.machine.transfer = Transfer::NONE;
        let (wp_high, stepping) = (self.machine.wp_high, self.array.stepping);
        let registers = &mut self.machine.registers;
        match (transfer.instruction, transfer.count) {
            (Some(Instruction::WriteEnable), 1) => registers.flags |= WRITE_ENABLED,
            (Some(Instruction::WriteDisable), 1) => registers.flags &= !WRITE_ENABLED,
            (Some(Instruction::SetFeature), 3) => {
                let [address, value, _] = transfer.bytes;
                registers.write(address, value, wp_high, stepping);
            }
            (Some(Instruction::PageRead), 4) => self.machine.begin(Job::Read(transfer.row())),
            (Some(Instruction::Program), 4) => self.program(transfer.row()),
            (Some(Instruction::Erase), 4) => self.erase(transfer.row()),
            (Some(Instruction::Reset), 1) => self.machine.reset(),
            _ => {}
        }
    }

    fn program(&mut self, row: u16) {
        if !self.machine.registers.take_write_enable() {
            return;
        }
        let place = usize::from(row);
        if self.is_closed(row) || self.memory.counts[place] >= PROGRAMS {
            self.machine.registers.flags |= PROGRAM_FAILED;
        } else {
            self.memory.counts[place] += 1;
            self.machine.begin(Job::Program(row));
        }
    }

    fn erase(&mut self, row: u16) {
        if !self.machine.registers.take_write_enable() {
            return;
        }
        if self.is_closed(row) {
            self.machine.registers.flags |= ERASE_FAILED;
        } else {
            let pages = self.array.pages;
            let first = self.array.block_of(row) * pages;
            self.memory.counts[first..first + pages].fill(0);
            self.machine.begin(Job::Erase(row));
        }
    }

    /// Whether a row is outside the array or in a protected block.
    fn is_closed(&self, row: u16) -> bool {
        !self.array.has(row) || self.array.protects(self.machine.registers.a0, row)
    }
}
