//! Transfers: chip select and the bytes shifted, what each answers and what it does to the cache
//! register; document 02, item 6: a cache read goes round at the page's end.

use super::instructions::Instruction;
use super::run::Device;
use super::{State, BLANK};

/// The longest page, and the place at which the next column stays.
const COLUMN_LIMIT: u16 = 4096;
/// The number at which the count of bytes in a transfer stays.
const COUNT_LIMIT: u8 = 5;

/// What is known of the transfer under way.
#[derive(Clone, Copy)]
pub(super) struct Transfer {
    /// None before the first byte, and where the instruction is ignored.
    pub instruction: Option<Instruction>,
    /// Bytes shifted so far; 5 for five or more.
    pub count: u8,
    /// The three bytes after the instruction.
    pub bytes: [u8; 3],
    /// The next column.
    pub column: u16,
}

impl Transfer {
    pub const NONE: Transfer = Transfer {
        instruction: None,
        count: 0,
        bytes: [0; 3],
        column: 0,
    };

    /// The transfer of a state; none if it is not sound.
    pub fn of(state: &State) -> Option<Transfer> {
        let instruction = Instruction::of_number(state.instruction)?;
        let sound = state.count <= COUNT_LIMIT && state.column <= COLUMN_LIMIT;
        sound.then_some(Transfer {
            instruction,
            count: state.count,
            bytes: state.bytes,
            column: state.column,
        })
    }

    /// The row that the three bytes name; the first is ignored.
    pub fn row(&self) -> u16 {
        u16::from_be_bytes([self.bytes[1], self.bytes[2]])
    }

    /// The next column, which moves on by one.
    fn step(&mut self) -> usize {
        let column = self.column;
        self.column = COLUMN_LIMIT.min(column + 1);
        usize::from(column)
    }
}

impl Device<'_> {
    pub fn select(&mut self) {
        if !self.machine.selected {
            self.machine.selected = true;
            self.machine.transfer = Transfer::NONE;
        }
    }

    /// One byte in on DI; the byte out on DO.
    pub fn shift(&mut self, byte: u8) -> u8 {
        let machine = &mut self.machine;
        if !machine.selected {
            return BLANK;
        }
        let count = machine.transfer.count;
        machine.transfer.count = COUNT_LIMIT.min(count + 1);
        if count == 0 {
            let busy = machine.is_busy();
            machine.transfer.instruction = Instruction::of_byte(byte)
                .filter(|instruction| !busy || instruction.heard_while_busy());
            return BLANK;
        }
        if let Some(kept) = machine.transfer.bytes.get_mut(usize::from(count) - 1) {
            *kept = byte;
        }
        match machine.transfer.instruction {
            Some(Instruction::GetFeature) if count >= 2 => {
                let busy = machine.is_busy();
                machine.registers.read(machine.transfer.bytes[0], busy)
            }
            Some(Instruction::ReadId) if count >= 2 => {
                let place = usize::from(count) - 2;
                self.array.identity.get(place).copied().unwrap_or(BLANK)
            }
            Some(Instruction::ReadCache) => self.shift_read(count, byte),
            Some(load @ (Instruction::Load | Instruction::LoadOver)) => {
                self.shift_load(load, count, byte);
                BLANK
            }
            _ => BLANK,
        }
    }

    /// A byte of 03h or 0Bh after the first: two of column, one idle, then the answers. Behind the
    /// page's last column comes column 0; a read that is past the page stays there.
    fn shift_read(&mut self, count: u8, byte: u8) -> u8 {
        match count {
            2 => self.take_column(byte),
            4.. => {
                let column = self.machine.transfer.step();
                if column == self.array.page - 1 {
                    self.machine.transfer.column = 0;
                }
                return self.memory.cache.get(column).copied().unwrap_or(BLANK);
            }
            _ => {}
        }
        BLANK
    }

    /// A byte of 02h or 84h after the first: two of column, then data, which is dropped past the page.
    fn shift_load(&mut self, load: Instruction, count: u8, byte: u8) {
        match count {
            2 => {
                self.take_column(byte);
                if load == Instruction::Load {
                    self.memory.cache.fill(BLANK);
                }
            }
            3.. => {
                let column = self.machine.transfer.step();
                if let Some(place) = self.memory.cache.get_mut(column) {
                    *place = byte;
                }
            }
            _ => {}
        }
    }

    /// The second column byte has come.
    fn take_column(&mut self, low: u8) {
        let transfer = &mut self.machine.transfer;
        transfer.column = u16::from_be_bytes([transfer.bytes[0] & 0x0F, low]);
    }
}
