//! Demand 3's suppositions: whether a log is orderly.

use super::instructions::Instruction;
use super::log::Record;
use super::run::{run_seen, Answer, Device, Memory};
use super::state::Machine;
use super::{Part, State};

/// Run a log, and say whether demand 3 speaks of it: begun at power-up or idle, each record orderly,
/// and ended idle.
pub fn judge(
    part: &Part,
    state: State,
    log: &[u8],
    memory: Memory,
    out: &mut [u8],
) -> (Answer, bool) {
    let mut orderly = state.is_power_up() || state.is_idle();
    let answer = run_seen(part, state, log, memory, out, |device, record| {
        orderly &= device.is_orderly(record);
    });
    orderly &= answer.state.is_idle();
    (answer, orderly)
}

impl State {
    /// Whether the numbers stand for the power-up state, WP# at either level.
    fn is_power_up(&self) -> bool {
        let power_up = State {
            wp: self.wp.min(1),
            ..State::POWER_UP
        };
        *self == power_up
    }

    /// Whether the numbers stand for a state with no operation in progress.
    fn is_idle(&self) -> bool {
        self.wp <= 1
            && self.selected <= 1
            && Instruction::of_number(self.instruction).is_some()
            && (self.job, self.row, self.units) == (0, 0, 0)
    }
}

impl Device<'_> {
    /// Whether a record may come now in an orderly log: while the array is busy, by a reset's own
    /// units too, no instruction begins but 0Fh, 9Fh and FFh, and no reset and no power loss takes
    /// effect.
    fn is_orderly(&self, record: Record) -> bool {
        let Machine {
            selected, transfer, ..
        } = &self.machine;
        let busy = self.machine.is_busy();
        match record {
            Record::Shift(byte) if busy && *selected && transfer.count == 0 => {
                Instruction::of_byte(byte).is_none_or(Instruction::heard_while_busy)
            }
            Record::Deselect if busy && *selected => {
                transfer.instruction != Some(Instruction::Reset) || transfer.count != 1
            }
            Record::Power => !busy,
            _ => true,
        }
    }
}
