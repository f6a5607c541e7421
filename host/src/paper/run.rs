//! A log run on a device: the checks 1 to 5, then 6 to 9 record by record.

use super::log::{next, Record};
use super::part::Array;
use super::state::Machine;
use super::{Part, Refusal, State};

/// The device's memory, lent for a run.
pub struct Memory<'a> {
    pub cells: &'a mut [u8],
    pub cache: &'a mut [u8],
    pub counts: &'a mut [u8],
}

/// What a run gives back.
#[derive(Clone, Copy, Debug, PartialEq, Eq)]
pub struct Answer {
    pub state: State,
    pub records: usize,
    pub used: usize,
    pub written: usize,
    pub refusal: Option<Refusal>,
}

impl Answer {
    /// Nothing done yet.
    pub(super) fn nothing(state: State) -> Answer {
        Answer {
            state,
            records: 0,
            used: 0,
            written: 0,
            refusal: None,
        }
    }
}

/// Run a log on a device.
pub fn run(part: &Part, state: State, log: &[u8], memory: Memory, out: &mut [u8]) -> Answer {
    run_seen(part, state, log, memory, out, |_, _| {})
}

/// Run a log; each record is shown with the device as it comes, if it is done.
pub(super) fn run_seen(
    part: &Part,
    state: State,
    log: &[u8],
    memory: Memory,
    out: &mut [u8],
    seen: impl FnMut(&Device, Record),
) -> Answer {
    let mut answer = Answer::nothing(state);
    match Device::new(part, &state, memory) {
        Ok(mut device) => {
            answer.refusal = device.replay(log, out, &mut answer, seen).err();
            answer.state = device.machine.state();
        }
        Err(refusal) => answer.refusal = Some(refusal),
    }
    answer
}

/// A sound device: a machine on an array, with memory of the right lengths.
pub(super) struct Device<'a> {
    pub array: Array,
    pub machine: Machine,
    pub memory: Memory<'a>,
}

impl<'a> Device<'a> {
    /// The checks 1 to 5, in their order.
    pub fn new(part: &Part, state: &State, memory: Memory<'a>) -> Result<Self, Refusal> {
        let array = part.array().ok_or(Refusal::BadPart)?;
        if memory.cells.len() != array.cells() {
            return Err(Refusal::BadCells);
        }
        if memory.cache.len() != array.page {
            return Err(Refusal::BadCache);
        }
        if memory.counts.len() != array.rows() {
            return Err(Refusal::BadCounts);
        }
        let machine = Machine::new(state, part).ok_or(Refusal::BadState)?;
        Ok(Device {
            array,
            machine,
            memory,
        })
    }

    /// The records of a log one after the other, to its end or to the first that is refused.
    fn replay(
        &mut self,
        log: &[u8],
        out: &mut [u8],
        done: &mut Answer,
        mut seen: impl FnMut(&Self, Record),
    ) -> Result<(), Refusal> {
        while let Some((record, place)) = next(log, done.used)? {
            if matches!(record, Record::Shift(_)) && done.written == out.len() {
                return Err(Refusal::NoRoom);
            }
            seen(self, record);
            match record {
                Record::Select => self.select(),
                Record::Shift(byte) => {
                    out[done.written] = self.shift(byte);
                    done.written += 1;
                }
                Record::Deselect => self.deselect(),
                Record::Work(units) => self.work(units.into()),
                Record::Level(level) => self.machine.wp_high = level == 1,
                Record::Power => self.power(),
            }
            done.records += 1;
            done.used = place;
        }
        Ok(())
    }
}
