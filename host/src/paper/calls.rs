//! What a simulator calls beside a log: a transfer or a piece of one, work of any length, and what
//! the device tells between two events.

use super::run::{Answer, Device, Memory};
use super::state::Machine;
use super::work::{Job, Operation};
use super::{Part, Refusal, State, BLANK};

/// A whole transfer: select, the bytes as far as the output has room, deselect if that was all.
pub fn transfer(part: &Part, state: State, di: &[u8], memory: Memory, out: &mut [u8]) -> Answer {
    on_device(part, state, memory, |device, answer| {
        device.select();
        answer.records += 1;
        device.exchange(di, out, answer)?;
        device.deselect();
        answer.records += 1;
        Ok(())
    })
}

/// A piece of a transfer: the bytes alone.
pub fn shifts(part: &Part, state: State, di: &[u8], memory: Memory, out: &mut [u8]) -> Answer {
    on_device(part, state, memory, |device, answer| {
        device.exchange(di, out, answer)
    })
}

/// Work of any number of units. It counts as one record of three bytes.
pub fn work(part: &Part, state: State, units: u64, memory: Memory) -> Answer {
    on_device(part, state, memory, |device, answer| {
        device.work(usize::try_from(units).unwrap_or(usize::MAX));
        answer.records = 1;
        answer.used = 3;
        Ok(())
    })
}

/// The byte that the next shift puts out if `byte` is shifted in. Cells and counts are not asked for.
pub fn peek(part: &Part, state: State, cache: &[u8], byte: u8) -> Result<u8, Refusal> {
    let array = part.array().ok_or(Refusal::BadPart)?;
    if cache.len() != array.page {
        return Err(Refusal::BadCache);
    }
    let machine = Machine::new(&state, part).ok_or(Refusal::BadState)?;
    let mut device = Device {
        array,
        machine,
        memory: Memory {
            cells: &mut [],
            cache: &mut cache.to_vec(),
            counts: &mut [],
        },
    };
    Ok(device.shift(byte))
}

/// The units of a job by its number; 0 for any other number, and on a part that is not sound.
pub fn operation_length(part: &Part, job: u8) -> usize {
    match (part.array(), Job::of_numbers(job, 0)) {
        (Some(array), Some(job)) => job.length(array.page, array.pages),
        _ => 0,
    }
}

/// The units that the operation in progress has left; 0 where the part or the state is not sound.
pub fn units_left(part: &Part, state: State) -> usize {
    let operation = Machine::new(&state, part).and_then(|machine| machine.operation);
    match (part.array(), operation) {
        (Some(array), Some(Operation { job, units })) => {
            job.length(array.page, array.pages) - units
        }
        _ => 0,
    }
}

/// Memory that was never used.
pub fn blank(part: &Part, memory: Memory) -> Option<Refusal> {
    match Device::new(part, &State::POWER_UP, memory) {
        Ok(device) => {
            device.memory.cells.fill(BLANK);
            device.memory.cache.fill(BLANK);
            device.memory.counts.fill(0);
            None
        }
        Err(refusal) => Some(refusal),
    }
}

/// The checks, and then something done on the device.
fn on_device(
    part: &Part,
    state: State,
    memory: Memory,
    act: impl FnOnce(&mut Device, &mut Answer) -> Result<(), Refusal>,
) -> Answer {
    let mut answer = Answer::nothing(state);
    match Device::new(part, &state, memory) {
        Ok(mut device) => {
            answer.refusal = act(&mut device, &mut answer).err();
            answer.state = device.machine.state();
        }
        Err(refusal) => answer.refusal = Some(refusal),
    }
    answer
}

impl Device<'_> {
    /// Bytes in and out, as far as the output has room.
    fn exchange(&mut self, di: &[u8], out: &mut [u8], answer: &mut Answer) -> Result<(), Refusal> {
        for (&byte, place) in di.iter().zip(out.iter_mut()) {
            *place = self.shift(byte);
        }
        let done = di.len().min(out.len());
        answer.records += done;
        answer.written = done;
        if done < di.len() {
            return Err(Refusal::NoRoom);
        }
        Ok(())
    }
}
