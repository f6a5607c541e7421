//! "Work of the array": an operation, its units, and what stops it; document 02, item 2: the reset as
//! an operation of its own.

use std::ops::Mul;

use super::registers::{ERASE_FAILED, PROGRAM_FAILED};
use super::run::{Device, Memory};
use super::state::Machine;
use super::{Part, State, BLANK};

/// The units of a reset, on every part.
const RESET_UNITS: u8 = 8;

/// What an operation does, and on which row. A reset has none.
#[derive(Clone, Copy)]
pub(super) enum Job {
    Read(u16),
    Program(u16),
    Erase(u16),
    Reset,
}

impl Job {
    /// The job of a state's numbers; none if no state has them.
    pub fn of_numbers(job: u8, row: u16) -> Option<Job> {
        match (job, row) {
            (1, _) => Some(Job::Read(row)),
            (2, _) => Some(Job::Program(row)),
            (3, _) => Some(Job::Erase(row)),
            (4, 0) => Some(Job::Reset),
            _ => None,
        }
    }

    /// The job and the row as a state has them.
    pub fn numbers(self) -> (u8, u16) {
        match self {
            Job::Read(row) => (1, row),
            Job::Program(row) => (2, row),
            Job::Erase(row) => (3, row),
            Job::Reset => (4, 0),
        }
    }

    /// Its units; P and K come as numbers that have room for their product.
    pub fn length<N: Mul<Output = N> + From<u8>>(self, page: N, pages: N) -> N {
        match self {
            Job::Read(_) | Job::Program(_) => page,
            Job::Erase(_) => page * pages,
            Job::Reset => RESET_UNITS.into(),
        }
    }
}

/// An operation of the array in progress.
#[derive(Clone, Copy)]
pub(super) struct Operation {
    pub job: Job,
    pub units: usize,
}

impl Operation {
    /// The read that begins with power-up.
    pub const POWER_UP: Operation = Operation {
        job: Job::Read(0),
        units: 0,
    };

    /// The operation of a state, if it has one; none at all if that part of the state is not sound.
    pub fn of(state: &State, part: &Part) -> Option<Option<Operation>> {
        let State {
            job, row, units, ..
        } = *state;
        if (job, row, units) == (0, 0, 0) {
            return Some(None);
        }
        let job = Job::of_numbers(job, row)?;
        let row_sound = match job {
            Job::Program(row) | Job::Erase(row) => u64::from(row) < part.rows(),
            Job::Read(_) | Job::Reset => true,
        };
        let length: u128 = job.length(part.page().into(), part.pages.into());
        let sound = row_sound && (units as u128) < length;
        sound.then_some(Some(Operation { job, units }))
    }
}

impl Machine {
    pub fn begin(&mut self, job: Job) {
        self.operation = Some(Operation { job, units: 0 });
    }

    /// Reset stops an operation after the units done, a reset too, and begins one of its own.
    pub fn reset(&mut self) {
        self.registers.flags &= !(ERASE_FAILED | PROGRAM_FAILED);
        self.begin(Job::Reset);
    }
}

impl Device<'_> {
    /// Work of some units; what is beyond the last does nothing.
    pub fn work(&mut self, units: usize) {
        let Some(operation) = &mut self.machine.operation else {
            return;
        };
        let Operation { job, units: from } = *operation;
        let length = job.length(self.array.page, self.array.pages);
        let to = length.min(from.saturating_add(units));
        operation.units = to;
        if to == length {
            self.machine.operation = None;
        }

        let Memory { cells, cache, .. } = &mut self.memory;
        match job {
            Job::Read(row) if self.array.has(row) => {
                let page = self.array.page_of(row);
                cache[from..to].copy_from_slice(&cells[page + from..page + to]);
            }
            Job::Read(_) => cache[from..to].fill(BLANK),
            Job::Program(row) => {
                let page = self.array.page_of(row);
                let cells = &mut cells[page + from..page + to];
                for (cell, byte) in cells.iter_mut().zip(&cache[from..to]) {
                    *cell &= byte;
                }
            }
            Job::Erase(row) => {
                let block = self.array.block_of(row) * length;
                cells[block + from..block + to].fill(BLANK);
            }
            Job::Reset => {}
        }
    }

    /// Power lost and back. Cells, counts and the level of WP# outlive it.
    pub fn power(&mut self) {
        self.memory.cache.fill(BLANK);
        self.machine = Machine::power_up(self.machine.wp_high);
    }
}
