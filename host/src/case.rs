//! Cases: all that goes into a run, and all that comes out of it.
//!
//! They are for whoever sets models of the part against each other: the tests, the [vectors] and
//! the benchmark. A case says what is special about it and takes the rest from a default, so that
//! what a run takes can grow:
//!
//! ```
//! use sleetanvil::case::{model, Case, Fill};
//!
//! let case = Case {
//!     cells: Fill::constant(640, 0x3C),
//!     ..Case::bench(&[4, 20, 0])
//! };
//! assert_eq!(model(&case).buffers.cache, [0x3C; 20]);
//! ```
//!
//! [vectors]: crate::vectors

use std::fmt;

use crate::{lent, paper, Answer, Geometry, State};

/// How a buffer is filled: byte i is (first + i * step) mod 256 mod below.
#[derive(Clone, Copy, Debug, PartialEq, Eq)]
pub struct Fill {
    /// How many bytes.
    pub len: usize,
    /// The first byte, before the last remainder is taken.
    pub first: u8,
    /// What is added from one byte to the next.
    pub step: u8,
    /// What every byte is below, 1 to 256.
    pub below: u16,
}

impl Fill {
    /// One byte all over.
    pub fn constant(len: usize, byte: u8) -> Self {
        Fill::counting(len, byte, 0)
    }

    /// Bytes from `first` on, by `step`.
    pub fn counting(len: usize, first: u8, step: u8) -> Self {
        Fill {
            len,
            first,
            step,
            below: 256,
        }
    }

    /// The bytes.
    pub fn bytes(&self) -> Vec<u8> {
        (0..self.len)
            .map(|place| {
                let byte = self
                    .first
                    .wrapping_add((place as u8).wrapping_mul(self.step));
                (u16::from(byte) % self.below) as u8
            })
            .collect()
    }
}

impl fmt::Display for Fill {
    fn fmt(&self, f: &mut fmt::Formatter<'_>) -> fmt::Result {
        let Fill {
            len,
            first,
            step,
            below,
        } = self;
        write!(
            f,
            "{len} bytes, byte i = ({first} + i * {step}) mod 256 mod {below}"
        )
    }
}

/// All that goes into a run. What a literal leaves out comes from [`Case::power_up`],
/// [`Case::bench`] or the default, an empty log on the bench part.
#[derive(Clone, Debug)]
pub struct Case {
    /// The part.
    pub geometry: Geometry,
    /// The state handed in.
    pub state: State,
    /// The cells.
    pub cells: Fill,
    /// The cache register.
    pub cache: Fill,
    /// The page counts.
    pub counts: Fill,
    /// How many output bytes there is room for.
    pub room: usize,
    /// The log.
    pub log: Vec<u8>,
}

impl Case {
    /// A log on a part at power-up, erased, with room for all its output. A part that is not sound
    /// has no memory.
    pub fn power_up(geometry: Geometry, log: &[u8]) -> Self {
        let part = paper::Part::from(geometry);
        let [cells, cache, counts] = part.lengths().unwrap_or_default();
        Case {
            geometry,
            state: paper::State::POWER_UP.into(),
            cells: Fill::constant(cells, 0xFF),
            cache: Fill::constant(cache, 0xFF),
            counts: Fill::constant(counts, 0),
            room: log.len() / 2,
            log: log.to_vec(),
        }
    }

    /// The same on the bench part.
    pub fn bench(log: &[u8]) -> Self {
        Case::power_up(paper::Part::BENCH.into(), log)
    }

    /// The memory and the output as they are before the run.
    pub fn buffers(&self) -> Buffers {
        Buffers {
            cells: self.cells.bytes(),
            cache: self.cache.bytes(),
            counts: self.counts.bytes(),
            out: untouched_output(self.room),
        }
    }
}

impl Default for Case {
    fn default() -> Self {
        Case::bench(&[])
    }
}

impl fmt::Display for Case {
    fn fmt(&self, f: &mut fmt::Formatter<'_>) -> fmt::Result {
        let Case {
            geometry,
            state,
            cells,
            cache,
            counts,
            room,
            log,
        } = self;
        writeln!(f, "geometry: {geometry:?}")?;
        writeln!(f, "state:    {state:?}")?;
        writeln!(f, "cells:    {cells}")?;
        writeln!(f, "cache:    {cache}")?;
        writeln!(f, "counts:   {counts}")?;
        writeln!(f, "room:     {room} output bytes")?;
        writeln!(f, "log, for `xxd -r -p`:")?;
        writeln!(f, "{}", hex(log))
    }
}

/// An output buffer whose bytes show whether they were written.
pub fn untouched_output(room: usize) -> Vec<u8> {
    (0..room)
        .map(|place| (place as u8).wrapping_mul(7) ^ 0x31)
        .collect()
}

/// Bytes in hex, two digits each.
pub fn hex(bytes: &[u8]) -> String {
    bytes.iter().map(|byte| format!("{byte:02x}")).collect()
}

/// The memory and the output of a run.
#[derive(Clone, Debug, Default, PartialEq, Eq)]
pub struct Buffers {
    /// The cells.
    pub cells: Vec<u8>,
    /// The cache register.
    pub cache: Vec<u8>,
    /// The page counts.
    pub counts: Vec<u8>,
    /// The output.
    pub out: Vec<u8>,
}

impl Buffers {
    /// The buffers with their names, the small ones first.
    pub fn named(&self) -> [(&'static str, &[u8]); 4] {
        let Buffers {
            cells,
            cache,
            counts,
            out,
        } = self;
        [
            ("out", out),
            ("cache", cache),
            ("counts", counts),
            ("cells", cells),
        ]
    }

    /// The same to be written to.
    pub fn named_mut(&mut self) -> [(&'static str, &mut Vec<u8>); 4] {
        let Buffers {
            cells,
            cache,
            counts,
            out,
        } = self;
        [
            ("out", out),
            ("cache", cache),
            ("counts", counts),
            ("cells", cells),
        ]
    }

    /// The memory and the output, lent to the library.
    pub fn lent(&mut self) -> (lent::Memory<'_>, &mut [u8]) {
        let memory = lent::Memory {
            cells: &mut self.cells,
            cache: &mut self.cache,
            counts: &mut self.counts,
        };
        (memory, &mut self.out)
    }

    /// The memory and the output, lent to the paper's model.
    pub fn lent_to_paper(&mut self) -> (paper::Memory<'_>, &mut [u8]) {
        let memory = paper::Memory {
            cells: &mut self.cells,
            cache: &mut self.cache,
            counts: &mut self.counts,
        };
        (memory, &mut self.out)
    }
}

/// All that comes out of a run.
#[derive(Clone, Debug, PartialEq, Eq)]
pub struct Outcome {
    /// What the run answered.
    pub answer: Answer,
    /// The memory and the output after it.
    pub buffers: Buffers,
}

/// Something that runs a case.
pub type Subject = fn(&Case) -> Outcome;

/// The paper's model on a case.
pub fn model(case: &Case) -> Outcome {
    let mut buffers = case.buffers();
    let answer = model_on(case, &mut buffers);
    Outcome { answer, buffers }
}

/// The paper's model on a case, in other memory than the case's own.
pub fn model_on(case: &Case, buffers: &mut Buffers) -> Answer {
    let (memory, out) = buffers.lent_to_paper();
    let (part, state) = (case.geometry.into(), case.state.into());
    paper::run(&part, state, &case.log, memory, out).into()
}
