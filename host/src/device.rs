//! A device that owns its state and memory.

use std::fmt;

use crate::lent::{self, Answer, Memory};
use crate::{ffi, Geometry, Refusal, State};

/// A serial NAND flash with cells, cache register, page counts and state of its own.
///
/// It is sound from its making on, so its bus events cannot be refused, and a run can be refused
/// only for its log or its output room.
#[derive(Clone, PartialEq, Eq)]
pub struct Device {
    geometry: Geometry,
    state: State,
    cells: Vec<u8>,
    cache: Vec<u8>,
    counts: Vec<u8>,
}

/// Part, state and the lengths of the memory: its bytes would be millions.
impl fmt::Debug for Device {
    fn fmt(&self, f: &mut fmt::Formatter<'_>) -> fmt::Result {
        let bytes = |memory: &[u8]| format!("{} bytes", memory.len());
        f.debug_struct("Device")
            .field("geometry", &self.geometry)
            .field("state", &self.state)
            .field("cells", &bytes(&self.cells))
            .field("cache", &bytes(&self.cache))
            .field("counts", &bytes(&self.counts))
            .finish()
    }
}

impl Device {
    /// A new device at power-up: cells and cache register FFh, page counts 0.
    pub fn power_up(geometry: Geometry) -> Result<Self, Refusal> {
        let cells = vec![0xFF; geometry.cells_len()];
        let counts = vec![0; geometry.counts_len()];
        Device::power_up_with(geometry, cells, counts)
    }

    /// A device at power-up whose cells and page counts outlived the loss of power.
    pub fn power_up_with(
        geometry: Geometry,
        cells: Vec<u8>,
        counts: Vec<u8>,
    ) -> Result<Self, Refusal> {
        let cache = vec![0xFF; geometry.cache_len()];
        Device::from_parts(geometry, State::power_up(), cells, cache, counts)
    }

    /// A device in any state. What is not sound is refused, with the numbers 1 to 5.
    ///
    /// # Panics
    ///
    /// Where the archive that was linked is of another version than this package.
    pub fn from_parts(
        geometry: Geometry,
        state: State,
        cells: Vec<u8>,
        cache: Vec<u8>,
        counts: Vec<u8>,
    ) -> Result<Self, Refusal> {
        let mut device = Device {
            geometry,
            state,
            cells,
            cache,
            counts,
        };
        ffi::assert_version();
        device.run(&[], &mut []).result()?;
        Ok(device)
    }

    /// The part.
    pub fn geometry(&self) -> &Geometry {
        &self.geometry
    }

    /// The state.
    pub fn state(&self) -> &State {
        &self.state
    }

    /// The status register, C0h.
    pub fn status(&self) -> u8 {
        self.state.c0
    }

    /// The cell array. The cell of row r and column c is at r·P + c.
    pub fn cells(&self) -> &[u8] {
        &self.cells
    }

    /// The cache register. A cache read (03h, 0Bh) goes round in it: behind its last byte comes its
    /// first again. From a column outside it a read gives FFh throughout.
    pub fn cache(&self) -> &[u8] {
        &self.cache
    }

    /// How often each page was programmed since the last erase of its block.
    pub fn counts(&self) -> &[u8] {
        &self.counts
    }

    /// The cells, to be changed by hand: a fault that no driver makes, an image put in place.
    pub fn cells_mut(&mut self) -> &mut [u8] {
        &mut self.cells
    }

    /// The cache register, to be changed by hand.
    pub fn cache_mut(&mut self) -> &mut [u8] {
        &mut self.cache
    }

    /// The page counts, to be changed by hand.
    pub fn counts_mut(&mut self) -> &mut [u8] {
        &mut self.counts
    }

    /// What [`Device::from_parts`] takes: part, state, cells, cache register and page counts.
    pub fn into_parts(self) -> (Geometry, State, Vec<u8>, Vec<u8>, Vec<u8>) {
        (
            self.geometry,
            self.state,
            self.cells,
            self.cache,
            self.counts,
        )
    }

    /// The cells and the page counts, which outlive a loss of power.
    pub fn into_cells_and_counts(self) -> (Vec<u8>, Vec<u8>) {
        (self.cells, self.counts)
    }

    /// Run a log. The output takes one byte per shift.
    pub fn run(&mut self, log: &[u8], out: &mut [u8]) -> Answer {
        self.call(|geometry, state, memory| lent::run(geometry, state, log, memory, out))
    }

    /// Run a log, and give its output beside the answer: one byte per shift done.
    pub fn replay(&mut self, log: &[u8]) -> (Answer, Vec<u8>) {
        // A shift takes two bytes of the log, so this is room for all of them.
        let mut out = vec![0xFF; log.len() / 2];
        let answer = self.run(log, &mut out);
        out.truncate(answer.written);
        (answer, out)
    }

    /// Run a log, and say whether it was orderly (see [`lent::judge`]).
    pub fn judge(&mut self, log: &[u8], out: &mut [u8]) -> (Answer, bool) {
        let mut orderly = false;
        let answer = self.call(|geometry, state, memory| {
            let (answer, judged) = lent::judge(geometry, state, log, memory, out);
            orderly = judged;
            answer
        });
        (answer, orderly)
    }

    /// Chip select falls.
    #[inline]
    pub fn select(&mut self) {
        self.event(lent::select);
    }

    /// One byte in on DI; the byte out on DO.
    #[inline]
    pub fn shift(&mut self, byte: u8) -> u8 {
        let mut out = [0xFF];
        self.event(|geometry, state, memory| lent::shift(geometry, state, byte, memory, &mut out));
        out[0]
    }

    /// Chip select rises.
    #[inline]
    pub fn deselect(&mut self) {
        self.event(lent::deselect);
    }

    /// A whole transfer: select, the bytes, deselect. Gives the bytes on DO.
    ///
    /// On a chip that is selected already the bytes continue the old transfer.
    pub fn transfer(&mut self, bytes: &[u8]) -> Vec<u8> {
        let mut out = vec![0xFF; bytes.len()];
        self.exchange(bytes, &mut out);
        out
    }

    /// The same with the bytes on DO put where the caller wants them.
    ///
    /// # Panics
    ///
    /// Where `out` has less room than there are `bytes`; nothing is done then.
    #[inline]
    pub fn exchange(&mut self, bytes: &[u8], out: &mut [u8]) {
        assert!(bytes.len() <= out.len(), "room for a byte out for each in");
        self.event(|geometry, state, memory| lent::transfer(geometry, state, bytes, memory, out));
    }

    /// A piece of a transfer: the bytes alone, with chip select as it is. Gives the bytes on DO.
    pub fn shifts(&mut self, bytes: &[u8]) -> Vec<u8> {
        let mut out = vec![0xFF; bytes.len()];
        let to = &mut out;
        self.event(|geometry, state, memory| lent::shifts(geometry, state, bytes, memory, to));
        out
    }

    /// The byte that the next shift will put on DO, whatever is shifted in.
    pub fn peek(&self) -> u8 {
        lent::peek(&self.geometry, self.state, &self.cache)
            .expect("a sound device is never refused")
    }

    /// How many units the operation in progress has left; 0 exactly while the array is idle.
    pub fn units_left(&self) -> usize {
        self.state.units_left(&self.geometry)
    }

    /// Array work of any number of units.
    #[inline]
    pub fn work(&mut self, units: u64) {
        self.event(|geometry, state, memory| lent::work(geometry, state, units, memory));
    }

    /// WP# at a level.
    pub fn level(&mut self, high: bool) {
        self.event(|geometry, state, memory| lent::level(geometry, state, high.into(), memory));
    }

    /// Power lost and back.
    pub fn power(&mut self) {
        self.event(lent::power);
    }

    /// An event that a sound device always takes.
    #[inline]
    fn event(&mut self, event: impl FnOnce(&Geometry, State, &mut Memory<'_>) -> Answer) {
        let refusal = self.call(event).refusal;
        assert_eq!(refusal, None, "an event of a sound device is never refused");
    }

    #[inline]
    fn call(&mut self, call: impl FnOnce(&Geometry, State, &mut Memory<'_>) -> Answer) -> Answer {
        let mut memory = Memory {
            cells: &mut self.cells,
            cache: &mut self.cache,
            counts: &mut self.counts,
        };
        let answer = call(&self.geometry, self.state, &mut memory);
        self.state = answer.state;
        answer
    }
}
