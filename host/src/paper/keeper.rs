//! Document 02, item 9: four cores at one chip select, and a keeper of the bus.
//!
//! [`Bus`] says it in the request's own words, with the queues of the standard library. [`Keeper`]
//! is a keeper as it is handed over, byte by byte and sound or not; a sound one becomes a `Bus`, and
//! the bus is laid out in its bytes again.

use std::collections::VecDeque;

/// How many cores there are.
const CORES: usize = 4;

/// How many transfers a queue holds.
const ROOM: usize = 8;

/// The numbers of refusal.
const BAD_CORE: u8 = 14;
const QUEUE_FULL: u8 = 15;
const ALL_EMPTY: u8 = 16;
const BAD_KEEPER: u8 = 20;

/// Four queues of waiting transfers, the front of each first, and the core granted last.
#[derive(Clone, Debug, PartialEq, Eq)]
pub struct Bus {
    pub queues: [VecDeque<u8>; CORES],
    pub last: u8,
}

impl Bus {
    /// Nothing waits. The core before core 0 counts as granted last, so that the first grant looks
    /// from core 0.
    pub fn new() -> Bus {
        Bus {
            queues: Default::default(),
            last: 3,
        }
    }

    /// Add a transfer at the back of a core's queue.
    pub fn add(&mut self, core: u8, tag: u8) -> Result<(), u8> {
        let queue = self.queues.get_mut(usize::from(core)).ok_or(BAD_CORE)?;
        if queue.len() == ROOM {
            return Err(QUEUE_FULL);
        }
        queue.push_back(tag);
        Ok(())
    }

    /// Take the front of the first queue that is not empty, from the core after the last granted.
    /// Gives the core and the tag.
    pub fn grant(&mut self) -> Result<(u8, u8), u8> {
        let mut core = self.last;
        for _ in 0..CORES {
            core = if core == 3 { 0 } else { core + 1 };
            if let Some(tag) = self.queues[usize::from(core)].pop_front() {
                self.last = core;
                return Ok((core, tag));
            }
        }
        Err(ALL_EMPTY)
    }
}

impl Default for Bus {
    fn default() -> Self {
        Bus::new()
    }
}

/// A queue as it is handed over: `length` tags from place `head` on, round from place 7 to 0.
#[derive(Clone, Copy, Debug, PartialEq, Eq)]
pub struct Queue {
    pub tags: [u8; ROOM],
    pub head: u8,
    pub length: u8,
}

/// A keeper as it is handed over, sound or not.
#[derive(Clone, Copy, Debug, PartialEq, Eq)]
pub struct Keeper {
    pub queues: [Queue; CORES],
    pub last: u8,
}

impl Keeper {
    /// The new keeper: all bytes 0 but `last`.
    pub const NEW: Keeper = Keeper {
        queues: [Queue {
            tags: [0; ROOM],
            head: 0,
            length: 0,
        }; CORES],
        last: 3,
    };

    /// Add a transfer. A refused adding leaves every byte as it was.
    pub fn add(&mut self, core: u8, tag: u8) -> Result<(), u8> {
        let mut bus = self.bus().ok_or(BAD_KEEPER)?;
        bus.add(core, tag)?;
        self.lay_out(&bus);
        Ok(())
    }

    /// Take the transfer that is next. A refused grant leaves every byte as it was.
    pub fn grant(&mut self) -> Result<(u8, u8), u8> {
        let mut bus = self.bus().ok_or(BAD_KEEPER)?;
        let (core, tag) = bus.grant()?;
        let head = &mut self.queues[usize::from(core)].head;
        *head = if *head == 7 { 0 } else { *head + 1 };
        self.lay_out(&bus);
        Ok((core, tag))
    }

    /// What waits, and the core granted last; none if the keeper is not sound.
    pub fn bus(&self) -> Option<Bus> {
        let in_range = |queue: &Queue| queue.head <= 7 && queue.length <= 8;
        let sound = self.last <= 3 && self.queues.iter().all(in_range);
        sound.then(|| Bus {
            queues: self.queues.map(|queue| queue.waiting().collect()),
            last: self.last,
        })
    }

    /// Write what a bus has: each tag that waits at its place from the head on. The other places
    /// keep what they hold.
    fn lay_out(&mut self, bus: &Bus) {
        for (queue, waiting) in self.queues.iter_mut().zip(&bus.queues) {
            for (place, &tag) in queue.places().zip(waiting) {
                queue.tags[place] = tag;
            }
            queue.length = waiting.len() as u8;
        }
        self.last = bus.last;
    }
}

impl Queue {
    /// All places, from the head on, round from 7 to 0.
    fn places(&self) -> impl Iterator<Item = usize> {
        let head = usize::from(self.head);
        (head..ROOM).chain(0..head)
    }

    /// The tags that wait, the front first.
    fn waiting(self) -> impl Iterator<Item = u8> {
        let places = self.places().take(self.length.into());
        places.map(move |place| self.tags[place])
    }
}
