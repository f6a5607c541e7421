//! Four cores at one chip select: whose transfer is next.

use crate::raw::RawKeeper;
use crate::{ffi, Refusal};

/// A keeper of the bus: for each of four cores a queue of at most eight waiting transfers, and the
/// core that was granted last.
///
/// A transfer is a tag of one byte, which means what the caller wants it to mean. No device is
/// touched: a grant says which transfer may go to the device, and the caller sends it.
///
/// Grants go round. A core that has a transfer waiting is granted within the next four grants,
/// whatever others add, and a transfer with n before it in its queue within the next 4 * (n + 1).
/// Each transfer is granted at most once, in its core's order.
///
/// It is sound from its making on, so that it is never [`Refusal::BadKeeper`]. Two are equal where
/// every byte of them is, those that no call looks at too.
///
/// Four cores share one device. Each transfer waits its turn and then goes to the device whole:
///
/// ```
/// use sleetanvil::{Device, Geometry, Grant, Keeper, Refusal};
///
/// // What the cores want to send; a tag is a place in this list.
/// let transfers: [&[u8]; 6] = [
///     &[0x1F, 0xA0, 0x00],             // core 0: all blocks unlocked,
///     &[0x06],                         // writing enabled,
///     &[0xD8, 0x00, 0x00, 0x04],       // and block 1 erased
///     &[0x9F, 0x00, 0x00, 0x00],       // core 1: the identity
///     &[0x03, 0x00, 0x00, 0x00, 0x00], // core 2: the first byte of the cache register
///     &[0x0F, 0xC0, 0x00],             // core 3: the status
/// ];
/// let mut device = Device::power_up(Geometry::bench())?;
/// device.work(20);
///
/// let mut keeper = Keeper::new();
/// for (core, tag) in [(0, 0), (0, 1), (0, 2), (3, 5), (1, 3), (2, 4)] {
///     keeper.add(core, tag)?;
/// }
/// let mut sent = Vec::new();
/// while let Ok(Grant { core, tag }) = keeper.grant() {
///     let out = device.transfer(transfers[usize::from(tag)]);
///     sent.push((core, tag, out[out.len() - 1]));
/// }
/// // Each core once, before core 0 comes again.
/// assert_eq!(
///     sent,
///     [(0, 0, 0xFF), (1, 3, 0x01), (2, 4, 0xFF), (3, 5, 0x00), (0, 1, 0xFF), (0, 2, 0xFF)]
/// );
/// assert!(device.state().is_busy());
/// assert_eq!(keeper.grant(), Err(Refusal::AllEmpty));
/// # Ok::<(), Refusal>(())
/// ```
#[derive(Clone, Copy, Debug, PartialEq, Eq)]
pub struct Keeper {
    raw: RawKeeper,
}

/// A transfer that may go to the device now.
#[derive(Clone, Copy, Debug, PartialEq, Eq, Hash)]
pub struct Grant {
    /// Whose transfer it is, 0 to 3.
    pub core: u8,
    /// The transfer, as it was added.
    pub tag: u8,
}

impl Keeper {
    /// Four empty queues. The first grant looks from core 0.
    pub fn new() -> Self {
        Keeper {
            raw: ffi::keeper_new(),
        }
    }

    /// A keeper as the C interface has it. One that is not sound is [`Refusal::BadKeeper`].
    pub fn from_raw(raw: RawKeeper) -> Result<Self, Refusal> {
        // Every call judges the keeper first. Of this grant nothing else is kept.
        match Refusal::of_answer(ffi::keeper_grant(raw).refusal) {
            Some(Refusal::BadKeeper) => Err(Refusal::BadKeeper),
            _ => Ok(Keeper { raw }),
        }
    }

    /// The keeper as the C interface has it.
    pub fn raw(&self) -> RawKeeper {
        self.raw
    }

    /// Add a transfer at the back of a core's queue.
    ///
    /// It is [`Refusal::BadCore`] for a core above 3, and [`Refusal::QueueFull`] exactly when eight
    /// transfers wait in that queue. The keeper is then as it was.
    pub fn add(&mut self, core: u8, tag: u8) -> Result<(), Refusal> {
        let added = ffi::keeper_add(self.raw, core, tag);
        self.raw = added.keeper;
        Refusal::of_answer(added.refusal).map_or(Ok(()), Err)
    }

    /// Take the transfer that is next: the front of the first queue that is not empty, from the core
    /// after the last granted, round from 3 to 0.
    ///
    /// It is [`Refusal::AllEmpty`] where no transfer waits. The keeper is then as it was.
    pub fn grant(&mut self) -> Result<Grant, Refusal> {
        let granted = ffi::keeper_grant(self.raw);
        self.raw = granted.keeper;
        let grant = Grant {
            core: granted.core,
            tag: granted.tag,
        };
        Refusal::of_answer(granted.refusal).map_or(Ok(grant), Err)
    }

    /// The transfers that wait in a core's queue, the front first; none for a core above 3.
    pub fn waiting(&self, core: u8) -> impl Iterator<Item = u8> {
        let queue = self.raw.queues.get(usize::from(core)).copied();
        queue.into_iter().flat_map(|queue| {
            let all = queue.tags.into_iter().cycle();
            all.skip(queue.head.into()).take(queue.length.into())
        })
    }

    /// The core that was granted last; 3 in a new keeper.
    pub fn last(&self) -> u8 {
        self.raw.last
    }
}

impl Default for Keeper {
    fn default() -> Self {
        Keeper::new()
    }
}
