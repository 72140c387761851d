//! Markets, to which messages are applied.

use itchsnap_sys as sys;

use crate::handle::{Handle, listed};
use crate::{Refused, Snapshot, View};

/// A market: messages in, look-ups and snapshots out. It numbers the messages that it applies, starting with 1.
///
/// ```
/// use itchsnap::{Day, Market, Side};
///
/// let day = Day::read("../../examples/book.itch")?;
/// let mut market = Market::new()?;
/// for payload in day.messages() {
///     market.apply(payload)?;
/// }
/// let best = market.view().best(1, Side::Sell).unwrap();
/// assert_eq!((best.reference, best.price.to_string()), (4, "150.0800".to_string()));
/// assert_eq!(market.next_number(), 12);
/// # Ok::<(), Box<dyn std::error::Error>>(())
/// ```
#[derive(Debug)]
pub struct Market {
    handle: Handle,
    next: u64,
}

/// The result of applying a piece of a day file.
#[derive(Clone, Copy, Debug, PartialEq, Eq)]
pub struct Applied {
    /// The number of messages applied.
    pub messages: u64,
    /// The number of bytes of an unfinished block at the end: pass them again at the front of the next piece.
    pub unfinished: usize,
}

impl Market {
    /// An empty market.
    pub fn new() -> Result<Market, Refused> {
        let handle = Handle::none();
        // SAFETY: the handle is empty, and nothing else uses it.
        let answer = unsafe { sys::itchsnap_market_new(handle.at()) };
        match answer.code {
            sys::ITCHSNAP_OK => Ok(Market { handle, next: 1 }),
            code => Err(Refused::of(code, answer.detail)),
        }
    }

    /// Makes the market of a snapshot file's bytes, whose messages may be in any order that follows the order rules.
    pub fn parse(snapshot: &[u8]) -> Result<Market, Refused> {
        let handle = Handle::none();
        // SAFETY: the handle is empty, and nothing else uses it; the slice is readable for its length.
        let loaded = unsafe { sys::itchsnap_market_load(handle.at(), snapshot.as_ptr(), snapshot.len()) };
        let refused = Refused::of(loaded.code, loaded.detail);
        match loaded.code {
            sys::ITCHSNAP_OK => Ok(Market { handle, next: loaded.next }),
            _ if loaded.place != 0 => Err(refused.at(loaded.place)),
            _ => Err(refused),
        }
    }

    /// The number of the next message.
    pub fn next_number(&self) -> u64 {
        self.next
    }

    /// Applies the message of a payload. If it is refused, the market is unchanged.
    pub fn apply(&mut self, payload: &[u8]) -> Result<(), Refused> {
        // SAFETY: only this market uses the handle; the slice is readable for its length.
        let answer = unsafe { sys::itchsnap_market_apply(self.handle.at(), payload.as_ptr(), payload.len()) };
        if answer.code != sys::ITCHSNAP_OK {
            return Err(Refused::of(answer.code, answer.detail).at(self.next));
        }
        self.next += 1;
        Ok(())
    }

    /// Applies the messages of a piece of a day file, which may end within a block. If a message is refused, those before it
    /// stay applied.
    pub fn apply_blocks(&mut self, blocks: &[u8]) -> Result<Applied, Refused> {
        // SAFETY: only this market uses the handle; the slice is readable for its length.
        let applied = unsafe { sys::itchsnap_market_apply_blocks(self.handle.at(), blocks.as_ptr(), blocks.len()) };
        self.next += applied.count;
        match applied.code {
            sys::ITCHSNAP_OK => Ok(Applied { messages: applied.count, unfinished: 0 }),
            // The bytes of the unfinished block are part of the piece, so their number fits.
            sys::ITCHSNAP_TRUNCATED => Ok(Applied { messages: applied.count, unfinished: applied.detail as usize }),
            code => Err(Refused::of(code, applied.detail).at(self.next)),
        }
    }

    /// Returns the market for look-ups. The first one by price after a message sorts the orders. Once such look-ups are frequent, one of them
    /// builds an index instead, and messages take longer from then on.
    pub fn view(&self) -> View<'_> {
        View::of(&self.handle)
    }

    /// Returns the canonical snapshot, with the number of the next message.
    pub fn snapshot(&self) -> Result<Snapshot, Refused> {
        snapshot_of(&self.handle, self.next)
    }

    /// Returns the snapshot of the part of the market at some locates.
    pub fn snapshot_only(&self, locates: &[u16]) -> Result<Snapshot, Refused> {
        let write = |out, len| {
            // SAFETY: only this market uses the handle; the slice is readable and the memory writable for their lengths.
            unsafe { sys::itchsnap_snapshot_only(self.handle.at(), self.next, locates.as_ptr(), locates.len(), out, len) }
        };
        listed(write).map(Snapshot::canonical)
    }
}

/// Returns the canonical snapshot of a handle's market, with the number of the next message.
pub(crate) fn snapshot_of(handle: &Handle, next: u64) -> Result<Snapshot, Refused> {
    // SAFETY: only the caller uses the handle, and the memory is writable for its length.
    listed(|out, len| unsafe { sys::itchsnap_snapshot(handle.at(), next, out, len) }).map(Snapshot::canonical)
}
