//! A snapshot and a live feed, joined into one market.

use itchsnap_sys as sys;

use crate::handle::Handle;
use crate::market::snapshot_of;
use crate::{Reason, Refused, Snapshot, View};

/// What a joiner did with a message.
#[derive(Clone, Copy, Debug, PartialEq, Eq, Hash)]
pub enum Step {
    /// It was kept, and waits.
    Kept,
    /// It was applied, and then the waiting messages up to the one before `next`.
    Applied {
        /// The number of the next message.
        next: u64,
    },
    /// The market already contains it.
    Old,
    /// It was a message of the snapshot, and more follow.
    More,
    /// It ended the snapshot, and the waiting messages up to the one before `next` were applied.
    Joined {
        /// The number of the next message.
        next: u64,
    },
}

/// Joins a snapshot and the messages of a live feed into one market. Messages may arrive in any order, be lost and be
/// repeated.
///
/// ```
/// use itchsnap::{Day, Joiner, Part, Step};
///
/// let day = Day::read("../../examples/book.itch")?;
/// let snapshot = day.snapshot(&Part::all().after(5))?;
/// let mut joiner = Joiner::new(1000)?;
/// for (number, payload) in (1..).zip(day.messages()) {
///     assert_eq!(joiner.live(number, payload)?, Step::Kept);
/// }
/// let joined = joiner.take(&snapshot)?;
/// assert_eq!(joined, Step::Joined { next: 12 });
/// assert_eq!(joiner.snapshot()?, day.snapshot(&Part::all())?);
/// # Ok::<(), Box<dyn std::error::Error>>(())
/// ```
#[derive(Debug)]
pub struct Joiner {
    handle: Handle,
}

impl Joiner {
    /// Makes a joiner in which at most this many messages may wait.
    pub fn new(waiting: usize) -> Result<Joiner, Refused> {
        // SAFETY: the handle is empty, and nothing else uses it.
        Joiner::filled(|handle| unsafe { sys::itchsnap_joiner_new(handle, waiting) })
    }

    /// The same for some locates: messages at others are decoded and counted, but change nothing else.
    pub fn only(waiting: usize, locates: &[u16]) -> Result<Joiner, Refused> {
        // SAFETY: the handle is empty, and nothing else uses it; the slice is readable for its length.
        Joiner::filled(|handle| unsafe { sys::itchsnap_joiner_new_only(handle, waiting, locates.as_ptr(), locates.len()) })
    }

    fn filled(fill: impl FnOnce(*mut sys::itchsnap_handle) -> sys::itchsnap_answer) -> Result<Joiner, Refused> {
        let handle = Handle::none();
        let answer = fill(handle.at());
        match answer.code {
            sys::ITCHSNAP_OK => Ok(Joiner { handle }),
            code => Err(Refused::of(code, answer.detail)),
        }
    }

    /// Takes the message with this number of the live feed.
    pub fn live(&mut self, number: u64, payload: &[u8]) -> Result<Step, Refused> {
        // SAFETY: only this joiner uses the handle; the slice is readable for its length.
        step(unsafe { sys::itchsnap_joiner_live(self.handle.at(), number, payload.as_ptr(), payload.len()) })
    }

    /// Takes the next message of the snapshot, the last of which is End of Snapshot.
    pub fn snapshot_message(&mut self, payload: &[u8]) -> Result<Step, Refused> {
        // SAFETY: only this joiner uses the handle; the slice is readable for its length.
        step(unsafe { sys::itchsnap_joiner_snapshot(self.handle.at(), payload.as_ptr(), payload.len()) })
    }

    /// Takes each message of a snapshot, and returns the result of the last one, [`Step::Joined`].
    pub fn take(&mut self, snapshot: &Snapshot) -> Result<Step, Refused> {
        let mut last = Step::More;
        for payload in snapshot.messages() {
            last = self.snapshot_message(payload)?;
        }
        Ok(last)
    }

    /// Drops an unfinished or broken snapshot, and keeps the waiting messages.
    pub fn restart(&mut self) {
        // SAFETY: only this joiner uses the handle.
        unsafe { sys::itchsnap_joiner_restart(self.handle.at()) };
    }

    /// Applies the waiting messages, after a lack of memory prevented that.
    pub fn resume(&mut self) -> Result<Step, Refused> {
        // SAFETY: only this joiner uses the handle.
        step(unsafe { sys::itchsnap_joiner_resume(self.handle.at()) })
    }

    /// Returns the number of the next message of the feed, if the snapshot is joined.
    pub fn next_number(&self) -> Option<u64> {
        // SAFETY: only this joiner uses the handle.
        let next = unsafe { sys::itchsnap_joiner_next(self.handle.at()) };
        (next.code == sys::ITCHSNAP_OK).then_some(next.count)
    }

    /// Returns the number of waiting messages.
    pub fn waiting(&self) -> u64 {
        // SAFETY: only this joiner uses the handle.
        unsafe { sys::itchsnap_joiner_waiting(self.handle.at()) }.count
    }

    /// Returns the market for look-ups, if the snapshot is joined.
    pub fn view(&self) -> Option<View<'_>> {
        self.next_number().map(|_| View::of(&self.handle))
    }

    /// Returns the snapshot of the market, with the number of the next message.
    pub fn snapshot(&self) -> Result<Snapshot, Refused> {
        let next = self.next_number().ok_or_else(|| Refused::of(sys::ITCHSNAP_NOT_JOINED, 0))?;
        snapshot_of(&self.handle, next)
    }
}

/// Returns what was done with a message, or the reason why it was not taken.
fn step(answer: sys::itchsnap_joined) -> Result<Step, Refused> {
    let refused = Refused::of(answer.code, answer.detail);
    match answer.code {
        sys::ITCHSNAP_KEPT => Ok(Step::Kept),
        sys::ITCHSNAP_APPLIED => Ok(Step::Applied { next: answer.number }),
        sys::ITCHSNAP_OLD => Ok(Step::Old),
        sys::ITCHSNAP_MORE => Ok(Step::More),
        sys::ITCHSNAP_JOINED => Ok(Step::Joined { next: answer.number }),
        sys::ITCHSNAP_HALTED | sys::ITCHSNAP_BAD_SNAPSHOT => {
            Err(Refused { cause: Some(Reason::of(answer.cause)), ..refused.at(answer.number) })
        }
        sys::ITCHSNAP_FULL | sys::ITCHSNAP_CONFLICT | sys::ITCHSNAP_TAKEN_NO_MEMORY => Err(refused.at(answer.number)),
        _ => Err(refused),
    }
}
