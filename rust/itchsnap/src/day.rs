//! Day files.

use std::borrow::Cow;
use std::fs;
use std::io;
use std::path::Path;

use itchsnap_sys as sys;

use crate::handle::{is_found, room};
use crate::{Refused, Snapshot};

/// The length of End of Snapshot with its length field. Apart from this, no snapshot is longer than its day.
const END_BLOCK: usize = 23;

/// A day file: the messages of a feed, in order, each after its length in two bytes.
///
/// ```
/// use itchsnap::{Day, Part};
///
/// let day = Day::read("../../examples/book.itch")?;
/// let early = day.snapshot(&Part::all().after(5))?;
/// assert_eq!(early.next_number(), 6);
/// assert_eq!(early, day.snapshot(&Part::all().until(6))?);
/// assert_eq!(day.messages().count(), 11);
/// # Ok::<(), Box<dyn std::error::Error>>(())
/// ```
#[derive(Clone, Debug, PartialEq, Eq)]
pub struct Day<'a> {
    bytes: Cow<'a, [u8]>,
}

/// The part of a day, and the locates in it, for which to make a snapshot.
#[derive(Clone, Debug, PartialEq, Eq)]
pub struct Part<'a> {
    after: u64,
    until: u64,
    only: Option<&'a [u16]>,
}

impl<'a> Part<'a> {
    /// The entire day.
    pub fn all() -> Part<'static> {
        Part { after: sys::ITCHSNAP_ALL, until: sys::ITCHSNAP_ALL, only: None }
    }

    /// Only this many messages from the start.
    pub fn after(self, messages: u64) -> Part<'a> {
        Part { after: messages, ..self }
    }

    /// Only the messages before the first whose timestamp is this time or later, in nanoseconds since midnight.
    pub fn until(self, nanoseconds: u64) -> Part<'a> {
        Part { until: nanoseconds, ..self }
    }

    /// Only these locates. Every message of the part must still follow the order rules.
    pub fn only<'b>(self, locates: &'b [u16]) -> Part<'b> {
        Part { after: self.after, until: self.until, only: Some(locates) }
    }
}

impl<'a> Day<'a> {
    /// Reads a file into memory.
    pub fn read(path: impl AsRef<Path>) -> io::Result<Day<'static>> {
        Ok(Day { bytes: Cow::Owned(fs::read(path)?) })
    }

    /// Makes a day of bytes in memory, such as those of a mapped file. They are not copied.
    pub fn of(bytes: &'a [u8]) -> Day<'a> {
        Day { bytes: Cow::Borrowed(bytes) }
    }

    /// The bytes of the file.
    pub fn as_bytes(&self) -> &[u8] {
        &self.bytes
    }

    /// Iterates over the payloads of the messages, in order, up to the end of the file or to an empty or unfinished block.
    pub fn messages(&self) -> Messages<'_> {
        messages(&self.bytes)
    }

    /// Returns the number of messages, if all of them follow the order rules.
    pub fn check(&self) -> Result<u64, Refused> {
        let bytes = self.as_bytes();
        // SAFETY: the slice is readable for its length, and its pointer is not null.
        let outcome = unsafe { sys::itchsnap_check(bytes.as_ptr(), bytes.len()) };
        counted(&outcome).map(|()| outcome.count)
    }

    /// Returns the canonical snapshot of the market after a part of the day.
    pub fn snapshot(&self, part: &Part<'_>) -> Result<Snapshot, Refused> {
        let mut out = room(self.bytes.len() + END_BLOCK)?;
        let mut outcome = self.snapped(part, &mut out);
        if outcome.code == sys::ITCHSNAP_NO_ROOM {
            out = room(outcome.len)?;
            outcome = self.snapped(part, &mut out);
        }
        counted(&outcome)?;
        // SAFETY: the library has written as many bytes as it reports, at most as many as there was room for.
        unsafe { out.set_len(outcome.len) };
        out.shrink_to_fit();
        Ok(Snapshot::canonical(out))
    }

    /// Writes the snapshot of a part into the spare capacity of a vector.
    fn snapped(&self, part: &Part<'_>, out: &mut Vec<u8>) -> sys::itchsnap_outcome {
        let (day, len) = (self.bytes.as_ptr(), self.bytes.len());
        let (to, to_len) = (out.as_mut_ptr(), out.capacity());
        // SAFETY: the slices are readable for their lengths, the vector is writable for its capacity, and no pointer is null.
        unsafe {
            match part.only {
                None => sys::itchsnap_snap(day, len, part.after, part.until, to, to_len),
                Some(it) => sys::itchsnap_snap_only(day, len, part.after, part.until, it.as_ptr(), it.len(), to, to_len),
            }
        }
    }

    /// Returns the number of bytes before the first message whose timestamp is this time or later, in nanoseconds since midnight,
    /// or `None` if there is no such message.
    pub fn first_at(&self, nanoseconds: u64) -> Result<Option<u64>, Refused> {
        // SAFETY: the slice is readable for its length, and its pointer is not null.
        let found = unsafe { sys::itchsnap_first_at(self.bytes.as_ptr(), self.bytes.len(), nanoseconds) };
        if found.code == sys::ITCHSNAP_OUT_OF_MEMORY {
            return Err(Refused::of(found.code, 0));
        }
        Ok(is_found(found.code).then_some(found.count))
    }

    /// Compares the markets in which two days end. Returns the place, counted from 1, of the first message in which their snapshots
    /// differ, or `None` if the markets are the same.
    pub fn compare(&self, other: &Day<'_>) -> Result<Option<u64>, Refused> {
        let (first, second) = (self.as_bytes(), other.as_bytes());
        // SAFETY: the slices are readable for their lengths, and their pointers are not null.
        let compared = unsafe { sys::itchsnap_compare(first.as_ptr(), first.len(), second.as_ptr(), second.len()) };
        match compared.code {
            sys::ITCHSNAP_OK => Ok((compared.place != 0).then_some(compared.place)),
            code => {
                let refused = Refused::of(code, compared.detail).at(compared.count + 1);
                Err(Refused { file: Some(compared.file), ..refused })
            }
        }
    }
}

/// Checks the result of a call over a day. If it failed, the refused message is the one after those accepted.
fn counted(outcome: &sys::itchsnap_outcome) -> Result<(), Refused> {
    match outcome.code {
        sys::ITCHSNAP_OK => Ok(()),
        code => Err(Refused::of(code, outcome.detail).at(outcome.count + 1)),
    }
}

/// The payloads of blocks, each after its length in two bytes: [`Day::messages`], or the messages of a snapshot.
pub fn messages(blocks: &[u8]) -> Messages<'_> {
    Messages { rest: blocks }
}

/// An iterator over the payloads of messages.
#[derive(Clone, Debug)]
pub struct Messages<'a> {
    rest: &'a [u8],
}

impl<'a> Iterator for Messages<'a> {
    type Item = &'a [u8];

    fn next(&mut self) -> Option<&'a [u8]> {
        let (length, after) = self.rest.split_first_chunk::<2>()?;
        let len = usize::from(u16::from_be_bytes(*length));
        if len == 0 || after.len() < len {
            self.rest = &[];
            return None;
        }
        let (payload, rest) = after.split_at(len);
        self.rest = rest;
        Some(payload)
    }
}

impl std::iter::FusedIterator for Messages<'_> {}
