//! Snapshots, as values.

use std::fmt;

use crate::{Market, Messages, Refused, messages};

/// The block of End of Snapshot, and its digits at the end.
const END_BLOCK: usize = 23;
const END_DIGITS: usize = 20;

/// The market at one message of a feed, as the canonical bytes from which it can be rebuilt.
///
/// Two snapshots are equal if and only if their markets are the same and they were taken at the same message number.
///
/// ```
/// use itchsnap::{Day, Part, Snapshot};
///
/// let snapshot = Day::read("../../examples/opening.itch")?.snapshot(&Part::all())?;
/// assert_eq!(snapshot.as_bytes(), std::fs::read("../../examples/opening.snap")?);
/// assert_eq!(Snapshot::parse(snapshot.as_bytes())?, snapshot);
/// assert_eq!(snapshot.next_number(), 6);
/// # Ok::<(), Box<dyn std::error::Error>>(())
/// ```
#[derive(Clone, PartialEq, Eq, Hash)]
pub struct Snapshot {
    bytes: Vec<u8>,
}

impl Snapshot {
    /// Reads the bytes of a snapshot file, whose messages may be in any order that follows the order rules, and puts them into
    /// canonical order.
    pub fn parse(bytes: &[u8]) -> Result<Snapshot, Refused> {
        Market::parse(bytes)?.snapshot()
    }

    /// Makes a snapshot from bytes that the library wrote.
    pub(crate) fn canonical(bytes: Vec<u8>) -> Snapshot {
        Snapshot { bytes }
    }

    /// The canonical bytes, including End of Snapshot.
    pub fn as_bytes(&self) -> &[u8] {
        &self.bytes
    }

    /// The canonical bytes, without a copy.
    pub fn into_bytes(self) -> Vec<u8> {
        self.bytes
    }

    /// The number of the first message of the feed that the snapshot does not contain.
    pub fn next_number(&self) -> u64 {
        let digits = &self.bytes[self.bytes.len() - END_DIGITS..];
        digits.iter().filter(|it| it.is_ascii_digit()).fold(0, |number, it| number * 10 + u64::from(it - b'0'))
    }

    /// Returns whether two snapshots have the same market, whatever their numbers.
    pub fn same_market(&self, other: &Snapshot) -> bool {
        let market = |it: &Snapshot| it.bytes.len() - END_BLOCK;
        self.bytes[..market(self)] == other.bytes[..market(other)]
    }

    /// Returns the snapshot reduced to these locates.
    pub fn only(&self, locates: &[u16]) -> Result<Snapshot, Refused> {
        self.market()?.snapshot_only(locates)
    }

    /// Returns the market of the snapshot.
    pub fn market(&self) -> Result<Market, Refused> {
        Market::parse(&self.bytes)
    }

    /// Iterates over the payloads of the messages, of which End of Snapshot is the last.
    pub fn messages(&self) -> Messages<'_> {
        messages(&self.bytes)
    }
}

impl fmt::Debug for Snapshot {
    fn fmt(&self, f: &mut fmt::Formatter<'_>) -> fmt::Result {
        write!(f, "Snapshot {{ next_number: {}, bytes: {} }}", self.next_number(), self.bytes.len())
    }
}

impl AsRef<[u8]> for Snapshot {
    fn as_ref(&self) -> &[u8] {
        &self.bytes
    }
}
