//! Why a call is refused.

use std::error::Error;
use std::fmt;

use itchsnap_sys as sys;

/// Declares the reasons, each with its code in `itchsnap.h` and its text.
macro_rules! reasons {
    ($($(#[$doc:meta])* $name:ident = $code:ident, $words:literal;)*) => {
        /// The reasons for which a call is refused.
        #[derive(Clone, Copy, Debug, PartialEq, Eq, Hash)]
        #[non_exhaustive]
        pub enum Reason {
            $($(#[$doc])* $name,)*
            /// A reason that this crate does not know, with its code.
            Other(u32),
        }

        impl Reason {
            /// The reason of a code of `itchsnap.h`.
            pub(crate) fn of(code: u32) -> Reason {
                match code {
                    $(sys::$code => Reason::$name,)*
                    _ => Reason::Other(code),
                }
            }

            /// The text of the reason, in which `{}` is replaced by its detail.
            fn words(self) -> &'static str {
                match self {
                    $(Reason::$name => $words,)*
                    Reason::Other(_) => "refused for another reason",
                }
            }
        }
    };
}

reasons! {
    /// The message has no bytes.
    Empty = ITCHSNAP_EMPTY, "empty message";
    /// The message does not have the length of its type; `detail` is the length that its type requires.
    WrongLength = ITCHSNAP_WRONG_LENGTH, "wrong length: want {}";
    /// A byte of a text is not printable; `detail` is its offset.
    BadText = ITCHSNAP_BAD_TEXT, "bad text at {}";
    /// A side is neither B nor S; `detail` is its offset.
    BadSide = ITCHSNAP_BAD_SIDE, "bad side at {}";
    /// A field is not a number.
    BadNumber = ITCHSNAP_BAD_NUMBER, "bad number";
    /// The locate is not in the directory.
    UnknownLocate = ITCHSNAP_UNKNOWN_LOCATE, "unknown locate";
    /// The directory lists another stock at the locate.
    StockMismatch = ITCHSNAP_STOCK_MISMATCH, "stock mismatch";
    /// An order with no shares.
    ZeroShares = ITCHSNAP_ZERO_SHARES, "zero shares";
    /// A live order already has this reference.
    DuplicateReference = ITCHSNAP_DUPLICATE_REFERENCE, "duplicate reference";
    /// No live order has this reference.
    UnknownReference = ITCHSNAP_UNKNOWN_REFERENCE, "unknown reference";
    /// The order is at another locate.
    LocateMismatch = ITCHSNAP_LOCATE_MISMATCH, "locate mismatch";
    /// More shares than remain; `detail` is the number of shares that remain.
    TooManyShares = ITCHSNAP_TOO_MANY_SHARES, "too many shares, {} remain";
    /// End of Snapshot in a feed.
    UnexpectedEnd = ITCHSNAP_UNEXPECTED_END, "unexpected end";
    /// The file ends within a block; `detail` is how many of its bytes are present.
    Truncated = ITCHSNAP_TRUNCATED, "truncated, {} bytes held";
    /// There are more messages than can be numbered.
    TooManyMessages = ITCHSNAP_TOO_MANY_MESSAGES, "too many messages";
    /// A read failed. This does not happen, since all files are in memory.
    Unread = ITCHSNAP_UNREAD, "read failed";
    /// The snapshot has no End of Snapshot.
    NoEnd = ITCHSNAP_NO_END, "no end of snapshot";
    /// A message comes after End of Snapshot.
    AfterEnd = ITCHSNAP_AFTER_END, "message after end of snapshot";
    /// There are fewer messages than requested.
    Short = ITCHSNAP_SHORT, "short";
    /// Out of memory.
    OutOfMemory = ITCHSNAP_OUT_OF_MEMORY, "out of memory";
    /// A snapshot has no such number.
    NoNumber = ITCHSNAP_NO_NUMBER, "no number";
    /// The joiner has not joined yet.
    NotJoined = ITCHSNAP_NOT_JOINED, "not joined";
    /// No more messages may wait; `number` is how many are waiting.
    Full = ITCHSNAP_FULL, "full";
    /// A message with this number and other bytes is waiting.
    Conflict = ITCHSNAP_CONFLICT, "conflict";
    /// The number of a message is 0 or above 10^19 - 1.
    BadMessageNumber = ITCHSNAP_BAD_MESSAGE_NUMBER, "bad message number";
    /// The message with this number is refused, and so is every later one; `cause` and `detail` say why.
    Halted = ITCHSNAP_HALTED, "halted";
    /// A message of a snapshot after joining.
    AlreadyJoined = ITCHSNAP_ALREADY_JOINED, "already joined";
    /// Out of memory after the message was taken: continue with `resume`.
    TakenNoMemory = ITCHSNAP_TAKEN_NO_MEMORY, "taken, out of memory";
    /// The snapshot's message at place `number` is refused; `cause` and `detail` say why.
    BadSnapshot = ITCHSNAP_BAD_SNAPSHOT, "bad snapshot";
}

/// A file, a message or a call is refused.
///
/// ```
/// use itchsnap::{Day, Reason};
///
/// let refused = Day::read("../../examples/refused.itch")?.check().unwrap_err();
/// assert_eq!((refused.reason, refused.number), (Reason::StockMismatch, Some(2)));
/// assert_eq!(refused.to_string(), "message 2: stock mismatch");
/// # Ok::<(), Box<dyn std::error::Error>>(())
/// ```
#[derive(Clone, Copy, Debug, PartialEq, Eq, Hash)]
#[non_exhaustive]
pub struct Refused {
    /// The first reason that applies.
    pub reason: Reason,
    /// A detail of the reason, such as the number of shares that remain; otherwise 0.
    pub detail: u64,
    /// The number of the message that is refused, unfinished or missing, if a numbered message is.
    pub number: Option<u64>,
    /// If a joiner has halted or has a bad snapshot, the reason why that message is refused.
    pub cause: Option<Reason>,
    /// If two day files are compared, the refused one, 1 or 2.
    pub file: Option<u32>,
}

impl Refused {
    /// A refusal with a code of `itchsnap.h` and its detail.
    pub(crate) fn of(code: u32, detail: u64) -> Refused {
        Refused { reason: Reason::of(code), detail, number: None, cause: None, file: None }
    }

    /// The same for a message.
    pub(crate) fn at(self, number: u64) -> Refused {
        Refused { number: Some(number), ..self }
    }
}

impl fmt::Display for Refused {
    fn fmt(&self, f: &mut fmt::Formatter<'_>) -> fmt::Result {
        match self.file {
            Some(1) => f.write_str("first: ")?,
            Some(_) => f.write_str("second: ")?,
            None => {}
        }
        if let Some(number) = self.number {
            write!(f, "message {number}: ")?;
        }
        if let Some(cause) = self.cause {
            write!(f, "{}: ", self.reason.words())?;
            return f.write_str(&cause.words().replace("{}", &self.detail.to_string()));
        }
        f.write_str(&self.reason.words().replace("{}", &self.detail.to_string()))
    }
}

impl Error for Refused {}
