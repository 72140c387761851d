//! Market snapshots for Nasdaq TotalView-ITCH 5.0, over the proved library `libitchsnap`.
//!
//! A [`Day`] is a day file, a [`Snapshot`] the market at one message of a feed. A [`Market`] applies messages, with look-ups at any time through its
//! [`View`], and a [`Joiner`] joins a snapshot and a live feed. [`decode`] returns the fields of a message. A call that is refused returns
//! [`Refused`], with the [`Reason`].
//!
//! ```
//! use itchsnap::{Day, Part, Side};
//!
//! let day = Day::read("../../examples/book.itch")?;
//! assert_eq!(day.check()?, 11);
//!
//! let snapshot = day.snapshot(&Part::all())?;
//! let market = snapshot.market()?;
//! let best = market.view().levels(1, Side::Buy)?[0];
//! assert_eq!((best.price.to_string(), best.shares, best.orders), ("150.0500".to_string(), 300, 2));
//! # Ok::<(), Box<dyn std::error::Error>>(())
//! ```
//!
//! Prices are always integers in ten-thousandths of a dollar, so that equal prices compare equal. Numbers of messages are counted from 1.
//!
//! Markets and joiners stay on the thread that made them, so they are neither `Send` nor `Sync`. Days and snapshots are plain bytes.
//!
//! ```compile_fail
//! fn elsewhere<T: Send>(_: T) {}
//! elsewhere(itchsnap::Market::new().unwrap());
//! ```
#![deny(missing_docs, unsafe_op_in_unsafe_fn)]

mod day;
mod handle;
mod joiner;
mod market;
mod message;
mod refused;
mod snapshot;
mod view;

pub use day::{Day, Messages, Part, messages};
pub use joiner::{Joiner, Step};
pub use market::{Applied, Market};
pub use message::{Message, decode};
pub use refused::{Reason, Refused};
pub use snapshot::Snapshot;
pub use view::{Level, Order, Price, Prices, Side, View};
