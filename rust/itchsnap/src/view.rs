//! Look-ups in a market.

use std::fmt;

use itchsnap_sys as sys;

use crate::Refused;
use crate::handle::{Handle, is_found, listed};

/// A side of a book.
#[derive(Clone, Copy, Debug, PartialEq, Eq, Hash, PartialOrd, Ord)]
pub enum Side {
    /// Bids.
    Buy,
    /// Asks.
    Sell,
}

impl Side {
    fn is_buy(self) -> bool {
        self == Side::Buy
    }

    fn of(buy: bool) -> Side {
        if buy { Side::Buy } else { Side::Sell }
    }
}

/// A price in ten-thousandths of a dollar. It is displayed in dollars, with four decimals.
#[derive(Clone, Copy, Debug, PartialEq, Eq, Hash, PartialOrd, Ord)]
pub struct Price(pub u32);

impl fmt::Display for Price {
    fn fmt(&self, f: &mut fmt::Formatter<'_>) -> fmt::Result {
        write!(f, "{}.{:04}", self.0 / 10_000, self.0 % 10_000)
    }
}

/// A live order.
#[derive(Clone, Copy, Debug, PartialEq, Eq, Hash)]
pub struct Order {
    /// Its reference number.
    pub reference: u64,
    /// The locate of its stock.
    pub locate: u16,
    /// Its side.
    pub side: Side,
    /// Its price.
    pub price: Price,
    /// The remaining shares.
    pub shares: u32,
    /// The market participant with whom it came, padded with spaces.
    pub mpid: Option<[u8; 4]>,
}

/// The total of the orders at a price.
#[derive(Clone, Copy, Debug, PartialEq, Eq, Hash)]
pub struct Level {
    /// The price.
    pub price: Price,
    /// The sum of the shares.
    pub shares: u128,
    /// The number of orders.
    pub orders: u64,
}

/// A market, for look-ups: see [`Market::view`](crate::Market::view), and [`Joiner::view`](crate::Joiner::view) after it has
/// joined.
///
/// ```
/// use itchsnap::{Day, Part, Side};
///
/// let market = Day::read("../../examples/book.itch")?.snapshot(&Part::all())?.market()?;
/// let view = market.view();
/// assert_eq!(view.stocks()?, [(1, "AAPL".to_string())]);
/// let asks: Vec<String> = view.prices(1, Side::Sell).map(|it| it.to_string()).collect();
/// assert_eq!(asks, ["150.0800", "150.1000"]);
/// # Ok::<(), Box<dyn std::error::Error>>(())
/// ```
#[derive(Clone, Copy, Debug)]
pub struct View<'a> {
    handle: &'a Handle,
}

// SAFETY of each call below: the handle holds a market, nothing else uses it during the call, and memory is writable for its
// length.
impl<'a> View<'a> {
    pub(crate) fn of(handle: &'a Handle) -> View<'a> {
        View { handle }
    }

    /// Returns the order that has priority at a locate and side.
    pub fn best(self, locate: u16, side: Side) -> Option<Order> {
        // SAFETY: as above.
        let found = unsafe { sys::itchsnap_best(self.handle.at(), locate, side.is_buy()) };
        is_found(found.code).then(|| order(found))
    }

    /// Returns the live order with this reference.
    pub fn order(self, reference: u64) -> Option<Order> {
        // SAFETY: as above.
        let found = unsafe { sys::itchsnap_order_by(self.handle.at(), reference) };
        is_found(found.code).then(|| order(found))
    }

    /// Returns the total of the orders at a price, if there are any.
    pub fn level(self, locate: u16, side: Side, price: Price) -> Option<Level> {
        // SAFETY: as above.
        let total = unsafe { sys::itchsnap_level(self.handle.at(), locate, side.is_buy(), price.0) };
        let shares = wide(total.shares_high, total.shares_low);
        (is_found(total.code) && total.orders != 0).then_some(Level { price, shares, orders: total.orders })
    }

    /// Returns the best price of a side or, with `after`, the best one that is worse than that.
    pub fn next_price(self, locate: u16, side: Side, after: Option<Price>) -> Option<Price> {
        let last = after.map_or(0, |it| it.0);
        // SAFETY: as above.
        let found = unsafe { sys::itchsnap_next_price(self.handle.at(), locate, side.is_buy(), after.is_some(), last) };
        is_found(found.code).then_some(Price(found.price))
    }

    /// Iterates over the prices of a side, the best first.
    pub fn prices(self, locate: u16, side: Side) -> Prices<'a> {
        Prices { view: self, locate, side, last: None, ended: false }
    }

    /// Returns the number of live orders.
    pub fn order_count(self) -> u64 {
        // SAFETY: as above.
        unsafe { sys::itchsnap_order_count(self.handle.at()) }.count
    }

    /// Returns the stock of a locate in the directory, without trailing spaces.
    pub fn stock(self, locate: u16) -> Option<String> {
        // SAFETY: as above.
        let found = unsafe { sys::itchsnap_stock(self.handle.at(), locate) };
        is_found(found.code).then(|| String::from_utf8_lossy(&found.stock).trim_end().to_string())
    }

    /// Returns the locates in the directory, in ascending order.
    pub fn locates(self) -> Result<Vec<u16>, Refused> {
        // SAFETY: as above.
        listed(|out, len| unsafe { sys::itchsnap_locates(self.handle.at(), out, len) })
    }

    /// Returns the directory: each locate with its stock, in ascending order of locate.
    pub fn stocks(self) -> Result<Vec<(u16, String)>, Refused> {
        Ok(self.locates()?.into_iter().filter_map(|it| Some((it, self.stock(it)?))).collect())
    }

    /// Returns the live orders of a locate: bids before asks, each side by priority.
    pub fn orders(self, locate: u16) -> Result<Vec<Order>, Refused> {
        // SAFETY: as above.
        let found = listed(|out, len| unsafe { sys::itchsnap_orders(self.handle.at(), locate, out, len) })?;
        Ok(found.into_iter().map(order).collect())
    }

    /// Returns the price levels of a side, the best first.
    pub fn levels(self, locate: u16, side: Side) -> Result<Vec<Level>, Refused> {
        // SAFETY: as above.
        let found = listed(|out, len| unsafe { sys::itchsnap_levels(self.handle.at(), locate, side.is_buy(), out, len) })?;
        Ok(found.into_iter().map(level).collect())
    }
}

fn wide(high: u64, low: u64) -> u128 {
    u128::from(high) << 64 | u128::from(low)
}

fn order(it: sys::itchsnap_order) -> Order {
    let mpid = it.attributed.then_some(it.mpid);
    Order { reference: it.reference, locate: it.locate, side: Side::of(it.buy), price: Price(it.price), shares: it.shares, mpid }
}

fn level(it: sys::itchsnap_price_level) -> Level {
    Level { price: Price(it.price), shares: wide(it.shares_high, it.shares_low), orders: it.orders }
}

/// An iterator over the prices of a side, the best first.
#[derive(Clone, Debug)]
pub struct Prices<'a> {
    view: View<'a>,
    locate: u16,
    side: Side,
    last: Option<Price>,
    ended: bool,
}

impl Iterator for Prices<'_> {
    type Item = Price;

    fn next(&mut self) -> Option<Price> {
        if self.ended {
            return None;
        }
        let next = self.view.next_price(self.locate, self.side, self.last);
        self.ended = next.is_none();
        self.last = next;
        next
    }
}

impl std::iter::FusedIterator for Prices<'_> {}
