//! Markets: messages that they accept and refuse, and look-ups.

use itchsnap::{Applied, Day, Level, Market, Part, Price, Reason, Side, messages};

fn book() -> Vec<u8> {
    std::fs::read("../../examples/book.itch").unwrap()
}

/// The market of the example, message by message.
fn market() -> Market {
    let (day, mut market) = (book(), Market::new().unwrap());
    for payload in Day::of(&day).messages() {
        market.apply(payload).unwrap();
    }
    market
}

#[test]
fn a_market_may_be_given_a_day_in_any_pieces() {
    let day = book();
    for size in 1..=day.len() {
        let (mut market, mut piece, mut count) = (Market::new().unwrap(), Vec::new(), 0);
        for more in day.chunks(size) {
            piece.extend_from_slice(more);
            let applied = market.apply_blocks(&piece).unwrap();
            piece.drain(..piece.len() - applied.unfinished);
            count += applied.messages;
        }
        assert_eq!((count, market.next_number()), (11, 12), "pieces of {size}");
        assert_eq!(market.snapshot().unwrap(), Day::of(&day).snapshot(&Part::all()).unwrap(), "pieces of {size}");
    }
}

#[test]
fn a_refused_message_leaves_the_market() {
    let (day, mut market) = (book(), market());
    let before = market.snapshot().unwrap();
    let again = messages(&day).nth(2).unwrap();
    let refused = market.apply(again).unwrap_err();
    assert_eq!((refused.reason, refused.number), (Reason::DuplicateReference, Some(12)));
    assert_eq!(market.apply(&[]).unwrap_err().to_string(), "message 12: empty message");
    assert_eq!(market.apply(&again[..5]).unwrap_err().to_string(), "message 12: wrong length: want 36");
    assert_eq!(market.snapshot().unwrap(), before);
    assert_eq!(market.apply_blocks(&day[..1]), Ok(Applied { messages: 0, unfinished: 1 }));
    assert_eq!(market.next_number(), 12);
}

#[test]
fn look_ups_agree_with_lists() {
    let market = market();
    let view = market.view();
    assert_eq!(view.locates().unwrap(), [1]);
    assert_eq!((view.stock(1).as_deref(), view.stock(2)), (Some("AAPL"), None));
    let orders = view.orders(1).unwrap();
    assert_eq!(view.order_count(), orders.len() as u64);
    for order in &orders {
        assert_eq!(view.order(order.reference).as_ref(), Some(order));
    }
    for side in [Side::Buy, Side::Sell] {
        assert_eq!(view.best(1, side).as_ref(), orders.iter().find(|it| it.side == side));
        let prices: Vec<Price> = view.prices(1, side).collect();
        let levels = view.levels(1, side).unwrap();
        assert_eq!(levels.iter().map(|it| it.price).collect::<Vec<_>>(), prices);
        for level in levels {
            assert_eq!(view.level(1, side, level.price), Some(level));
            let there = orders.iter().filter(|it| (it.side, it.price) == (side, level.price));
            let (shares, count) = there.fold((0, 0), |(shares, count), it| (shares + u128::from(it.shares), count + 1));
            assert_eq!(level, Level { price: level.price, shares, orders: count });
        }
    }
}

#[test]
fn what_is_not_there_is_none() {
    let market = Market::new().unwrap();
    let view = market.view();
    assert_eq!((view.best(1, Side::Buy), view.order(1), view.level(1, Side::Buy, Price(1))), (None, None, None));
    assert_eq!((view.next_price(1, Side::Sell, None), view.prices(1, Side::Sell).next()), (None, None));
    assert!(view.orders(1).unwrap().is_empty() && view.levels(1, Side::Buy).unwrap().is_empty() && view.stocks().unwrap().is_empty());
    assert_eq!(view.order_count(), 0);
}

#[test]
fn a_snapshot_may_be_cut_down() {
    let market = market();
    assert_eq!(market.snapshot_only(&[1]).unwrap(), market.snapshot().unwrap());
    assert!(market.snapshot_only(&[]).unwrap().as_bytes().len() < market.snapshot().unwrap().as_bytes().len());
}

#[test]
fn prices_are_shown_in_dollars() {
    for (price, shown) in [(0, "0.0000"), (1, "0.0001"), (1_500_500, "150.0500"), (u32::MAX, "429496.7295")] {
        assert_eq!(Price(price).to_string(), shown);
    }
}
