//! Joiners: a snapshot and a feed in any order.

use itchsnap::{Day, Joiner, Part, Reason, Side, Snapshot, Step};

fn day() -> Day<'static> {
    Day::read("../../examples/book.itch").unwrap()
}

fn snapshot(after: u64) -> Snapshot {
    day().snapshot(&Part::all().after(after)).unwrap()
}

#[test]
fn a_joiner_has_the_market_of_the_feed_whatever_the_order() {
    let day = day();
    let payloads: Vec<&[u8]> = day.messages().collect();
    for after in 0..=payloads.len() {
        let mut joiner = Joiner::new(payloads.len()).unwrap();
        // Every second message arrives before the snapshot, in reverse order; the others follow it.
        for number in (1..=payloads.len()).rev().filter(|it| it % 2 == 0) {
            assert_eq!(joiner.live(number as u64, payloads[number - 1]), Ok(Step::Kept));
        }
        assert!(joiner.view().is_none() && joiner.next_number().is_none());
        assert!(matches!(joiner.take(&snapshot(after as u64)), Ok(Step::Joined { .. })));
        for number in (1..=payloads.len()).filter(|it| it % 2 == 1) {
            joiner.live(number as u64, payloads[number - 1]).unwrap();
        }
        assert_eq!((joiner.next_number(), joiner.waiting()), (Some(12), 0), "a snapshot after {after}");
        assert_eq!(joiner.snapshot().unwrap(), snapshot(11), "a snapshot after {after}");
    }
}

#[test]
fn what_a_joiner_does_not_take_is_named() {
    let day = day();
    let payloads: Vec<&[u8]> = day.messages().collect();
    let mut joiner = Joiner::new(1).unwrap();
    assert_eq!(joiner.snapshot().unwrap_err().reason, Reason::NotJoined);
    assert_eq!(joiner.live(8, payloads[7]), Ok(Step::Kept));
    let refused = joiner.live(9, payloads[8]).unwrap_err();
    assert_eq!((refused.reason, refused.number), (Reason::Full, Some(1)));
    assert_eq!(joiner.live(8, payloads[0]).unwrap_err().reason, Reason::Conflict);
    assert_eq!(joiner.live(0, payloads[0]).unwrap_err().reason, Reason::BadMessageNumber);
    assert_eq!(joiner.take(&snapshot(6)), Ok(Step::Joined { next: 7 }));
    assert_eq!(joiner.live(3, payloads[2]), Ok(Step::Old));
    assert_eq!(joiner.live(7, payloads[6]), Ok(Step::Applied { next: 9 }));
    assert_eq!(joiner.snapshot_message(payloads[0]).unwrap_err().reason, Reason::AlreadyJoined);
    let halted = joiner.live(9, payloads[2]).unwrap_err();
    assert_eq!((halted.reason, halted.number, halted.cause), (Reason::Halted, Some(9), Some(Reason::DuplicateReference)));
    assert_eq!(halted.to_string(), "message 9: halted: duplicate reference");
    assert_eq!(joiner.resume(), Err(halted));
}

#[test]
fn a_broken_snapshot_may_be_begun_again() {
    let whole = snapshot(11);
    let mut joiner = Joiner::new(1).unwrap();
    let first = whole.messages().next().unwrap();
    assert_eq!(joiner.snapshot_message(first), Ok(Step::More));
    let broken = joiner.snapshot_message(whole.messages().last().map(|it| &it[..5]).unwrap()).unwrap_err();
    assert_eq!((broken.reason, broken.number), (Reason::BadSnapshot, Some(2)));
    joiner.restart();
    assert_eq!(joiner.take(&whole), Ok(Step::Joined { next: 12 }));
    assert_eq!(joiner.view().unwrap().levels(1, Side::Buy).unwrap().len(), 2);
}

#[test]
fn a_joiner_of_some_locates_has_those() {
    let mut joiner = Joiner::only(1, &[7]).unwrap();
    assert_eq!(joiner.take(&snapshot(11)), Ok(Step::Joined { next: 12 }));
    assert_eq!(joiner.snapshot().unwrap(), snapshot(11).only(&[7]).unwrap());
}
