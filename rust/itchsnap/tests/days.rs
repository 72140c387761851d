//! Days and snapshots, over the examples of the checkout.

use itchsnap::{Day, Part, Reason, Side, Snapshot, messages};

fn example(name: &str) -> Vec<u8> {
    std::fs::read(format!("../../examples/{name}")).unwrap()
}

#[test]
fn each_example_has_its_snapshot() {
    for name in ["first_order", "opening", "replaced"] {
        let day = example(&format!("{name}.itch"));
        let snapshot = Day::of(&day).snapshot(&Part::all()).unwrap();
        assert_eq!(snapshot.as_bytes(), example(&format!("{name}.snap")), "{name}");
        assert_eq!(snapshot.as_ref(), snapshot.clone().into_bytes(), "{name}");
    }
}

#[test]
fn a_refused_message_is_named() {
    let day = example("refused.itch");
    let refused = Day::of(&day).check().unwrap_err();
    assert_eq!((refused.reason, refused.detail, refused.number, refused.file), (Reason::StockMismatch, 0, Some(2), None));
    assert_eq!(Day::of(&day).snapshot(&Part::all()).unwrap_err(), refused);
    assert_eq!(Day::of(&day).snapshot(&Part::all().after(1)).unwrap().next_number(), 2);
}

#[test]
fn a_day_that_is_cut_anywhere_is_whole_or_truncated() {
    let bytes = example("book.itch");
    let mut whole = 0;
    for end in 0..=bytes.len() {
        let day = Day::of(&bytes[..end]);
        let taken = day.messages().count() as u64;
        let ends_at: usize = day.messages().map(|it| it.len() + 2).sum();
        if ends_at == end {
            assert_eq!(day.check(), Ok(taken));
            whole += 1;
        } else {
            let refused = day.check().unwrap_err();
            assert_eq!((refused.reason, refused.number), (Reason::Truncated, Some(taken + 1)));
            assert_eq!(refused.detail, (end - ends_at) as u64);
            assert_eq!(refused.to_string(), format!("message {}: truncated, {} bytes held", taken + 1, end - ends_at));
        }
    }
    assert_eq!(whole, 12);
}

#[test]
fn parts_of_a_day_end_by_number_and_by_time() {
    let day = Day::read("../../examples/book.itch").unwrap();
    for after in 0..=11 {
        assert_eq!(day.snapshot(&Part::all().after(after)).unwrap().next_number(), after + 1);
    }
    assert_eq!(day.snapshot(&Part::all().after(12)).unwrap_err().reason, Reason::Short);
    let until = |time| day.snapshot(&Part::all().until(time)).unwrap();
    assert_eq!(until(6), day.snapshot(&Part::all().after(5)).unwrap());
    assert_eq!(until(0).next_number(), 1);
    assert_eq!(day.first_at(0), Ok(Some(0)));
    assert_eq!(day.first_at(u64::MAX), Ok(None));
    let at = day.first_at(6).unwrap().unwrap() as usize;
    assert_eq!(messages(&day.as_bytes()[..at]).count(), 5);
}

#[test]
fn days_are_compared_by_the_markets_that_they_leave() {
    let (book, opening) = (example("book.itch"), example("opening.itch"));
    assert_eq!(Day::of(&book).compare(&Day::of(&book)), Ok(None));
    assert!(Day::of(&book).compare(&Day::of(&opening)).unwrap().is_some());
    let refused = Day::of(&book).compare(&Day::of(&example("refused.itch"))).unwrap_err();
    assert_eq!((refused.file, refused.number), (Some(2), Some(2)));
    assert_eq!(refused.to_string(), "second: message 2: stock mismatch");
}

#[test]
fn a_snapshot_is_a_value() {
    let day = Day::read("../../examples/book.itch").unwrap();
    let snapshot = day.snapshot(&Part::all()).unwrap();
    let again = Snapshot::parse(snapshot.as_bytes()).unwrap();
    assert_eq!(again, snapshot);
    assert!(snapshot.same_market(&again));
    assert_eq!(snapshot.only(&[1]).unwrap(), snapshot);
    assert_eq!(snapshot.only(&[2]).unwrap(), day.snapshot(&Part::all().only(&[2])).unwrap());
    assert!(!snapshot.same_market(&snapshot.only(&[]).unwrap()));
    assert!(snapshot.market().unwrap().view().levels(1, Side::Buy).unwrap().len() == 2);
    let refused = Snapshot::parse(day.as_bytes()).unwrap_err();
    assert_eq!((refused.reason, refused.number), (Reason::NoEnd, None));
}
