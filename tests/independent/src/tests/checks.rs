//! The twelve numbers: each row's example, each bound at its edge, and the order of the checks
//! where two causes meet.

use super::{close, sample_closed, sample_opened, sample_registered, sample_set_up};
use independent::model::auction::{Auction, EXISTING, HIGHEST_LEVEL, NEW};
use independent::model::replay::replay;

/// Each row's example, in the table's words.
#[test]
fn examples() {
    let (mut fresh, mut set_up) = (Auction::new(), sample_set_up());
    let (mut opened, mut registered) = (sample_opened(), sample_registered());
    let none = &[];
    assert_eq!(fresh.set_up(3, 1_000, 900, 1_200, 6), Err(1), "CE 3");
    assert_eq!(
        registered.offer(2, none, none),
        Err(2),
        "offer before a round"
    );
    assert_eq!(
        set_up.register(1, 33, NEW, 0, 0, &[5]),
        Err(3),
        "developer 33"
    );
    assert_eq!(
        set_up.register(1, 1, NEW, 0, 0, &[5, 5]),
        Err(4),
        "levels 5, 5"
    );
    assert_eq!(registered.open(40_000), Err(5), "C 40,000 at A 40,000");
    assert_eq!(opened.offer(2, &[24_999], &[100]), Err(6), "step at C - 1");
    let falls = opened.offer(2, &[30_000, 29_000], &[100, 100]);
    assert_eq!(falls, Err(7), "100 after 100");
    assert_eq!(opened.offer(2, none, none), Ok(()));
    assert_eq!(opened.offer(2, none, none), Err(8), "developer 2 twice");
    assert_eq!(set_up.open(25_000), Err(9), "no plants");
    assert_eq!(sample_closed().settle(0, &mut [0; 192]), Err(10), "limit 0");
    assert_eq!(
        one_award().settle(1, &mut [0; 5]),
        Err(11),
        "5 bytes, one award"
    );
    assert_eq!(replay(b"0g"), b"FF0C\n", "`0g`");
}

/// An auction with one existing plant, closed.
fn one_award() -> Auction {
    let mut auction = sample_set_up();
    let registered = auction.register(1, 1, EXISTING, 0, 0, &[900]);
    registered.expect("a sound registration");
    auction.open(10_000).expect("900 cover A");
    assert_eq!(close(&mut auction), Ok(-300));
    auction
}

#[test]
fn set_up_in_order() {
    let mut registered = sample_registered();
    assert_eq!(registered.set_up(3, 0, 0, 0, 0), Err(2));
    assert_eq!(registered.set_up(20_000, 1_000, 900, 1_200, 40_000), Err(2));
}

/// A's own bounds; those of the four others are the demand call's.
#[test]
fn set_up_at_the_edges() {
    for (settings, answer) in [
        ([20_000, 1_000, 900, 1_200, 10_000], Err(1)),
        ([20_000, 1_000, 900, 1_200, 10_001], Ok(())),
        ([20_000, 1_000, 900, 1_200, 40_000], Ok(())),
        ([20_000, 1_000, 900, 1_200, 40_001], Err(1)),
        ([2, 2, 1, 3, 1], Err(1)),
        ([2, 2, 1, 3, 2], Ok(())),
        ([500_000, 2, 1, 100_000_000_000, 1_000_000], Ok(())),
        ([500_000, 2, 1, 100_000_000_001, 1_000_000], Err(1)),
        ([500_002, 2, 1, 3, 1_000_000], Err(1)),
        ([20_000, 900, 900, 1_200, 40_000], Err(1)),
        ([20_000, 1_000, 0, 1_200, 40_000], Err(1)),
        ([20_000, 1_000, 900, 1_000, 40_000], Err(1)),
        ([20_000, 1_000, 900, 1_200, u64::MAX], Err(1)),
        ([u64::MAX; 5], Err(1)),
    ] {
        let [ce, d, m1, m2, a] = settings;
        let mut auction = Auction::new();
        assert_eq!(auction.set_up(ce, d, m1, m2, a), answer, "{settings:?}");
    }
}

#[test]
fn registration_in_order() {
    let (mut fresh, mut opened) = (Auction::new(), sample_opened());
    for auction in [&mut fresh, &mut opened] {
        assert_eq!(auction.register(5, 5, NEW, 0, 0, &[5]), Err(2));
        assert_eq!(auction.register(33, 0, NEW, 0, 0, &[5]), Err(2));
        assert_eq!(auction.register(5, 5, 3, 0, 0, &[5, 5]), Err(2));
    }
    let mut registered = sample_registered();
    assert_eq!(registered.register(0, 5, 3, 0, 0, &[]), Err(3));
    assert_eq!(registered.register(5, 33, NEW, 0, 0, &[5, 5]), Err(3));
    // Developer 4 is used, and project 1 is an existing plant.
    assert_eq!(registered.register(1, 4, NEW, 0, 0, &[5]), Err(3));
}

#[test]
fn registration_at_the_edges() {
    let eight: Vec<u32> = (1..=8).collect();
    let nine: Vec<u32> = (1..=9).collect();
    for (project, developer, kind, levels, answer) in [
        (32, 32, EXISTING, &[1][..], Ok(())),
        (32, 32, NEW, &[HIGHEST_LEVEL], Ok(())),
        (32, 32, NEW, &eight, Ok(())),
        (0, 32, NEW, &[1], Err(3)),
        (33, 32, NEW, &[1], Err(3)),
        (255, 32, NEW, &[1], Err(3)),
        (32, 0, NEW, &[1], Err(3)),
        (32, 33, NEW, &[1], Err(3)),
        (32, 4, NEW, &[1], Err(3)),
        (32, 32, 0, &[1], Err(4)),
        (32, 32, 3, &[1], Err(4)),
        (32, 32, 255, &[1], Err(4)),
        (32, 32, NEW, &[], Err(4)),
        (32, 32, NEW, &nine, Err(4)),
        (32, 32, NEW, &[0], Err(4)),
        (32, 32, NEW, &[0, 1], Err(4)),
        (32, 32, NEW, &[2, 1], Err(4)),
        (32, 32, NEW, &[1, 3, 2], Err(4)),
        (32, 32, NEW, &[HIGHEST_LEVEL + 1], Err(4)),
        (32, 32, NEW, &[1, u32::MAX], Err(4)),
        // Project 1 is an existing plant, project 3 a new one.
        (1, 32, EXISTING, &[1], Err(4)),
        (1, 32, NEW, &[1], Err(4)),
        (3, 32, EXISTING, &[1], Err(4)),
        (3, 32, NEW, &[1], Ok(())),
    ] {
        let mut auction = sample_registered();
        let registered = auction.register(project, developer, kind, 0, 0, levels);
        assert_eq!(
            registered, answer,
            "{project} {developer} {kind} {levels:?}"
        );
    }
}

#[test]
fn opening_in_order() {
    assert_eq!(Auction::new().open(0), Err(2));
    for auction in [&mut sample_opened(), &mut sample_closed()] {
        assert_eq!(auction.open(9_999), Err(2));
        assert_eq!(auction.open(24_000), Err(2));
    }
    // No plants: A is not covered.
    for c in [0, 9_999, 40_000, u32::MAX] {
        assert_eq!(sample_set_up().open(c), Err(5), "C {c}");
    }
    for c in [10_000, 39_999] {
        assert_eq!(sample_set_up().open(c), Err(9), "C {c}");
        assert_eq!(sample_registered().open(c), Ok(()), "C {c}");
    }
}

#[test]
fn offer_in_order() {
    let mut registered = sample_registered();
    assert_eq!(registered.offer(33, &[1], &[]), Err(2));
    let mut opened = sample_opened();
    assert_eq!(opened.offer(4, &[], &[]), Ok(()));
    // By whom, before everything in the offer.
    for developer in [0, 1, 5, 32, 33, 255] {
        assert_eq!(opened.offer(developer, &[30_000], &[]), Err(3));
        assert_eq!(opened.offer(developer, &[24_999], &[7]), Err(3));
        assert_eq!(opened.offer(developer, &[], &[]), Err(3));
    }
    // A second offer, before its prices and levels.
    assert_eq!(opened.offer(4, &[24_999], &[0]), Err(8));
    assert_eq!(opened.offer(4, &[30_000], &[7]), Err(8));
    // All prices, before any level.
    assert_eq!(opened.offer(2, &[30_000, 24_999], &[7, 7]), Err(6));
    assert_eq!(opened.offer(2, &[30_000, 29_000], &[7]), Err(6));
    assert_eq!(opened.offer(2, &[], &[7]), Err(6));
    let nine: Vec<u32> = (0..9).map(|step| 39_999 - step).collect();
    assert_eq!(opened.offer(2, &nine, &[7; 9]), Err(6));
}

#[test]
fn offer_at_the_edges() {
    for (prices, levels, answer) in [
        (&[][..], &[][..], Ok(())),
        (&[25_000], &[100], Ok(())),
        (&[39_999], &[0], Ok(())),
        (&[39_999, 25_000], &[100, 0], Ok(())),
        (&[40_000], &[100], Err(6)),
        (&[24_999], &[100], Err(6)),
        (&[0], &[100], Err(6)),
        (&[u32::MAX], &[100], Err(6)),
        (&[30_000, 30_000], &[100, 0], Err(6)),
        (&[30_000, 30_001], &[100, 0], Err(6)),
        (&[30_000], &[200], Err(7)),
        (&[30_000], &[150], Err(7)),
        (&[30_000], &[99], Err(7)),
        (&[30_000], &[u32::MAX], Err(7)),
        (&[30_000, 29_000], &[0, 100], Err(7)),
        (&[30_000, 29_000], &[0, 0], Err(7)),
    ] {
        let answered = sample_opened().offer(2, prices, levels);
        assert_eq!(answered, answer, "{prices:?} {levels:?}");
    }
}

#[test]
fn settling_in_order() {
    for auction in [sample_set_up(), sample_registered(), sample_opened()] {
        assert_eq!(auction.settle(0, &mut []), Err(2));
    }
    let closed = sample_closed();
    assert_eq!(closed.settle(3, &mut []), Err(10));
    assert_eq!(closed.settle(4, &mut [0; 11]), Err(11));
    assert!(closed.settle(4, &mut [0; 12]).is_ok());
}
