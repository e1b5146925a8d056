//! The sealed auction (document 02, request 13): each sentence of it in auctions worked out by hand,
//! and what it says of all auctions on generated ones.

use independent::coverage::Opened;
use independent::generators::lent::lend;
use independent::generators::random::Random;
use independent::generators::sealed::generated;
use independent::generators::sealed::stated::{auctions, FOUR};
use independent::model::sealed::{sealed_auction, Offer, Sealed};
use independent::{host_number, ABOVE_THE_CEILING, BUFFER_TOO_SHORT, SEALED_OUT_OF_BOUNDS};
use std::sync::LazyLock;

/// Generated auctions.
static OPENED: LazyLock<Vec<Opened>> = LazyLock::new(|| {
    let seeds = 0..20_000;
    seeds
        .map(|seed| Opened::new(generated::auction(seed)))
        .collect()
});

/// Those that are not refused whatever the buffer, with their offers, awards and what is left.
fn awarded() -> impl Iterator<Item = (&'static Sealed, Vec<Offer>, Vec<u64>, u64)> {
    OPENED.iter().filter_map(|opened| {
        let (awards, left) = opened.awards().ok()?;
        let offers = opened.auction.offers()?;
        Some((&opened.auction, offers, awards, left))
    })
}

/// The awards and what is left of an auction that is not refused.
fn awards(ceiling: u64, demand: u64, offers: &[Offer]) -> (Vec<u64>, u64) {
    let awards = Sealed::new(ceiling, demand, offers).awards();
    awards.expect("in bounds")
}

/// An offer that takes any part of 10.
fn ten(price: u64, age: u64) -> Offer {
    Offer {
        price,
        quantity: 10,
        minimum: 1,
        age,
    }
}

/// The C call on each stated auction: its number, and all of the buffer and beside it.
#[test]
fn stated_auctions() {
    for (auction, length, stated) in auctions() {
        let called = lend(length, |buffer| sealed_auction(&auction, buffer));
        let expected = lend(length, |buffer| match &stated {
            Ok((awards, left)) => {
                buffer[..awards.len()].copy_from_slice(awards);
                *left
            }
            Err(refusal) => host_number(Err(*refusal)),
        });
        assert_eq!(called, expected, "{auction:?}");
    }
}

/// "Offers are taken by falling age, then rising price, then order in the list."
#[test]
fn order_of_turns() {
    let young_and_cheap = [ten(1, 4), ten(9, 5)];
    assert_eq!(awards(9, 10, &young_and_cheap), (vec![0, 10], 0));
    let dear_first = [ten(9, 5), ten(8, 5)];
    assert_eq!(awards(9, 10, &dear_first), (vec![0, 10], 0));
    let alike = [ten(9, 5), ten(9, 5), ten(9, 5)];
    assert_eq!(awards(9, 15, &alike), (vec![10, 5, 0], 0));
    let places = |offers: &[Offer]| {
        let outcome = Sealed::new(500, 0, offers).outcome().expect("in bounds");
        let turns = outcome.turns.iter().map(|turn| turn.place);
        turns.collect::<Vec<_>>()
    };
    assert_eq!(places(FOUR), [1, 2, 3, 0]);
    let all = [
        ten(2, 0),
        ten(1, 0),
        ten(2, 20),
        ten(1, 0),
        ten(3, 20),
        ten(2, 20),
    ];
    assert_eq!(places(&all), [2, 5, 4, 1, 3, 0]);
}

/// "the lesser of its quantity and what is left, or nothing if that is below its minimum, and the
/// next is tried"
#[test]
fn each_award() {
    let whole_or_nothing = Offer {
        minimum: 10,
        ..ten(1, 20)
    };
    let offers = [whole_or_nothing, ten(1, 0)];
    assert_eq!(awards(1, 21, &offers), (vec![10, 10], 1));
    assert_eq!(awards(1, 19, &offers), (vec![10, 9], 0));
    assert_eq!(awards(1, 10, &offers), (vec![10, 0], 0));
    assert_eq!(awards(1, 9, &offers), (vec![0, 9], 0));
    assert_eq!(awards(1, 0, &offers), (vec![0, 0], 0));
    assert_eq!(awards(1, 9, &offers[..1]), (vec![0], 9));
}

/// Each bound of an offer, and one beyond it, at each place of the list.
#[test]
fn bounds_of_offers() {
    let sound = Sealed::new(1_000_000, 50, &[ten(1, 0), ten(1, 0), ten(1, 0)]);
    let bounds = [(1, 1_000_000), (1, 1_000_000_000), (1, 10), (0, 20)];
    for (list, (lowest, highest)) in bounds.into_iter().enumerate() {
        for place in 0..3 {
            let refused = |number| {
                let mut changed = sound.clone();
                changed.lists[list][place] = number;
                changed.awards().err()
            };
            assert_eq!([lowest, highest].map(refused), [None; 2]);
            let beyond = [highest + 1, u64::MAX].map(refused);
            assert_eq!(beyond, [Some(SEALED_OUT_OF_BOUNDS); 2]);
            assert!(lowest == 0 || refused(0) == Some(SEALED_OUT_OF_BOUNDS));
        }
    }
}

/// 16 offers and 17, and the bounds of ceiling and demand.
#[test]
fn bounds_of_the_auction() {
    let refused = |ceiling, demand, offers| Sealed::new(ceiling, demand, offers).awards().err();
    let offers = &[ten(1, 0); 17];
    for (ceiling, demand) in [(1, 0), (1_000_000, 100_000_000_000)] {
        assert_eq!(refused(ceiling, demand, &offers[..16]), None);
        let beyond = refused(ceiling, demand, offers);
        assert_eq!(beyond, Some(SEALED_OUT_OF_BOUNDS));
    }
    for (ceiling, demand) in [(0, 0), (1_000_001, 0), (1, 100_000_000_001)] {
        let beyond = refused(ceiling, demand, &[]);
        assert_eq!(beyond, Some(SEALED_OUT_OF_BOUNDS));
    }
}

/// "an offered price above the ceiling is 19, tested after it"
#[test]
fn ceiling() {
    let refused = |offers: &[Offer]| Sealed::new(9, 0, offers).awards().err();
    assert_eq!(refused(&[ten(9, 0)]), None);
    assert_eq!(refused(&[ten(9, 0), ten(10, 0)]), Some(ABOVE_THE_CEILING));
    let and_too_old = [ten(10, 0), ten(9, 21)];
    assert_eq!(refused(&and_too_old), Some(SEALED_OUT_OF_BOUNDS));
}

/// On generated auctions: 18 if any cause of it is there, then 19 if a price is above the ceiling,
/// then 11 if the buffer is shorter than the list.
#[test]
fn first_failing_check_answers() {
    for opened in OPENED.iter() {
        let expected = if opened.causes() > 0 {
            Some(SEALED_OUT_OF_BOUNDS)
        } else if opened.above_ceiling() > 0 {
            Some(ABOVE_THE_CEILING)
        } else if opened.buffer < opened.auction.lists[0].len() {
            Some(BUFFER_TOO_SHORT)
        } else {
            None
        };
        assert_eq!(opened.refused(), expected, "{:?}", opened.auction);
    }
}

/// "The awards and what is left sum to the demand"
#[test]
fn sum() {
    for (auction, _, awards, left) in awarded() {
        assert_eq!(awards.iter().sum::<u64>() + left, auction.demand);
    }
}

/// "an offer gets nothing exactly when less than its minimum is left at its turn"; else its minimum
/// or more, up to its quantity, and less than that only with all that is left.
#[test]
fn nothing_exactly_below_the_minimum() {
    for (auction, offers, awards, _) in awarded() {
        let before = |one: usize, other: usize| {
            let (a, b) = (&offers[one], &offers[other]);
            a.age > b.age
                || a.age == b.age && a.price < b.price
                || (a.age, a.price) == (b.age, b.price) && one < other
        };
        for (place, offer) in offers.iter().enumerate() {
            let earlier = (0..offers.len()).filter(|other| before(*other, place));
            let left = auction.demand - earlier.map(|other| awards[other]).sum::<u64>();
            let award = awards[place];
            assert_eq!(award == 0, left < offer.minimum, "{auction:?}");
            let taken = (offer.minimum..=offer.quantity).contains(&award);
            assert!(award == 0 || taken && (award == offer.quantity || award == left));
        }
    }
}

/// The awards go with the offers whatever the list order, but among those alike in age and price.
#[test]
fn list_order() {
    let mut random = Random::new(13);
    for (auction, offers, awards, left) in awarded() {
        let alike = |place: &usize| (offers[*place].age, offers[*place].price);
        let mut order: Vec<usize> = (0..offers.len()).collect();
        random.shuffle(&mut order);
        // Those alike stand in list order at the places that they got.
        let shuffled = order.clone();
        for (at, place) in shuffled.iter().enumerate() {
            let earlier = shuffled[..at]
                .iter()
                .filter(|other| alike(other) == alike(place));
            let mut all = (0..offers.len()).filter(|other| alike(other) == alike(place));
            order[at] = all.nth(earlier.count()).expect("one of those alike");
        }
        let moved: Vec<Offer> = order.iter().map(|place| offers[*place]).collect();
        let expected: Vec<u64> = order.iter().map(|place| awards[*place]).collect();
        let moved = Sealed::new(auction.ceiling, auction.demand, &moved);
        assert_eq!(moved.awards(), Ok((expected, left)));
    }
}
