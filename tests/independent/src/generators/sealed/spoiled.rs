//! Sealed auctions that document 02's request 13 refuses: one cause at a time.

use crate::generators::random::Random;
use crate::model::sealed::{
    Offer, Sealed, AGES, HIGHEST_AGE, HIGHEST_DEMAND, HIGHEST_PRICE, HIGHEST_QUANTITY,
};
use crate::model::sealed::{MINIMUMS, MOST_OFFERS, PRICES, QUANTITIES};
use std::ops::RangeInclusive;

/// Plants one cause of refusal 18 or 19, if there is an offer for it.
pub(super) fn spoil(random: &mut Random, auction: &mut Sealed) {
    match random.between(1, 24) {
        1..=2 => lengthen(random, auction),
        3..=8 => make_unequal(random, auction),
        9..=10 => auction.ceiling = beyond(random, auction.ceiling, 1..=HIGHEST_PRICE),
        11..=12 => auction.demand = beyond(random, auction.demand, 0..=HIGHEST_DEMAND),
        13..=14 => put_beyond(random, auction, PRICES, |_| 1..=HIGHEST_PRICE),
        15..=16 => put_beyond(random, auction, QUANTITIES, |_| 1..=HIGHEST_QUANTITY),
        17..=19 => put_beyond(random, auction, MINIMUMS, |offer| 1..=offer.quantity),
        20..=21 => put_beyond(random, auction, AGES, |_| 0..=HIGHEST_AGE),
        _ => put_above_ceiling(random, auction),
    }
}

/// A number just beyond the bounds, the greatest of all, or a sound one with a higher bit.
fn beyond(random: &mut Random, sound: u64, bounds: RangeInclusive<u64>) -> u64 {
    let above = bounds.end().saturating_add(1);
    let below = bounds.start().checked_sub(1).unwrap_or(above);
    let raised = sound | 1 << random.between(37, 63);
    random.one_of(&[below, below, above, above, u64::MAX, raised])
}

/// One field of an offer beyond its bounds.
fn put_beyond(
    random: &mut Random,
    auction: &mut Sealed,
    list: usize,
    bounds: fn(&Offer) -> RangeInclusive<u64>,
) {
    if let Some((place, offer)) = one_of(random, auction) {
        let field = &mut auction.lists[list][place];
        *field = beyond(random, *field, bounds(&offer));
    }
}

/// An offer, if there are any.
fn one_of(random: &mut Random, auction: &Sealed) -> Option<(usize, Offer)> {
    let offers = auction.offers().filter(|offers| !offers.is_empty())?;
    let place = random.index(offers.len());
    Some((place, offers[place]))
}

/// More than 16 offers, each in bounds.
fn lengthen(random: &mut Random, auction: &mut Sealed) {
    let count = MOST_OFFERS + random.one_of(&[1, 1, 2, 16, 240, 241]);
    for list in &mut auction.lists {
        list.resize(count.max(list.len()), 1);
    }
}

/// Some lists shorter or longer than the others, by one or any number.
fn make_unequal(random: &mut Random, auction: &mut Sealed) {
    let count = auction.lists[PRICES].len();
    let any = random.between(0, MOST_OFFERS as u64) as usize;
    let length = random.one_of(&[0, any, count + 1, count.saturating_sub(1)]);
    let chosen = random.between(1, 14);
    for (place, list) in auction.lists.iter_mut().enumerate() {
        if chosen >> place & 1 == 1 {
            list.resize(length, 1);
        }
    }
    if random.chance(10) {
        auction.lists[random.index(4)].resize(any, 1);
    }
}

/// A price above the ceiling; where the ceiling is the highest, it falls below a price.
fn put_above_ceiling(random: &mut Random, auction: &mut Sealed) {
    let Some((place, offer)) = one_of(random, auction) else {
        return;
    };
    if auction.ceiling < HIGHEST_PRICE {
        let any = random.between(auction.ceiling + 1, HIGHEST_PRICE);
        auction.lists[PRICES][place] = random.one_of(&[auction.ceiling + 1, any]);
    } else {
        auction.ceiling = offer.price.saturating_sub(1).max(1);
    }
}
