//! Sealed auctions (document 02, request 13), from a seed: offers alike in age and price, demand
//! that ends at an offer's turn, prices up to the ceiling; some that are refused; buffers of any
//! length.

use super::spoiled::spoil;
use crate::generators::random::Random;
use crate::model::sealed::{
    Offer, Sealed, HIGHEST_AGE, HIGHEST_DEMAND, HIGHEST_PRICE, HIGHEST_QUANTITY,
};
use crate::model::sealed::{MOST_OFFERS, PRICES};

/// The auction of a seed, with the length of the buffer. About half have an outcome that fits it.
pub fn auction(seed: u64) -> (Sealed, usize) {
    let mut random = Random::new(seed);
    let random = &mut random;
    let mut auction = sound(random);
    for _ in 0..random.one_of(&[0, 0, 0, 0, 0, 0, 1, 1, 1, 2]) {
        spoil(random, &mut auction);
    }
    let buffer = buffer(random, auction.lists[PRICES].len());
    (auction, buffer)
}

fn sound(random: &mut Random) -> Sealed {
    let ceiling = match random.between(1, 10) {
        1 => 1,
        2..=3 => HIGHEST_PRICE,
        4..=5 => random.between(1, 4),
        _ => random.of_any_size(1, HIGHEST_PRICE),
    };
    let any = random.between(0, MOST_OFFERS as u64) as usize;
    let count = random.one_of(&[0, 1, 2, 3, any, any, any, any, MOST_OFFERS, MOST_OFFERS]);
    let of = Scale::new(random, ceiling);
    let offers: Vec<Offer> = (0..count).map(|_| of.offer(random)).collect();
    let mut auction = Sealed::new(ceiling, HIGHEST_DEMAND, &offers);
    auction.demand = demand(random, &auction);
    auction
}

/// What the offers of an auction are drawn from: few prices and ages, so that some are alike, or many.
struct Scale {
    prices: Vec<u64>,
    ages: Vec<u64>,
    quantity: u64,
}

impl Scale {
    fn new(random: &mut Random, ceiling: u64) -> Scale {
        let mut prices = vec![ceiling, ceiling.max(2) - 1];
        let more = random.one_of(&[0, 1, 2, 20]);
        prices.extend((0..more).map(|_| random.between(1, ceiling)));
        let ages: Vec<u64> = (0..=HIGHEST_AGE).collect();
        let few = random.one_of(&[1, 2, 3, ages.len()]);
        Scale {
            prices,
            ages: random.some_of(&ages, few),
            quantity: random.one_of(&[3, 10, 1_000, 1_000_000, HIGHEST_QUANTITY]),
        }
    }

    fn offer(&self, random: &mut Random) -> Offer {
        let any = random.between(1, self.quantity);
        let quantity = random.one_of(&[1, any, any, any, self.quantity]);
        let any = random.between(1, quantity);
        let small = random.of_any_size(1, quantity);
        Offer {
            price: random.one_of(&self.prices),
            quantity,
            minimum: random.one_of(&[1, any, any, small, quantity]),
            age: random.one_of(&self.ages),
        }
    }
}

/// Demand that ends within the offers, or anywhere.
fn demand(random: &mut Random, auction: &Sealed) -> u64 {
    let turns = auction.outcome().expect("sound offers").turns;
    let offered: u64 = turns.iter().map(|turn| turn.award).sum();
    match random.between(1, 20) {
        1 => 0,
        2 => HIGHEST_DEMAND,
        3 => random.of_any_size(0, HIGHEST_DEMAND),
        4..=11 if !turns.is_empty() => {
            // Those before it in full, and then a number at which the rule for this one changes.
            let turn = &turns[random.index(turns.len())];
            let Offer {
                minimum, quantity, ..
            } = turn.offer;
            let ends = [
                0,
                minimum - 1,
                minimum,
                quantity - 1,
                quantity,
                quantity + 1,
            ];
            HIGHEST_DEMAND - turn.left + random.one_of(&ends)
        }
        _ => random.between(0, offered),
    }
}

/// Exact, longer, one short, empty, or any shorter.
fn buffer(random: &mut Random, offers: usize) -> usize {
    match random.between(1, 20) {
        1..=12 => offers,
        13..=16 => offers + random.between(1, 20) as usize,
        17..=18 => offers.saturating_sub(1),
        19 => 0,
        _ => random.index(offers + 1),
    }
}
