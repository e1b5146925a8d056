//! Pairs and lists that are not as document 02's request 11 describes them: one cause at a time.

use super::Question;
use crate::generators::random::Random;
use crate::model::auction::{Auction, Developer, EXISTING, NEW, NUMBERS};
use crate::model::forcing::MOST_PRICES;

/// Plants one cause of refusal 17, if the auction has what it takes.
pub(super) fn spoil(random: &mut Random, auction: &Auction, asked: &mut Question) {
    match random.between(1, 17) {
        1..=2 => asked.first = outside(random, asked.first),
        3..=4 => asked.second = outside(random, asked.second),
        5 => asked.first = unregistered(random, auction),
        6 => asked.second = unregistered(random, auction),
        7 => asked.first = one_of(random, auction, |d| d.kind == EXISTING).unwrap_or(0),
        8 => asked.second = one_of(random, auction, |d| d.kind == EXISTING).unwrap_or(0),
        9 => asked.second = asked.first,
        10 => put_in_one_project(random, auction, asked),
        11 => asked.prices.clear(),
        12 => asked.prices = too_many(random, auction),
        13..=14 => not_falling(random, &mut asked.prices),
        15 => set_last(&mut asked.prices, below_the_floor(random, auction)),
        16 => set_first(&mut asked.prices, too_high(random, auction)),
        _ => raise(random, &mut asked.prices),
    }
}

/// No number of a developer: beside the bounds, or one that is sound in fewer digits.
fn outside(random: &mut Random, sound: u64) -> u64 {
    let raised = sound | 1 << random.between(8, 63);
    random.one_of(&[0, 33, 255, raised, raised, raised, u64::MAX])
}

fn unregistered(random: &mut Random, auction: &Auction) -> u64 {
    let numbers = NUMBERS.filter(|number| !auction.developers().contains_key(number));
    let numbers: Vec<u8> = numbers.collect();
    match numbers[..] {
        [] => 0,
        _ => random.one_of(&numbers).into(),
    }
}

/// One of the developers of whom it holds.
fn one_of(
    random: &mut Random,
    auction: &Auction,
    holds: impl Fn(&Developer) -> bool,
) -> Option<u64> {
    let such = auction.developers().values().filter(|d| holds(d));
    let numbers: Vec<u8> = such.map(|developer| developer.number).collect();
    (!numbers.is_empty()).then(|| random.one_of(&numbers).into())
}

/// A pair of partners, if the auction has one.
fn put_in_one_project(random: &mut Random, auction: &Auction, asked: &mut Question) {
    let partner = |one: &Developer, other: &Developer| {
        one.kind == NEW && one.project == other.project && one.number != other.number
    };
    let has_partner = |one: &Developer| {
        let mut developers = auction.developers().values();
        developers.any(|other| partner(one, other))
    };
    if let Some(first) = one_of(random, auction, has_partner) {
        let registered = &auction.developers()[&(first as u8)];
        let second = one_of(random, auction, |other| partner(other, registered));
        (asked.first, asked.second) = (first, second.expect("a partner"));
    }
}

/// More than 10 falling prices from the standing price less 1 down; below the floor too if the clock
/// has fewer left.
fn too_many(random: &mut Random, auction: &Auction) -> Vec<u64> {
    let count = random.one_of(&[MOST_PRICES + 1, MOST_PRICES + 1, MOST_PRICES + 2, 256, 300]);
    let highest = auction.opening_price().saturating_sub(1);
    let prices = (0..count as u64).map(|fall| highest.saturating_sub(fall));
    prices.collect()
}

/// Two neighbours equal, or exchanged.
fn not_falling(random: &mut Random, prices: &mut Vec<u64>) {
    match prices[..] {
        [] => (),
        [only] => prices.push(only),
        _ => {
            let place = random.index(prices.len() - 1);
            if random.chance(50) {
                prices[place] = prices[place + 1];
            } else {
                prices.swap(place, place + 1);
            }
        }
    }
}

fn below_the_floor(random: &mut Random, auction: &Auction) -> u64 {
    let floor = auction.settings().floor();
    let any = random.of_any_size(0, floor);
    random.one_of(&[0, floor.saturating_sub(1), floor.saturating_sub(any + 1)])
}

/// The standing price, or one above.
fn too_high(random: &mut Random, auction: &Auction) -> u64 {
    let standing = auction.opening_price();
    let any = random.of_any_size(0, 1_000_000);
    random.one_of(&[standing, standing, standing + any, u64::MAX])
}

fn set_first(prices: &mut Vec<u64>, price: u64) {
    prices.truncate(MOST_PRICES);
    match prices.first_mut() {
        Some(first) => *first = price,
        None => prices.push(price),
    }
}

fn set_last(prices: &mut Vec<u64>, price: u64) {
    match prices.last_mut() {
        Some(last) => *last = price,
        None => prices.push(price),
    }
}

/// The first price as one that is sound in fewer digits.
fn raise(random: &mut Random, prices: &mut Vec<u64>) {
    let sound = prices.first().copied().unwrap_or(0);
    set_first(prices, sound | 1 << random.between(32, 63));
}
