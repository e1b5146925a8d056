//! Questions who can force the price (document 02, request 11), from a seed: records of auctions
//! stopped between rounds, and of others; rivals and lists of prices around those at which demand
//! meets what the rivals leave; lists and pairs that are none; buffers of any length.

mod spoiled;
pub mod stated;

use crate::generators::lent::lend;
use crate::generators::random::Random;
use crate::generators::records::{late_record, record};
use crate::model::auction::{Auction, Developer, Phase, NEW};
use crate::model::forcing::MOST_PRICES;
use crate::model::replay::{self, auction_after, lines, make, read_call};
use crate::model::settling::lowest;
use std::collections::BTreeSet;

/// What the C call takes, with the length of the buffer.
#[derive(Clone, Debug, PartialEq, Eq)]
pub struct Question {
    pub record: Vec<u8>,
    pub first: u64,
    pub second: u64,
    pub prices: Vec<u64>,
    pub buffer: usize,
}

/// The C call: record, first, second, prices and buffer.
type Call<'a> = &'a dyn Fn(&[u8], u64, u64, &[u64], &mut [u8]) -> u64;

impl Question {
    /// A call's number, and the memory that the buffer is in.
    pub fn ask(&self, call: Call) -> (u64, Vec<u8>) {
        lend(self.buffer, |buffer| {
            call(&self.record, self.first, self.second, &self.prices, buffer)
        })
    }
}

/// The question of a seed. About half have an answer.
pub fn question(seed: u64) -> Question {
    let mut random = Random::new(!seed);
    let random = &mut random;
    let record = match random.between(1, 20) {
        1..=15 => late_record(seed),
        16..=17 => stopped(random, &record(seed), between_rounds),
        18 => stopped_elsewhere(random, &late_record(seed)),
        _ => stopped_elsewhere(random, &record(seed)),
    };
    let auction = auction_after(&record);
    Question {
        record,
        ..about(random, &auction)
    }
}

/// A question about the auction, whatever record it is of.
pub fn about(random: &mut Random, auction: &Auction) -> Question {
    let [first, second] = rivals(random, auction);
    let mut asked = Question {
        prices: prices(random, auction, [first, second]),
        record: Vec::new(),
        first: first.into(),
        second: second.into(),
        buffer: random.one_of(&[1, 1, 1, 1, 1, 1, 1, 2, 7, 64, 0]),
    };
    for _ in 0..random.one_of(&[0, 0, 0, 0, 0, 0, 1, 1, 1, 2]) {
        spoiled::spoil(random, auction, &mut asked);
    }
    asked
}

fn between_rounds(auction: &Auction) -> bool {
    *auction.phase() == Phase::Between
}

/// The record up to a line behind which no game can be played.
fn stopped_elsewhere(random: &mut Random, record: &[u8]) -> Vec<u8> {
    const PHASES: [fn(&Auction) -> bool; 5] = [
        |auction| *auction.phase() == Phase::Fresh,
        |auction| *auction.phase() == Phase::Ready,
        |auction| matches!(auction.phase(), Phase::Round(_)) && auction.last_c().is_none(),
        |auction| matches!(auction.phase(), Phase::Round(_)) && auction.last_c().is_some(),
        |auction| *auction.phase() == Phase::Closed,
    ];
    let such = random.one_of(&PHASES);
    stopped(random, record, such)
}

/// The record up to one of the lines behind which its auction is such; if it is behind none, up to any
/// line.
fn stopped(random: &mut Random, record: &[u8], such: fn(&Auction) -> bool) -> Vec<u8> {
    let lines = lines(record);
    let mut auction = Auction::new();
    let mut places = Vec::from_iter(such(&auction).then_some(0));
    for (line, place) in lines.iter().zip(1..) {
        match read_call(line) {
            Some(replay::Call::Settle { .. }) | None => (),
            // Refused or not, the auction is then as the record leaves it.
            Some(call) => drop(make(&mut auction, &call)),
        }
        places.extend(such(&auction).then_some(place));
    }
    let place = match places[..] {
        [] => random.index(lines.len() + 1),
        _ => random.one_of(&places),
    };
    let mut record = lines[..place].join(&b'\n');
    if random.chance(70) {
        record.push(b'\n');
    }
    record
}

/// Two new plants of different projects, if there are such, else any two numbers.
fn rivals(random: &mut Random, auction: &Auction) -> [u8; 2] {
    let developers = auction.developers().values();
    let mut new: Vec<&Developer> = developers.filter(|d| d.kind == NEW).collect();
    random.shuffle(&mut new);
    if random.chance(60) {
        // One who can move something begins.
        new.sort_by_key(|rival| left_by(auction, &[rival.number]) == auction.supply());
    }
    let second = new.iter().find(|other| other.project != new[0].project);
    match second {
        Some(second) => [new[0].number, second.number],
        None => [1, 2].map(|_| random.between(1, 32) as u8),
    }
}

/// The supply that is left when these are at 0.
pub fn left_by(auction: &Auction, gone: &[u8]) -> u64 {
    auction.sum_of_greatest(|developer| {
        if gone.contains(&developer.number) {
            0
        } else {
            developer.quantity
        }
    })
}

/// A sound list of prices, if the clock has any left: some at or above a price at which demand meets
/// what is left with or without the rivals, the others below it.
fn prices(random: &mut Random, auction: &Auction, rivals: [u8; 2]) -> Vec<u64> {
    let (floor, standing) = (auction.settings().floor(), auction.opening_price());
    if floor >= standing {
        return vec![random.between(0, 40_000)];
    }
    let meeting = meeting(auction, rivals, floor, standing - 1);
    let pivot = random.one_of(&meeting);
    let mut near: BTreeSet<u64> = [floor, standing - 1].into();
    for price in meeting {
        near.extend([price - 1, price, price + 1]);
    }
    for _ in 0..2 * MOST_PRICES {
        let above = pivot + random.of_any_size(0, standing - pivot);
        let below = pivot - random.of_any_size(0, pivot - floor);
        near.extend([random.between(floor, standing - 1), above, below]);
    }
    let near = near.range(floor..standing).copied();
    let (above, below): (Vec<u64>, Vec<u64>) = near.partition(|&price| price >= pivot);
    let count = random.between(1, MOST_PRICES as u64) as usize;
    let high = random.one_of(&[0, 1, 1, 2, 2, 3, 5, count]).min(count);
    let mut prices = random.some_of(&below, count - high);
    prices.extend(random.some_of(&above, count - prices.len()));
    prices.reverse();
    prices
}

/// The lowest prices that are covered by the supply, and by what is left of it without the one rival,
/// the other, and both; the highest price where none is.
fn meeting(auction: &Auction, [first, second]: [u8; 2], floor: u64, highest: u64) -> [u64; 4] {
    let gone: [&[u8]; 4] = [&[], &[first], &[second], &[first, second]];
    gone.map(|gone| {
        let left = left_by(auction, gone);
        lowest(floor, highest, |p| auction.settings().demand(p) <= left)
    })
}
