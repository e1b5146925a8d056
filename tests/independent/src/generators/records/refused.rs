//! Calls to be refused: sound ones for the auction as it stands, made out of turn or with one
//! to three causes planted, so that the order of the checks decides the number.

use super::agents::with_agent;
use super::books::{register, some_levels};
use super::choices;
use crate::generators::random::Random;
use crate::model::auction::{
    Auction, Developer, Phase, Round, EXISTING, HIGHEST_LEVEL, NEW, NUMBERS,
};
use crate::model::replay::Call;

/// A call with none to three planted causes. The phase may be one more, or the only one;
/// without any the call is sound.
pub fn call(random: &mut Random, auction: &Auction) -> Call {
    let mut call = sound(random, auction);
    for _ in 0..random.one_of(&[0, 1, 1, 1, 2, 2, 3]) {
        match &mut call {
            Call::SetUp { .. } => spoil_set_up(random, &mut call),
            Call::Register { .. } => spoil_registration(random, auction, &mut call),
            Call::Open { c } => *c = bad_round_price(random, auction),
            Call::Offer { .. } => spoil_offer(random, auction, &mut call),
            Call::Close => (),
            Call::Settle { limit } => *limit = limit_below(random, auction),
            Call::Lodge { .. } => spoil_lodging(random, auction, &mut call),
            Call::Cancel { developer } => *developer = without_offer(random, auction),
        }
    }
    call
}

/// A call as it could stand next, in half of the cases one of the phase.
fn sound(random: &mut Random, auction: &Auction) -> Call {
    let of_phase = match auction.phase() {
        Phase::Fresh => 1,
        Phase::Ready => random.one_of(&[2, 2, 3, 7, 7]),
        Phase::Round(_) => random.one_of(&[4, 4, 9]),
        Phase::Between => 3,
        Phase::Closed => 6,
    };
    let any = random.one_of(&[1, 2, 3, 4, 5, 6, 7, 9]);
    match random.one_of(&[of_phase, any]) {
        1 => Call::SetUp {
            ce: 20_000,
            d: 1_000,
            m1: 900,
            m2: 1_200,
            a: 40_000,
        },
        2 => registration(random, auction),
        3 => opening(random, auction),
        4 => offer(random, auction),
        5 => Call::Close,
        6 => Call::Settle {
            limit: random.one_of(&[100, 65_536, u32::MAX]),
        },
        7 => lodging(random, auction),
        _ => Call::Cancel {
            developer: second_offer(random, auction).unwrap_or(1),
        },
    }
}

fn spoil_set_up(random: &mut Random, call: &mut Call) {
    let Call::SetUp { ce, d, m1, m2, a } = call else {
        return;
    };
    let widest = (1 << 40) - 1;
    match random.between(1, 5) {
        1 => *ce = random.one_of(&[0, 1, 3, 19_999, 500_001, 500_002, 0xFFFF_FFFF]),
        2 => *d = random.one_of(&[0, *m1, *m2, widest.min(*m2 + 1)]),
        3 => *m1 = random.one_of(&[0, *d, widest.min(*d + 1)]),
        4 => *m2 = random.one_of(&[0, *d, 100_000_000_001, widest]),
        _ => *a = random.one_of(&[0, *ce / 2, (2 * *ce + 1).min(0xFFFF_FFFF), 0xFFFF_FFFF]),
    }
}

/// Mostly with a developer number that is still free.
fn registration(random: &mut Random, auction: &Auction) -> Call {
    let taken = auction.developers();
    let free: Vec<u8> = NUMBERS
        .filter(|number| !taken.contains_key(number))
        .collect();
    let developer = if free.is_empty() {
        1
    } else {
        random.one_of(&free)
    };
    let project = random.between(1, 32) as u8;
    let levels = some_levels(random, &[1, 2, 3, 5, 8, 13, 100, 150, 200, HIGHEST_LEVEL]);
    let kind = random.one_of(&[EXISTING, NEW]);
    let any = random.between(1, 32) as u8;
    let agent = random.one_of(&[None, Some(developer), Some(any)]);
    with_agent(register(random, project, developer, kind, levels), agent)
}

fn spoil_registration(random: &mut Random, auction: &Auction, call: &mut Call) {
    let Call::Register {
        project,
        developer,
        kind,
        agent,
        levels,
        ..
    } = call
    else {
        return;
    };
    let registered: Vec<(u8, u8)> = auction
        .developers()
        .values()
        .map(|other| (other.project, other.number))
        .chain([(0, 0)])
        .collect();
    let (other_project, other_developer) = random.one_of(&registered);
    match random.between(1, 6) {
        1 => *project = random.one_of(&[0, 33, 255]),
        2 => *developer = random.one_of(&[0, 33, 255, other_developer, other_developer]),
        3 => *kind = random.one_of(&[0, 3, 255]),
        // Wrong if either of the two is an existing plant.
        4 => (*project, *kind) = (other_project, random.one_of(&[EXISTING, NEW])),
        5 => *agent = Some(random.one_of(&[0, 33, 255])),
        _ => *levels = bad_levels(random, levels),
    }
}

/// None, too many for a call or even for a line, not strictly rising, from 0, or too high.
fn bad_levels(random: &mut Random, levels: &[u32]) -> Vec<u32> {
    let mut levels = levels.to_vec();
    match random.between(1, 6) {
        1 => levels.clear(),
        2 => levels = (1..=random.one_of(&[9, 9, 10, 16, 17])).collect(),
        3 => levels.extend(levels.last().copied()),
        4 => levels.extend([2, 1]),
        5 => levels.insert(0, 0),
        _ => levels.push(random.one_of(&[HIGHEST_LEVEL + 1, u32::MAX])),
    }
    levels
}

/// At any price that the next round could close at.
fn opening(random: &mut Random, auction: &Auction) -> Call {
    let (floor, opening_price) = (auction.settings().floor(), auction.opening_price());
    let highest = opening_price.max(floor + 1) - 1;
    Call::Open {
        c: random.between(floor, highest) as u32,
    }
}

fn bad_round_price(random: &mut Random, auction: &Auction) -> u32 {
    let (floor, opening_price) = (auction.settings().floor(), auction.opening_price());
    let below = floor.saturating_sub(1);
    let prices = [0, below, opening_price, opening_price + 1, 0xFFFF_FFFF];
    random.one_of(&prices) as u32
}

/// A step by a developer that may make an offer now, if there is one.
fn offer(random: &mut Random, auction: &Auction) -> Call {
    let mut developers: Vec<&Developer> = auction.developers().values().collect();
    developers.retain(|developer| developer.kind == NEW);
    if let Phase::Round(round) = auction.phase() {
        developers.retain(|developer| !round.offers.contains_key(&developer.number));
    }
    let mut numbers: Vec<u8> = developers
        .iter()
        .map(|developer| developer.number)
        .collect();
    if numbers.is_empty() {
        numbers.push(1);
    }
    let developer = random.one_of(&numbers);
    let (c, _) = round_prices(auction);
    let level = random.one_of(&declared(auction, developer));
    Call::Offer {
        developer,
        prices: vec![c],
        levels: vec![level],
    }
}

/// C and the opening price of the open round, or of one that could be.
fn round_prices(auction: &Auction) -> (u32, u32) {
    match auction.phase() {
        Phase::Round(Round {
            opening, closing, ..
        }) => (*closing as u32, *opening as u32),
        _ => (25_000, 40_000),
    }
}

fn declared(auction: &Auction, developer: u8) -> Vec<u32> {
    let known = auction.developers().get(&developer);
    let levels = known.into_iter().flat_map(|known| known.levels_and_0());
    levels.chain([0]).map(|level| level as u32).collect()
}

fn spoil_offer(random: &mut Random, auction: &Auction, call: &mut Call) {
    let Call::Offer {
        developer,
        prices,
        levels,
    } = call
    else {
        return;
    };
    let between = round_prices(auction);
    match random.between(1, 4) {
        1 => *developer = bad_developer(random, auction, EXISTING),
        2 => *developer = second_offer(random, auction).unwrap_or(*developer),
        3 => spoil_prices(random, between, prices),
        _ => spoil_levels(random, &declared(auction, *developer), levels),
    }
    make_equally_long(between, prices, levels);
}

/// A frame has as many prices as levels.
fn make_equally_long((lowest, _): (u32, u32), prices: &mut Vec<u32>, levels: &mut Vec<u32>) {
    let steps = prices.len().max(levels.len());
    let next = prices.last().map(|last| last.saturating_sub(1));
    prices.resize(steps, next.unwrap_or(lowest));
    levels.resize(steps, 0);
}

/// A step of an existing plant, if there is one, at a price that may be lodged.
fn lodging(random: &mut Random, auction: &Auction) -> Call {
    let existing = numbers_of(auction, EXISTING);
    let developer = if existing.is_empty() {
        1
    } else {
        random.one_of(&existing)
    };
    let (floor, a) = lodged_between(auction);
    Call::Lodge {
        developer,
        prices: vec![random.one_of(&[floor, a - 1])],
        levels: vec![random.one_of(&declared(auction, developer))],
    }
}

/// The floor and A, or those of an auction that could be.
fn lodged_between(auction: &Auction) -> (u32, u32) {
    let settings = auction.settings();
    if *auction.phase() == Phase::Fresh {
        (10_000, 40_000)
    } else {
        (settings.floor() as u32, settings.a as u32)
    }
}

fn spoil_lodging(random: &mut Random, auction: &Auction, call: &mut Call) {
    let Call::Lodge {
        developer,
        prices,
        levels,
    } = call
    else {
        return;
    };
    let between = lodged_between(auction);
    match random.between(1, 3) {
        1 => *developer = bad_developer(random, auction, NEW),
        2 => spoil_prices(random, between, prices),
        _ => spoil_levels(random, &declared(auction, *developer), levels),
    }
    make_equally_long(between, prices, levels);
}

/// Outside the numbers, of the wrong kind, or perhaps not registered.
fn bad_developer(random: &mut Random, auction: &Auction, wrong_kind: u8) -> u8 {
    let mut numbers = numbers_of(auction, wrong_kind);
    numbers.extend([0, 33, 255, random.between(1, 32) as u8]);
    random.one_of(&numbers)
}

/// The developers of the kind.
fn numbers_of(auction: &Auction, kind: u8) -> Vec<u8> {
    let developers = auction.developers().values();
    let of_kind = developers.filter(|developer| developer.kind == kind);
    of_kind.map(|developer| developer.number).collect()
}

/// A developer who may not cancel: one that may not offer, or one without an offer in the round.
fn without_offer(random: &mut Random, auction: &Auction) -> u8 {
    let mut numbers = numbers_of(auction, NEW);
    if let Phase::Round(round) = auction.phase() {
        numbers.retain(|number| !round.offers.contains_key(number));
    }
    if numbers.is_empty() || random.chance(40) {
        bad_developer(random, auction, EXISTING)
    } else {
        random.one_of(&numbers)
    }
}

/// A developer whose offer stands.
fn second_offer(random: &mut Random, auction: &Auction) -> Option<u8> {
    let Phase::Round(round) = auction.phase() else {
        return None;
    };
    let made: Vec<u8> = round.offers.keys().copied().collect();
    (!made.is_empty()).then(|| random.one_of(&made))
}

/// Below the lowest, from the price above the highest on, not falling, or too many steps for a call
/// or a line.
fn spoil_prices(random: &mut Random, (lowest, above): (u32, u32), prices: &mut Vec<u32>) {
    match random.between(1, 5) {
        1 => prices.push(lowest.saturating_sub(1)),
        2 => prices.insert(0, above),
        3 => prices.push(above - 1),
        4 => prices.extend(prices.last().copied()),
        _ => {
            let steps = random.one_of(&[9, 9, 10]);
            *prices = (0..steps)
                .map(|step| above.saturating_sub(1 + step))
                .collect();
        }
    }
}

/// Not declared, not below the last, or above the quantity.
fn spoil_levels(random: &mut Random, declared: &[u32], levels: &mut Vec<u32>) {
    match random.between(1, 4) {
        1 => levels.insert(0, random.one_of(declared) + 1),
        2 => levels.extend(levels.last().copied()),
        3 => levels.push(random.one_of(declared)),
        _ => *levels = vec![random.one_of(&[HIGHEST_LEVEL, u32::MAX])],
    }
}

/// One below the number of choices, or 0.
fn limit_below(random: &mut Random, auction: &Auction) -> u32 {
    random.one_of(&[0, choices(auction) - 1])
}
