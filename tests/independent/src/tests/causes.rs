//! The order of the checks on generated records: each check is made alone here, whatever the
//! others say, and the answer has to be the first in the paper's order that fails.

use super::{each_step, Step, RECORDS};
use independent::model::auction::{Auction, Developer, Phase, EXISTING, NEW};
use independent::model::demand::demand;
use independent::model::replay::{kind_of, Call};
use independent::model::settling::number_of_choices;
use std::collections::BTreeMap;

/// The checks of each call in order, with whether each one fails.
fn failing(auction: &Auction, call: &Call) -> Vec<(u8, bool)> {
    let phase = auction.phase();
    let out_of_phase = match call {
        Call::SetUp { .. } => *phase != Phase::Fresh,
        Call::Register { .. } | Call::Lodge { .. } => *phase != Phase::Ready,
        Call::Open { .. } => !matches!(phase, Phase::Ready | Phase::Between),
        Call::Offer { .. } | Call::Cancel { .. } | Call::Close => !matches!(phase, Phase::Round(_)),
        Call::Settle { .. } => *phase != Phase::Closed,
    };
    let mut checks = vec![(2, out_of_phase)];
    checks.extend(match call {
        &Call::SetUp { ce, d, m1, m2, a } => {
            vec![(1, demand(ce, d, m1, m2, a).is_err() || 2 * a <= ce)]
        }
        Call::Register { .. } => registration(auction, call),
        &Call::Open { c } => opening(auction, c.into()),
        Call::Offer { .. } => offer(auction, call),
        Call::Close => Vec::new(),
        &Call::Settle { limit } => vec![(10, choices(auction) > u64::from(limit.min(65_536)))],
        Call::Lodge { .. } => lodging(auction, call),
        &Call::Cancel { developer } => cancellation(auction, developer),
    });
    checks
}

fn registration(auction: &Auction, call: &Call) -> Vec<(u8, bool)> {
    let Call::Register {
        project,
        developer,
        kind,
        agent,
        levels,
        ..
    } = call
    else {
        return Vec::new();
    };
    let outside = |number: &u8| *number < 1 || *number > 32;
    let bad_agent = agent.is_some_and(|agent| outside(&agent));
    let used = auction.developers().contains_key(developer);
    let mut on_project = auction
        .developers()
        .values()
        .filter(|d| d.project == *project);
    let rising = levels.windows(2).all(|pair| pair[0] < pair[1]);
    let bounded = levels
        .iter()
        .all(|level| (1..=1_000_000_000).contains(level));
    let bad_levels = levels.is_empty() || levels.len() > 8 || !rising || !bounded;
    let bad_project = match *kind {
        EXISTING => on_project.next().is_some(),
        NEW => on_project.any(|d| d.kind == EXISTING),
        _ => true,
    };
    vec![
        (
            3,
            outside(project) || outside(developer) || bad_agent || used,
        ),
        (4, bad_levels || bad_project),
    ]
}

fn opening(auction: &Auction, c: u64) -> Vec<(u8, bool)> {
    let settings = auction.settings();
    let first = *auction.phase() == Phase::Ready;
    vec![
        (5, c < settings.floor() || c >= auction.opening_price()),
        (9, first && auction.supply() < settings.demand(settings.a)),
    ]
}

fn offer(auction: &Auction, call: &Call) -> Vec<(u8, bool)> {
    let Call::Offer {
        developer,
        prices,
        levels,
    } = call
    else {
        return Vec::new();
    };
    let known = auction.developers().get(developer);
    let (c, opening_price, second) = match auction.phase() {
        Phase::Round(round) => (
            round.closing,
            round.opening,
            round.offers.contains_key(developer),
        ),
        _ => (0, u64::MAX, false),
    };
    vec![
        (3, known.is_none_or(|d| d.kind == EXISTING)),
        (8, second),
        (6, bad_prices(prices, c, opening_price)),
        (7, bad_falls(levels, known)),
    ]
}

fn lodging(auction: &Auction, call: &Call) -> Vec<(u8, bool)> {
    let Call::Lodge {
        developer,
        prices,
        levels,
    } = call
    else {
        return Vec::new();
    };
    let known = auction.developers().get(developer);
    let settings = auction.settings();
    vec![
        (15, known.is_none_or(|d| d.kind == NEW)),
        (6, bad_prices(prices, settings.floor(), settings.a)),
        (7, bad_falls(levels, known)),
    ]
}

fn cancellation(auction: &Auction, developer: u8) -> Vec<(u8, bool)> {
    let known = auction.developers().get(&developer);
    let standing = match auction.phase() {
        Phase::Round(round) => round.offers.contains_key(&developer),
        _ => false,
    };
    vec![
        (3, known.is_none_or(|d| d.kind == EXISTING)),
        (16, !standing),
    ]
}

/// More than 8, not falling, or not from the lowest to the one before `above`.
fn bad_prices(prices: &[u32], lowest: u64, above: u64) -> bool {
    let outside = |price: &u32| u64::from(*price) < lowest || u64::from(*price) >= above;
    prices.len() > 8 || prices.iter().any(outside) || !falling(prices)
}

/// Not all declared or 0, not falling, or not from below the developer's quantity.
fn bad_falls(levels: &[u32], known: Option<&Developer>) -> bool {
    let declared = |level: u32| known.is_some_and(|d| d.levels.contains(&level.into()));
    let too_high = |level: &u32| known.is_some_and(|d| u64::from(*level) >= d.quantity);
    let unknown = levels.iter().any(|&level| level != 0 && !declared(level));
    unknown || !falling(levels) || levels.first().is_some_and(too_high)
}

fn falling(numbers: &[u32]) -> bool {
    numbers.windows(2).all(|pair| pair[0] > pair[1])
}

/// Before the auction is closed, at least one.
fn choices(auction: &Auction) -> u64 {
    match auction.phase() {
        Phase::Closed => number_of_choices(&auction.open_levels(auction.closing_price())),
        _ => 1,
    }
}

/// Two causes that meet in one call, by kind and in the order of the checks. Of the others no
/// two can meet: an unknown developer has no offer, and none is made outside a round.
const MEETING: &[(u8, u8, u8)] = &[
    (1, 2, 1),
    (2, 2, 3),
    (2, 2, 4),
    (2, 3, 4),
    (3, 2, 5),
    (3, 5, 9),
    (4, 2, 3),
    (4, 2, 6),
    (4, 2, 7),
    (4, 3, 6),
    (4, 3, 7),
    (4, 6, 7),
    (4, 8, 6),
    (4, 8, 7),
    (6, 2, 10),
    (7, 2, 6),
    (7, 2, 7),
    (7, 2, 15),
    (7, 6, 7),
    (7, 15, 6),
    (7, 15, 7),
    (8, 2, 3),
    (8, 2, 4),
    (8, 3, 4),
    (9, 2, 3),
    (9, 2, 16),
    (9, 3, 16),
];

#[test]
fn first_failing_check_answers() {
    let mut meeting: BTreeMap<(u8, u8, u8), u64> = BTreeMap::new();
    let mut visit = |step: Step| {
        let Some(call) = step.call else {
            return;
        };
        let checks = failing(step.before, call);
        let causes: Vec<u8> = checks
            .iter()
            .filter(|check| check.1)
            .map(|check| check.0)
            .collect();
        assert_eq!(step.answer.as_ref().err(), causes.first(), "{call:?}");
        let kind = kind_of(call);
        for (place, &first) in causes.iter().enumerate() {
            for &second in &causes[place + 1..] {
                *meeting.entry((kind, first, second)).or_default() += 1;
            }
        }
    };
    for record in &RECORDS[..5_000] {
        each_step(record, &mut visit);
    }
    println!("kind, first cause, second cause, calls: {meeting:?}");
    let met: Vec<(u8, u8, u8)> = meeting.into_keys().collect();
    assert_eq!(met, MEETING);
}
