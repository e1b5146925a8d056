//! Agents and participation (document 02, request 10) on generated records: mark and price paid by
//! other sums, wrong readings of the rule, and what does not go by agents.

use super::{each_step, RECORDS, SETTLINGS};
use independent::generators::cutting::refused;
use independent::generators::records::with_agent;
use independent::model::auction::{Auction, Developer, EXISTING, NEW};
use independent::model::replay::{kind_of, lines, make, read_call, replay, write_call, Call};
use independent::model::settling::Settlement;
use std::collections::BTreeMap;

/// With sums agent by agent: less for small agents than for others.
#[test]
fn generated_settlings() {
    let (mut insufficient, mut lowered) = (0, 0);
    for (auction, settlement) in &*SETTLINGS {
        let (mut existing, mut awarded) = (BTreeMap::new(), BTreeMap::new());
        for developer in auction.developers().values() {
            let highest = u128::from(*developer.levels.iter().max().expect("a level"));
            let amount = if developer.kind == EXISTING {
                highest
            } else {
                0
            };
            *existing.entry(developer.agent).or_insert(0) += amount;
        }
        for award in &settlement.awards {
            let developer = &auction.developers()[&award.developer];
            if developer.kind == NEW {
                *awarded.entry(developer.agent).or_insert(0) += u128::from(award.quantity);
            }
        }
        let d = u128::from(auction.settings().d);
        let (small, others): (Vec<_>, Vec<_>) = awarded
            .into_iter()
            .partition(|(agent, _)| existing[agent] * 20 < d * 3);
        let sum = |awards: Vec<(u8, u128)>| awards.iter().map(|award| award.1).sum::<u128>();
        assert_eq!(settlement.insufficient, sum(small) < sum(others));
        let p = settlement.price;
        let above = 10 * p > 11 * auction.settings().ce;
        if settlement.insufficient && above {
            let less = 11 * auction.settings().ce - 10 * settlement.paid;
            assert!(settlement.paid <= p && less < 10);
            lowered += 1;
        } else {
            assert_eq!(settlement.paid, p);
        }
        insufficient += u64::from(settlement.insufficient);
    }
    assert!(
        insufficient > 300 && lowered > 150,
        "{insufficient} insufficient, {lowered} lowered"
    );
}

/// What a wrong rule says of a settlement: mark and price paid.
type Reading = fn(&Auction, &Settlement) -> (bool, u64);

const WRONG_READINGS: &[(&str, Reading)] = &[
    ("small at just 15 per cent", |auction, settlement| {
        let small = |agent| 100 * existing(auction, agent) <= 15 * auction.settings().d;
        with_mark(auction, settlement, |developer| small(developer.agent))
    }),
    ("small by what is left", |auction, settlement| {
        let small = |agent| {
            let plants = plants(auction, agent);
            100 * plants.map(|plant| plant.quantity).sum::<u64>() < 15 * auction.settings().d
        };
        with_mark(auction, settlement, |developer| small(developer.agent))
    }),
    ("small by each plant", |auction, settlement| {
        let small = |agent| {
            let mut plants = plants(auction, agent);
            plants.all(|plant| 100 * plant.highest_level() < 15 * auction.settings().d)
        };
        with_mark(auction, settlement, |developer| small(developer.agent))
    }),
    ("the developer is the agent", |auction, settlement| {
        let small = |developer: &Developer| {
            developer.kind == NEW || 100 * developer.highest_level() < 15 * auction.settings().d
        };
        with_mark(auction, settlement, small)
    }),
    ("more than half", |auction, settlement| {
        let (small, whole) = new_award(auction, settlement, |d| auction.is_small(d.agent));
        let insufficient = whole > 0 && 2 * small <= whole;
        (
            insufficient,
            auction.paid_to_existing(settlement.price, insufficient),
        )
    }),
    ("half of the whole award", |auction, settlement| {
        let (small, _) = new_award(auction, settlement, |d| auction.is_small(d.agent));
        let insufficient = 2 * small < settlement.total;
        (
            insufficient,
            auction.paid_to_existing(settlement.price, insufficient),
        )
    }),
    ("always the lower", |auction, settlement| {
        let paid = auction.paid_to_existing(settlement.price, true);
        (settlement.insufficient, paid)
    }),
    ("never the lower", |_, settlement| {
        (settlement.insufficient, settlement.price)
    }),
    ("CE × 11 / 10 above P", |auction, settlement| {
        let paid = if settlement.insufficient {
            auction.most_paid()
        } else {
            settlement.price
        };
        (settlement.insufficient, paid)
    }),
    ("rounded up", |auction, settlement| {
        let most = (11 * auction.settings().ce).div_ceil(10);
        let p = settlement.price;
        let paid = if settlement.insufficient {
            p.min(most)
        } else {
            p
        };
        (settlement.insufficient, paid)
    }),
];

fn plants(auction: &Auction, agent: u8) -> impl Iterator<Item = &Developer> {
    let developers = auction.developers().values();
    developers.filter(move |d| d.kind == EXISTING && d.agent == agent)
}

fn existing(auction: &Auction, agent: u8) -> u64 {
    let plants = plants(auction, agent);
    plants.map(Developer::highest_level).sum()
}

/// The new award of such developers, and the whole.
fn new_award(
    auction: &Auction,
    settlement: &Settlement,
    such: impl Fn(&Developer) -> bool,
) -> (u64, u64) {
    let awards = settlement.awards.iter();
    let awards = awards.map(|award| (&auction.developers()[&award.developer], award.quantity));
    let new: Vec<(&Developer, u64)> = awards.filter(|(d, _)| d.kind == NEW).collect();
    let of_such = new.iter().filter(|(d, _)| such(d)).map(|award| award.1);
    (of_such.sum(), new.iter().map(|award| award.1).sum())
}

/// Mark and price paid, were these developers the small ones.
fn with_mark(
    auction: &Auction,
    settlement: &Settlement,
    small: impl Fn(&Developer) -> bool,
) -> (bool, u64) {
    let (small, whole) = new_award(auction, settlement, small);
    let insufficient = 2 * small < whole;
    let paid = auction.paid_to_existing(settlement.price, insufficient);
    (insufficient, paid)
}

/// Each wrong reading shows in generated settlings.
#[test]
fn wrong_readings() {
    for (name, reading) in WRONG_READINGS {
        let settlings = SETTLINGS.iter();
        let differ = settlings.filter(|(auction, settlement)| {
            reading(auction, settlement) != (settlement.insufficient, settlement.paid)
        });
        let count = differ.count();
        println!("{name}: {count} of {} settlings differ", SETTLINGS.len());
        assert!(count >= 20, "{name}: {count}");
    }
}

/// With agents left out of the accepted registrations, each reply is the same
/// but for its kind and, at the end of a settling's, mark and price paid.
#[test]
fn nothing_else_goes_by_agents() {
    let mut left_out = 0;
    for record in &RECORDS[..3_000] {
        let replies = replay(record);
        let refused = refused(&replies);
        let mut without_agents = Vec::new();
        for (place, line) in lines(record).into_iter().enumerate() {
            let call = read_call(line).filter(|_| !refused.contains(&place));
            let line = match call {
                Some(call) if kind_of(&call) == 8 => {
                    left_out += 1;
                    write_call(&with_agent(call, None))
                }
                _ => line.to_vec(),
            };
            without_agents.extend([&line[..], b"\n"].concat());
        }
        let others = replay(&without_agents);
        for (reply, other) in lines(&replies).into_iter().zip(lines(&others)) {
            assert_eq!(beside_agents(reply), beside_agents(other));
        }
    }
    assert!(left_out > 10_000, "{left_out} agents");
}

/// What a reply says beside agents.
fn beside_agents(reply: &[u8]) -> Vec<u8> {
    match reply.get(..4) {
        Some(b"0800") => b"0200".to_vec(),
        Some(b"0600") => reply[..reply.len() - 10].to_vec(),
        _ => reply.to_vec(),
    }
}

/// A registration for a sound agent has the answer of one without, and leaves
/// the same auction but for the agent.
#[test]
fn named_or_not() {
    let mut named = 0;
    for record in &RECORDS[..1_000] {
        each_step(record, |step| {
            let Some(call @ Call::Register { agent, .. }) = step.call else {
                return;
            };
            if agent.is_some_and(|agent| (1..=32).contains(&agent)) {
                let mut other = step.before.clone();
                let answer = make(&mut other, &with_agent(call.clone(), None));
                assert_eq!(answer, *step.answer);
                let mut developers = other.developers().clone();
                for (number, developer) in &mut developers {
                    developer.agent = step.after.developers()[number].agent;
                }
                assert_eq!(developers, *step.after.developers());
                named += 1;
            }
        });
    }
    assert!(named > 3_000, "{named} registrations");
}
