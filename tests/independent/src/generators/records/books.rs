//! Sound settings and registrations, with a demand that the registered plants can meet.

use super::agents;
use crate::generators::random::Random;
use crate::model::auction::{Auction, EXISTING, MOST_LEVELS, NEW, NUMBERS};
use crate::model::demand::{demand, HIGHEST_M2};
use crate::model::replay::{make, Call};

/// What stands before the first round of an auction that can open it.
pub struct Book {
    pub set_up: Call,
    pub registrations: Vec<Call>,
}

pub fn book(random: &mut Random) -> Book {
    let scale = scale(random);
    let mut projects: Vec<u8> = NUMBERS.collect();
    let mut developers = projects.clone();
    random.shuffle(&mut projects);
    random.shuffle(&mut developers);
    let mut registrations = Vec::new();
    for (project, size) in projects.into_iter().zip(sizes(random)) {
        let left = developers.len().saturating_sub(size);
        let members = developers.split_off(left);
        registrations.extend(members_of(random, &scale, project, &members));
    }
    random.shuffle(&mut registrations);
    agents::name_some(random, &mut registrations);
    let supply = supply(&registrations);
    let set_up = match agents::demand_at_15_per_cent(random, &registrations) {
        Some(d) if random.chance(20) => settings_for(random, supply, d),
        _ => settings(random, supply),
    };
    Book {
        set_up,
        registrations,
    }
}

/// A book of many withdrawals: 32 developers of eight levels, each of which alone is enough for
/// another round.
pub fn long_book(random: &mut Random) -> Book {
    let scale: Vec<u32> = (1..=20).map(|multiple| multiple * 2_000).collect();
    let size = random.one_of(&[1, 2, 5]);
    let mut registrations = Vec::new();
    for developer in NUMBERS {
        let project = developer.div_ceil(size);
        let kind = if size == 1 {
            random.one_of(&[EXISTING, NEW, NEW])
        } else {
            NEW
        };
        let levels = random.some_of(&scale, MOST_LEVELS);
        registrations.push(register(random, project, developer, kind, levels));
    }
    random.shuffle(&mut registrations);
    agents::name_some(random, &mut registrations);
    let ce = random.one_of(&[200, 20_000, 500_000]);
    Book {
        set_up: set_up_at_m1(ce, 1),
        registrations,
    }
}

/// The number of developers of each project; now and then all projects with one each.
fn sizes(random: &mut Random) -> Vec<usize> {
    if random.chance(3) {
        return vec![1; NUMBERS.count()];
    }
    let (fewest, most) = random.one_of(&[(1, 3), (2, 6), (2, 6), (4, 8), (4, 8), (9, 20)]);
    let projects = random.between(fewest, most);
    (0..projects)
        .map(|_| random.one_of(&[1, 1, 1, 1, 1, 2, 2, 3, 5]))
        .collect()
}

/// The levels of one book: few, so that developers share them and totals tie. They are small, or
/// near the excess of 1,000 that another round takes, or as large as can be declared.
fn scale(random: &mut Random) -> Vec<u32> {
    let most = random.one_of(&[3, 8, 9, 12, 20, 100]);
    let unit = random.one_of(&[
        1, 7, 500, 2_000, 12_345, 12_345, 250_000, 1_000_000, 10_000_000,
    ]);
    (1..=most).map(|multiple| multiple * unit).collect()
}

/// The registrations of one project; several developers have many levels in common.
fn members_of(random: &mut Random, scale: &[u32], project: u8, developers: &[u8]) -> Vec<Call> {
    let kinds: &[u8] = match developers {
        [_] => &[EXISTING, NEW],
        _ => &[NEW],
    };
    let kind = random.one_of(kinds);
    let common = some_levels(random, scale);
    let mut registrations = Vec::new();
    for &developer in developers {
        let own = some_levels(random, scale);
        let part = some_levels(random, &common);
        let levels = random.one_of(&[&own, &part, &common]).clone();
        registrations.push(register(random, project, developer, kind, levels));
    }
    registrations
}

/// 1 to 8 of the levels, rising.
pub fn some_levels(random: &mut Random, levels: &[u32]) -> Vec<u32> {
    let count = random.between(1, MOST_LEVELS as u64);
    random.some_of(levels, count as usize)
}

/// A registration whose study value and start day are often those of another one.
pub fn register(
    random: &mut Random,
    project: u8,
    developer: u8,
    kind: u8,
    levels: Vec<u32>,
) -> Call {
    let any = random.any() as u32;
    Call::Register {
        project,
        developer,
        kind,
        agent: None,
        study: random.one_of(&[0, 400, 400, 500, u32::MAX, any]),
        day: random.one_of(&[0, 10, 10, 20, u32::MAX, any]),
        levels,
    }
}

/// Supply before any withdrawal.
pub fn supply(registrations: &[Call]) -> u64 {
    let mut auction = Auction::new();
    let set_up = auction.set_up(20_000, 1_000, 900, 1_200, 40_000);
    set_up.expect("the settings of the paper's sample");
    for registration in registrations {
        make(&mut auction, registration).expect("a sound registration");
    }
    auction.supply()
}

fn entrants_cost(random: &mut Random) -> u64 {
    let any = random.of_any_size(1, 250_000);
    2 * random.one_of(&[1, 3, 5, 20, 20, 10_000, 250_000, any, any])
}

/// Settings under which such a supply covers A, now and then just so, or is one short.
fn settings(random: &mut Random, supply: u64) -> Call {
    let ce = entrants_cost(random);
    if random.chance(1) {
        return set_up_at_m1(ce, supply + 1);
    }
    for _ in 0..20 {
        let (d, m1, m2) = if random.chance(5) {
            margins_from(random, supply)
        } else {
            margins_around(random, supply)
        };
        let a = opening_price(random, ce);
        if demand(ce, d, m1, m2, a).is_ok_and(|demanded| demanded <= supply) {
            return Call::SetUp { ce, d, m1, m2, a };
        }
    }
    set_up_at_m1(ce, 1)
}

/// Settings with this D, under which such a supply covers A: that is 2 × CE, where Dem is M1.
pub fn settings_for(random: &mut Random, supply: u64, d: u64) -> Call {
    let ce = entrants_cost(random);
    let most = supply.min(d - 1);
    let any = random.between(1, most);
    Call::SetUp {
        ce,
        d,
        m1: random.one_of(&[any, most]),
        m2: m2_above(random, d),
        a: 2 * ce,
    }
}

/// A is 2 × CE, where Dem is M1.
fn set_up_at_m1(ce: u64, m1: u64) -> Call {
    Call::SetUp {
        ce,
        d: m1 + 1,
        m1,
        m2: m1 + 2,
        a: 2 * ce,
    }
}

/// D, M1, M2 with D from a part of the supply to twice as much.
fn margins_around(random: &mut Random, supply: u64) -> (u64, u64, u64) {
    let most = random.between(supply.div_ceil(2), supply);
    let part = random.between(1, supply);
    let above = supply + random.of_any_size(0, supply);
    let d = random.one_of(&[most, most, part, above]).max(2);
    let m1 = d - random.of_any_size(1, d - 1);
    (d, m1, m2_above(random, d))
}

/// D, M1, M2 with M1 the supply, which then just covers 2 × CE.
fn margins_from(random: &mut Random, supply: u64) -> (u64, u64, u64) {
    let d = supply + random.of_any_size(1, supply);
    (d, supply, m2_above(random, d))
}

fn m2_above(random: &mut Random, d: u64) -> u64 {
    let near = d + random.of_any_size(1, d.min(HIGHEST_M2 - d));
    random.one_of(&[near, near, near, near, near, near, near, HIGHEST_M2])
}

fn opening_price(random: &mut Random, ce: u64) -> u64 {
    let (lowest, highest) = (ce / 2 + 1, 2 * ce);
    let any = random.between(lowest, highest);
    random.one_of(&[highest, highest, highest, any, any, any, any, lowest])
}
