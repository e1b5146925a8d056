//! Agents of the registrations of a book (document 02, request 10): of several developers each, with
//! existing plants and without, by frame 08 among registrations by frame 02; a target demand of which
//! an agent's existing plants are 15 per cent, or nearly so; and books of which about half goes to
//! small agents.

use super::books::{register, settings_for, supply, Book};
use crate::generators::random::Random;
use crate::model::auction::{EXISTING, NEW, NUMBERS};
use crate::model::demand::HIGHEST_M2;
use crate::model::replay::Call;
use std::collections::BTreeMap;

/// Names the agents of some registrations; now and then of none.
pub fn name_some(random: &mut Random, registrations: &mut [Call]) {
    let named = random.one_of(&[0, 30, 60, 90, 100]);
    let common = common_agents(random, registrations);
    for registration in registrations {
        let Call::Register {
            developer, agent, ..
        } = registration
        else {
            continue;
        };
        if random.chance(named) {
            let any = random.between(1, 32) as u8;
            let of_several = random.one_of(&common);
            *agent = Some(random.one_of(&[of_several, of_several, of_several, *developer, any]));
        }
    }
}

/// One agent or a few, most with the number of an existing plant, which may be registered by frame
/// 02.
fn common_agents(random: &mut Random, registrations: &[Call]) -> Vec<u8> {
    let existing: Vec<u8> = registrations
        .iter()
        .filter_map(|registration| match registration {
            Call::Register {
                developer,
                kind: EXISTING,
                ..
            } => Some(*developer),
            _ => None,
        })
        .collect();
    let mut numbers = if existing.is_empty() || random.chance(20) {
        NUMBERS.collect()
    } else {
        existing
    };
    random.shuffle(&mut numbers);
    numbers.truncate(random.one_of(&[1, 1, 2, 3, 5]));
    numbers
}

/// The sums of the highest levels of existing plants, by agent.
fn existing_by_agent(registrations: &[Call]) -> BTreeMap<u8, u64> {
    let mut sums = BTreeMap::new();
    for registration in registrations {
        if let Call::Register {
            developer,
            kind: EXISTING,
            agent,
            levels,
            ..
        } = registration
        {
            let highest = levels.last().expect("a level");
            *sums.entry(agent.unwrap_or(*developer)).or_default() += u64::from(*highest);
        }
    }
    sums
}

/// A target demand of which some agent's existing plants are just 15 per cent, or nearly so; none if
/// no agent's are of a whole demand within the bounds.
pub fn demand_at_15_per_cent(random: &mut Random, registrations: &[Call]) -> Option<u64> {
    let sums = existing_by_agent(registrations).into_values();
    let whole = sums.filter(|sum| (100 * sum).is_multiple_of(15));
    let mut demands: Vec<u64> = whole.map(|sum| 100 * sum / 15).collect();
    demands.retain(|demand| demand + 1 < HIGHEST_M2);
    (!demands.is_empty()).then(|| {
        let demand = random.one_of(&demands);
        near(random, demand)
    })
}

/// The demand, or one kWh beside it.
fn near(random: &mut Random, demand: u64) -> u64 {
    random.one_of(&[demand, demand, demand, demand - 1, demand + 1])
}

/// A book of equal new plants, about half of them of one agent, whose existing plant is 15 per cent
/// of D, or nearly so. With another existing plant they make about as much as D.
pub fn even_book(random: &mut Random) -> Book {
    let mut numbers: Vec<u8> = NUMBERS.collect();
    random.shuffle(&mut numbers);
    let (one, other) = (numbers[0], numbers[1]);
    let unit: u32 = random.one_of(&[1, 7, 500, 40_000, 3_000_000]);
    let mut registrations = vec![
        register(random, one, one, EXISTING, vec![unit, 3 * unit]),
        register(random, other, other, EXISTING, vec![8 * unit]),
    ];
    let count = random.one_of(&[2, 4, 6, 8]);
    let level = (10 * unit).div_ceil(count);
    let levels = &[level, 2 * level][..random.one_of(&[1, 2])];
    let every = random.one_of(&[2, 2, 3, 3, 4]);
    for (place, &number) in numbers[2..].iter().take(count as usize).enumerate() {
        let own = random.one_of(&[None, Some(number)]);
        let agent = if place % every == 0 { own } else { Some(one) };
        let plant = register(random, number, number, NEW, levels.to_vec());
        registrations.push(with_agent(plant, agent));
    }
    random.shuffle(&mut registrations);
    let supply = supply(&registrations);
    let d = near(random, 20 * u64::from(unit));
    Book {
        set_up: settings_for(random, supply, d),
        registrations,
    }
}

/// The registration for this agent, or without one.
pub fn with_agent(mut registration: Call, named: Option<u8>) -> Call {
    if let Call::Register { agent, .. } = &mut registration {
        *agent = named;
    }
    registration
}
