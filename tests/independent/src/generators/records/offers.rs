//! The offers of a round. Many of them fall at one price, often one at which a step is lodged, so
//! that the auction often closes there with many levels open, and some are missing.

use super::lodgings::lodged_prices;
use crate::generators::random::Random;
use crate::model::auction::{Auction, Developer, Phase, Round, MOST_STEPS, NEW};
use crate::model::replay::Call;

/// How the developers behave in a round.
#[derive(Clone, Copy)]
enum Mood {
    /// Most offer no steps.
    Steady,
    /// Steps at any prices.
    Scattered,
    /// Most fall at the crowded price, among other prices.
    Crowded,
    /// Most make no offer.
    Abandoned,
}

/// What the offers of one round have in common.
struct Plan {
    mood: Mood,
    crowded_price: u32,
    /// About how many choices the levels open at one price may still make.
    budget: u64,
}

/// Sound offers for the open round, in any order, each developer's at most once. Before the
/// last round most stay, so that there is one.
pub fn offers(random: &mut Random, auction: &Auction, last: bool) -> Vec<Call> {
    let Phase::Round(round) = auction.phase() else {
        return Vec::new();
    };
    let mut plan = plan(random, auction, round, last);
    let mut offering: Vec<&Developer> = auction.developers().values().collect();
    offering.retain(|developer| developer.kind == NEW);
    random.shuffle(&mut offering);
    offering
        .into_iter()
        .filter_map(|developer| offer(random, round, developer, &mut plan))
        .collect()
}

fn plan(random: &mut Random, auction: &Auction, round: &Round, last: bool) -> Plan {
    use Mood::{Abandoned, Crowded, Scattered, Steady};
    let moods: &[Mood] = if last {
        &[Scattered, Crowded, Crowded, Crowded, Crowded, Abandoned]
    } else {
        &[
            Steady, Steady, Steady, Steady, Scattered, Crowded, Crowded, Abandoned,
        ]
    };
    let (lowest, highest) = prices(round);
    let any = random.between(lowest.into(), highest.into()) as u32;
    let lodged = lodged_prices(auction, &round.passes());
    let mut plan = Plan {
        mood: random.one_of(moods),
        crowded_price: if !lodged.is_empty() && random.chance(50) {
            random.one_of(&lodged) as u32
        } else {
            random.one_of(&[lowest, any, any, highest])
        },
        // One round in twenty may make more choices than are looked at.
        budget: if random.chance(5) {
            u64::MAX
        } else {
            random.one_of(&[8, 64, 1_024, 16_384, 65_536])
        },
    };
    plan.spend_on_lodged(auction);
    plan
}

/// The lowest and the highest price that a step may have.
fn prices(round: &Round) -> (u32, u32) {
    (round.closing as u32, round.opening as u32 - 1)
}

/// None for a missing offer.
fn offer(
    random: &mut Random,
    round: &Round,
    developer: &Developer,
    plan: &mut Plan,
) -> Option<Call> {
    let (missing, stepping) = match plan.mood {
        Mood::Steady => (5, 20),
        Mood::Scattered => (10, 90),
        Mood::Crowded => (5, 95),
        Mood::Abandoned => (70, 70),
    };
    if random.chance(missing) && plan.spend(developer, 0) {
        return None;
    }
    let steps = if random.chance(stepping) {
        affordable_steps(random, round, developer, plan)
    } else {
        Vec::new()
    };
    let (prices, levels) = steps.into_iter().unzip();
    Some(Call::Offer {
        developer: developer.number,
        prices,
        levels,
    })
}

impl Plan {
    /// Whether a fall to the level leaves the choices within the budget; at most all levels
    /// from there to the quantity become open.
    fn spend(&mut self, developer: &Developer, level: u64) -> bool {
        let fallen = developer.levels_and_0();
        let open = fallen.filter(|known| (level..=developer.quantity).contains(known));
        let left = self.budget / open.count() as u64;
        if left > 0 {
            self.budget = left;
        }
        left > 0
    }

    /// What the steps lodged at the crowded price open, as far as the budget goes.
    fn spend_on_lodged(&mut self, auction: &Auction) {
        for plant in auction.developers().values() {
            let mut steps = plant.lodged.iter();
            if let Some(step) = steps.find(|step| step.price == self.crowded_price.into()) {
                self.spend(plant, step.level);
            }
        }
    }
}

/// Steps (price, level): in a crowded round with one at the crowded price, if the budget
/// allows.
fn affordable_steps(
    random: &mut Random,
    round: &Round,
    developer: &Developer,
    plan: &mut Plan,
) -> Vec<(u32, u32)> {
    if matches!(plan.mood, Mood::Crowded) {
        let mut prices = vec![plan.crowded_price];
        prices.extend(some_prices(random, round, &[0, 0, 0, 1, 2]));
        let steps = some_steps(random, developer, prices);
        let crowded = steps.iter().find(|step| step.0 == plan.crowded_price);
        if crowded.is_none_or(|step| plan.spend(developer, step.1.into())) {
            return steps;
        }
    }
    let prices = some_prices(random, round, &[1, 1, 2, 4, MOST_STEPS]);
    some_steps(random, developer, prices)
}

/// Other steps for a developer who takes its offer back: none, or some at any prices.
pub(crate) fn other_offer(random: &mut Random, round: &Round, developer: &Developer) -> Call {
    let prices = some_prices(random, round, &[0, 1, 1, 2, MOST_STEPS]);
    let (prices, levels) = some_steps(random, developer, prices).into_iter().unzip();
    Call::Offer {
        developer: developer.number,
        prices,
        levels,
    }
}

/// As many prices of the round as one of the counts says.
fn some_prices(random: &mut Random, round: &Round, counts: &[usize]) -> Vec<u32> {
    let (lowest, highest) = prices(round);
    (0..random.one_of(counts))
        .map(|_| random.between(lowest.into(), highest.into()) as u32)
        .collect()
}

/// Sound steps at some of the prices, falling to some of the levels below the quantity.
pub(crate) fn some_steps(
    random: &mut Random,
    developer: &Developer,
    mut prices: Vec<u32>,
) -> Vec<(u32, u32)> {
    prices.sort_unstable();
    prices.dedup();
    let below: Vec<u32> = developer
        .levels_and_0()
        .filter(|&level| level < developer.quantity)
        .map(|level| level as u32)
        .collect();
    let count = prices.len().min(below.len()).min(MOST_STEPS);
    let prices = random.some_of(&prices, count);
    let levels = random.some_of(&below, count);
    std::iter::zip(prices, levels).rev().collect()
}
