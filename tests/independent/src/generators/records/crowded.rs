//! Two books of 65,536 choices for the benchmark, with two levels open to each of 16 projects and
//! one to each of 16 others: one in which the award is near at hand, and one in which an order by
//! project number finds it late.

use super::books::register;
use super::Writer;
use crate::model::auction::NEW;
use crate::model::replay::Call;
use crate::model::settling::MOST_CHOICES;

/// The low and the high of each project with two open levels, by rising number.
type LowsAndHighs = [(u32, u32); 16];

/// The level of each of the other projects.
const ONE_LEVEL: u32 = 5_000;

/// All lows nearly cover.
pub fn easy_book() -> Vec<u8> {
    let open = std::array::from_fn(|k| (1_000, 2_000 + 10 * k as u32));
    let lows: u64 = open.iter().map(|&(low, _)| u64::from(low)).sum();
    crowded_book(&open, lows + 1)
}

/// Each high is twice the one before: only the largest projects, which are last by number, tell
/// which choices can cover.
pub fn hard_book() -> Vec<u8> {
    let open = std::array::from_fn(|k| (0, 1_000 << k));
    let highs: u64 = open.iter().map(|&(_, high)| u64::from(high)).sum();
    crowded_book(&open, highs / 3 * 2)
}

/// The record of a round that closes at its C, where all projects fall from their highs to their
/// lows, and demand is so much above what the other projects have.
fn crowded_book(open: &LowsAndHighs, demand: u64) -> Vec<u8> {
    let mut writer = Writer::new(0);
    writer.disturbed = 0;
    let others = [(ONE_LEVEL, ONE_LEVEL); 16];
    let d = demand + others.len() as u64 * u64::from(ONE_LEVEL);
    let (ce, c, a) = (20_000, 20_000, 40_000);
    let (m1, m2) = (d - 1, d + 1);
    writer.make(&Call::SetUp { ce, d, m1, m2, a });
    let projects: Vec<(u8, (u32, u32))> = (1..).zip(open.iter().chain(&others).copied()).collect();
    for &(number, (low, high)) in &projects {
        let mut levels = vec![low, high];
        levels.retain(|&level| level > 0);
        levels.dedup();
        let registration = register(&mut writer.random, number, number, NEW, levels);
        writer.make(&registration);
    }
    writer.make(&Call::Open { c });
    for (developer, (low, high)) in projects {
        let steps = usize::from(low < high);
        let (prices, levels) = (vec![c; steps], vec![low; steps]);
        writer.make(&Call::Offer {
            developer,
            prices,
            levels,
        });
    }
    writer.make(&Call::Close);
    let limit = MOST_CHOICES as u32;
    writer.make(&Call::Settle { limit });
    writer.record
}
