//! Auctions whose number of admissible choices is planned, at 65,536 and around it.

use super::books::register;
use super::Writer;
use crate::generators::random::Random;
use crate::model::auction::{MOST_LEVELS, NEW, NUMBERS};
use crate::model::replay::Call;
use crate::model::settling::MOST_CHOICES;

/// How many levels are open at the closing price: (projects, levels open to each). To a
/// developer at most nine are.
pub type OpenLevels = [(usize, usize)];

pub const OPEN_LEVELS: &[&OpenLevels] = &[
    // 65,536 choices.
    &[(16, 2)],
    &[(8, 4)],
    &[(5, 8), (1, 2), (2, 1)],
    // 65,610 and 65,625, the next above that one developer a project can make.
    &[(8, 3), (1, 5), (1, 2)],
    &[(5, 5), (1, 7), (1, 3)],
    // 59,049 and 32,768.
    &[(5, 9)],
    &[(15, 2), (1, 1)],
    // 131,072, then 2^64, then about 3 × 10^30.
    &[(17, 2)],
    &[(32, 4)],
    &[(32, 9)],
];

/// Books of 32 projects with 65,536 choices, and with 59,049.
pub const LARGEST_BOOKS: [&OpenLevels; 4] = [
    &[(16, 2), (16, 1)],
    &[(8, 4), (24, 1)],
    &[(5, 8), (1, 2), (26, 1)],
    &[(5, 9), (27, 1)],
];

/// The record of a seed that settles one of the largest books, once.
pub fn largest_book(seed: u64, book: &OpenLevels) -> Vec<u8> {
    let mut writer = Writer::new(seed);
    writer.disturbed = 0;
    writer.counted_round(book);
    let limit = MOST_CHOICES as u32;
    writer.make(&Call::Settle { limit });
    writer.record
}

/// A developer of its own project, with the level that it falls to at the crowded price.
struct Fall {
    developer: u8,
    registration: Call,
    from: u32,
    to: u32,
}

impl Writer {
    pub(super) fn counted_auction(&mut self) {
        let open_levels = self.random.one_of(OPEN_LEVELS);
        self.counted_round(open_levels);
        self.settlings();
    }

    /// One round in which all falls are at one price, and demand lies between the supplies
    /// above and below it: so that is the closing price.
    fn counted_round(&mut self, open_levels: &OpenLevels) {
        let falls = falls(&mut self.random, open_levels);
        let before: u64 = falls.iter().map(|fall| u64::from(fall.from)).sum();
        let after: u64 = falls.iter().map(|fall| u64::from(fall.to)).sum();
        let m1 = self.random.between(after + 1, before - 2);
        let d = self.random.between(m1 + 1, before - 1);
        let m2 = self.random.between(d + 1, before);
        let (ce, a) = (20_000, 40_000);
        self.make(&Call::SetUp { ce, d, m1, m2, a });
        for fall in &falls {
            self.make(&fall.registration);
        }
        let c = self.random.between(ce / 2, a - 1);
        let price = self.random.between(c, a - 1) as u32;
        self.make(&Call::Open { c: c as u32 });
        for fall in &falls {
            self.make(&fall.offer(price));
        }
        self.make(&Call::Close);
    }
}

impl Fall {
    fn offer(&self, price: u32) -> Call {
        let steps = usize::from(self.to < self.from);
        Call::Offer {
            developer: self.developer,
            prices: vec![price; steps],
            levels: vec![self.to; steps],
        }
    }
}

fn falls(random: &mut Random, open_levels: &OpenLevels) -> Vec<Fall> {
    let (mut projects, mut developers): (Vec<u8>, Vec<u8>) = (NUMBERS.collect(), NUMBERS.collect());
    random.shuffle(&mut projects);
    random.shuffle(&mut developers);
    let unit = random.one_of(&[1, 10, 10_000_000]);
    open_levels
        .iter()
        .flat_map(|&(projects, open)| vec![open; projects])
        .zip(projects.into_iter().zip(developers))
        .map(|(open, (project, developer))| fall(random, project, developer, open, unit))
        .collect()
}

/// A fall over so many levels that, with the first and the last, `open` are open.
fn fall(random: &mut Random, project: u8, developer: u8, open: usize, unit: u32) -> Fall {
    let fewest = (open - 1).max(1);
    let count = random.between(fewest as u64, MOST_LEVELS as u64) as usize;
    let scale: Vec<u32> = (1..=12).map(|multiple| multiple * unit).collect();
    let levels = random.some_of(&scale, count);
    let levels_and_0 = [&[0], &levels[..]].concat();
    Fall {
        developer,
        from: levels_and_0[count],
        to: levels_and_0[count + 1 - open],
        registration: register(random, project, developer, NEW, levels),
    }
}
