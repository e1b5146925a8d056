//! Lists that existing plants lodge before the first round (document 02, request 5): near A and
//! anywhere, often at prices of one another, and again in place of earlier ones.

use super::{offers, Writer};
use crate::model::auction::{Auction, Developer, EXISTING, MOST_STEPS};
use crate::model::replay::Call;
use std::ops::Range;

impl Writer {
    /// A lodging by one of the existing plants registered so far, if there are any.
    pub(super) fn lodging(&mut self) {
        let developers = self.auction.developers().values();
        let existing: Vec<&Developer> = developers.filter(|d| d.kind == EXISTING).collect();
        if existing.is_empty() {
            return;
        }
        let plant = self.random.one_of(&existing).clone();
        let steps = if self.random.chance(10) {
            Vec::new()
        } else {
            let prices = self.prices_to_lodge();
            offers::some_steps(&mut self.random, &plant, prices)
        };
        let (prices, levels) = steps.into_iter().unzip();
        self.make(&Call::Lodge {
            developer: plant.number,
            prices,
            levels,
        });
    }

    fn prices_to_lodge(&mut self) -> Vec<u32> {
        let settings = *self.auction.settings();
        let (floor, a) = (settings.floor(), settings.a);
        let lodged = lodged_prices(&self.auction, &(floor..a));
        (0..self.random.one_of(&[1, 1, 2, 3, 5, MOST_STEPS]))
            .map(|_| {
                let random = &mut self.random;
                let near_a = a - random.of_any_size(1, a - floor);
                let any = random.between(floor, a - 1);
                let others = lodged.get(random.index(lodged.len().max(1)));
                let another = others.copied().unwrap_or(near_a);
                random.one_of(&[near_a, near_a, any, any, another, another, floor, a - 1]) as u32
            })
            .collect()
    }
}

/// The prices within these at which steps are lodged.
pub(super) fn lodged_prices(auction: &Auction, within: &Range<u64>) -> Vec<u64> {
    let developers = auction.developers().values();
    let lodged = developers.flat_map(|developer| &developer.lodged);
    let prices = lodged.map(|step| step.price);
    prices.filter(|price| within.contains(price)).collect()
}
