//! A developer in the ledger: its registration, its quantity, its withdrawals and what it lodged.

use super::{EXISTING, HIGHEST_LEVEL, MOST_LEVELS};
use std::iter;
use std::ops::Range;

/// A step of an offer or of a lodged list, or the step of a missing offer.
#[derive(Clone, Copy, Debug, PartialEq, Eq)]
pub struct Withdrawal {
    pub price: u64,
    pub level: u64,
}

/// A registration, with the developer's quantity and withdrawals.
#[derive(Clone, Debug, PartialEq, Eq)]
pub struct Developer {
    pub number: u8,
    pub project: u8,
    pub kind: u8,
    pub agent: u8,
    pub study: u32,
    pub day: u32,
    pub levels: Vec<u64>,
    pub quantity: u64,
    pub withdrawals: Vec<Withdrawal>,
    /// The list that an existing plant lodged last, with the steps that closings have applied.
    pub lodged: Vec<Withdrawal>,
}

impl Developer {
    /// The highest level that it declared, whatever it has withdrawn since.
    pub fn highest_level(&self) -> u64 {
        *self.levels.last().expect("at least one level")
    }

    /// Every level that it may offer: those declared, and 0.
    pub fn levels_and_0(&self) -> impl Iterator<Item = u64> + '_ {
        iter::once(0).chain(self.levels.iter().copied())
    }

    /// Levels are declared or 0, each strictly below the quantity before it (3.10).
    pub(super) fn may_fall_to(&self, levels: &[u64]) -> bool {
        let known = |level: &u64| self.levels_and_0().any(|known| known == *level);
        let quantities = iter::once(&self.quantity).chain(levels);
        levels.iter().all(known) && quantities.is_sorted_by(|before, after| before > after)
    }

    /// What the closing adds for kind 2 without an offer: a fall to 0 at the opening price (3.7).
    pub(super) fn without_offer(&self, opening_price: u64) -> Vec<Withdrawal> {
        if self.quantity > 0 {
            vec![Withdrawal {
                price: opening_price,
                level: 0,
            }]
        } else {
            Vec::new()
        }
    }

    /// What the closing adds for kind 1: those of its lodged steps at these prices, in their order.
    pub(super) fn lodged_at(&self, prices: &Range<u64>) -> Vec<Withdrawal> {
        let lodged = self.lodged.iter().copied();
        lodged.filter(|step| prices.contains(&step.price)).collect()
    }

    /// Whether a closing applied a lodged step: an existing plant has no other withdrawals.
    pub fn withdrew_as_lodged(&self) -> bool {
        self.kind == EXISTING && !self.withdrawals.is_empty()
    }

    /// The last level added, if any, becomes the quantity.
    pub(super) fn withdraw(&mut self, withdrawals: &[Withdrawal]) {
        self.withdrawals.extend(withdrawals);
        self.quantity = withdrawals.last().map_or(self.quantity, |last| last.level);
    }
}

/// 1 to 8 levels, strictly rising, the first above 0, the last at most 10^9.
pub(super) fn may_be_declared(levels: &[u32]) -> bool {
    (1..=MOST_LEVELS).contains(&levels.len())
        && levels.is_sorted_by(|before, after| before < after)
        && levels
            .iter()
            .all(|level| (1..=HIGHEST_LEVEL).contains(level))
}
