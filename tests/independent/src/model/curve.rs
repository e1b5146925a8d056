//! The supply curve (document 02, request 9), computed anew from the histories.

use crate::model::auction::Auction;
use std::collections::BTreeSet;

/// A price at which somebody withdrew, with the total supply before and after it.
#[derive(Clone, Copy, Debug, PartialEq, Eq)]
pub struct Entry {
    pub price: u64,
    pub before: u64,
    pub after: u64,
}

impl Auction {
    /// The distinct withdrawal prices, falling: before each the sum of the projects' highs there,
    /// after it that of their lows.
    pub fn supply_curve(&self) -> Vec<Entry> {
        let developers = self.developers().values();
        let withdrawals = developers.flat_map(|developer| &developer.withdrawals);
        let prices: BTreeSet<u64> = withdrawals.map(|withdrawal| withdrawal.price).collect();
        let entry = |price| Entry {
            price,
            before: self.sum_of_greatest(|developer| developer.high(price)),
            after: self.sum_of_greatest(|developer| developer.low(price)),
        };
        prices.into_iter().rev().map(entry).collect()
    }
}
