//! The offers of a round as they are made, some taken back (document 02, request 7): for good, or
//! for the same or another one; with second offers, which are refused, before they are.

use super::{offers, Writer};
use crate::model::auction::{Phase, Withdrawal};
use crate::model::replay::Call;

impl Writer {
    /// Sound offers for the open round, and cancellations if there are some in this auction.
    pub(super) fn offers(&mut self, last: bool) {
        for offer in offers::offers(&mut self.random, &self.auction, last) {
            self.make(&offer);
            if self.cancelling && self.random.chance(20) {
                self.cancellation();
            }
        }
        while self.cancelling && self.random.chance(30) {
            self.cancellation();
        }
    }

    /// Takes back one of the offers that stand, if any does.
    fn cancellation(&mut self) {
        let Phase::Round(round) = self.auction.phase() else {
            return;
        };
        let standing: Vec<u8> = round.offers.keys().copied().collect();
        if standing.is_empty() {
            return;
        }
        let developer = self.random.one_of(&standing);
        let (registered, round) = (self.auction.developers()[&developer].clone(), round.clone());
        let offered = again(developer, &round.offers[&developer]);
        let other = offers::other_offer(&mut self.random, &round, &registered);
        if self.random.chance(30) {
            // It stands, so this one is refused.
            self.make(&other);
        }
        self.make(&Call::Cancel { developer });
        match self.random.between(1, 10) {
            1..=3 => (),
            4..=6 => self.make(&offered),
            _ => self.make(&other),
        }
    }
}

/// The same offer.
fn again(developer: u8, steps: &[Withdrawal]) -> Call {
    let step = |step: &Withdrawal| (step.price as u32, step.level as u32);
    let (prices, levels) = steps.iter().map(step).unzip();
    Call::Offer {
        developer,
        prices,
        levels,
    }
}
