//! What the cancellations of a record do (document 02, request 7).

use super::features::Feature;
use crate::model::auction::{Auction, Phase};
use crate::model::replay::{lines, make, read_call, Accepted, Call};
use crate::NO_STANDING_OFFER;
use std::collections::{BTreeMap, BTreeSet};

/// What a record's cancellations show.
pub const CANCELLATIONS: &[Feature<Cancellations>] = &[
    ("cancelled", |seen| seen.cancelled),
    ("offered again", |seen| seen.offered_again),
    ("cancelled again", |seen| seen.cancelled_again),
    ("missing then", |seen| seen.missing),
    ("no steps cancelled", |seen| seen.no_steps),
    ("after earlier withdrawals", |seen| seen.after_withdrawals),
    ("own refused calls between", |seen| seen.own_between),
    ("calls of others between", |seen| seen.others_between),
    ("offer of an earlier round", |seen| seen.earlier_round),
];

/// What was seen so far, and of the open round who has cancelled, with the calls since its offer:
/// its own and all.
#[derive(Default)]
pub struct Cancellations {
    cancelled: bool,
    offered_again: bool,
    cancelled_again: bool,
    missing: bool,
    no_steps: bool,
    after_withdrawals: bool,
    own_between: bool,
    others_between: bool,
    earlier_round: bool,
    cancelling: BTreeSet<u8>,
    since_offer: BTreeMap<u8, (u64, u64)>,
    offered_before: BTreeSet<u8>,
}

impl Cancellations {
    pub fn of(record: &[u8]) -> Cancellations {
        let (mut seen, mut auction) = (Cancellations::default(), Auction::new());
        for call in lines(record).into_iter().filter_map(read_call) {
            if !matches!(call, Call::Settle { .. }) {
                seen.look_at(&auction, &call);
                let answer = make(&mut auction, &call);
                seen.made(&auction, &call, &answer);
            }
        }
        seen
    }

    /// What an accepted cancellation or closing would show.
    fn look_at(&mut self, auction: &Auction, call: &Call) {
        let Phase::Round(round) = auction.phase() else {
            return;
        };
        match call {
            Call::Cancel { developer } => {
                let offered = round.offers.get(developer);
                self.no_steps |= offered.is_some_and(Vec::is_empty);
            }
            Call::Close => {
                let left = self.cancelling.iter();
                let mut missing = left.filter(|developer| !round.offers.contains_key(developer));
                self.missing |=
                    missing.any(|developer| auction.developers()[developer].quantity > 0);
                self.offered_before.extend(round.offers.keys());
                self.cancelling.clear();
                self.since_offer.clear();
            }
            _ => (),
        }
    }

    fn made(&mut self, auction: &Auction, call: &Call, answer: &Result<Accepted, u8>) {
        match (call, answer) {
            (Call::Cancel { developer }, Ok(_)) => self.cancel(auction, *developer),
            (Call::Cancel { developer }, Err(NO_STANDING_OFFER)) => {
                let before = self.offered_before.contains(developer);
                self.earlier_round |= before && !self.cancelling.contains(developer);
            }
            _ => (),
        }
        let caller = match call {
            Call::Offer { developer, .. } | Call::Cancel { developer } => Some(developer),
            _ => None,
        };
        for (developer, (own, all)) in &mut self.since_offer {
            *own += u64::from(caller == Some(developer));
            *all += 1;
        }
        if let (Call::Offer { developer, .. }, Ok(_)) = (call, answer) {
            self.offered_again |= self.cancelling.contains(developer);
            self.since_offer.insert(*developer, (0, 0));
        }
    }

    fn cancel(&mut self, auction: &Auction, developer: u8) {
        let (own, all) = self
            .since_offer
            .remove(&developer)
            .expect("an offer that stands");
        self.cancelled = true;
        self.own_between |= own > 0;
        self.others_between |= all > own;
        self.after_withdrawals |= !auction.developers()[&developer].withdrawals.is_empty();
        self.cancelled_again |= !self.cancelling.insert(developer);
    }
}
