//! What the lodged lists of a record do (document 02, request 5).

use super::features::Feature;
use crate::model::auction::{Auction, Developer, Phase};
use crate::model::replay::{lines, make, read_call, Call};

/// The lodgings of a record: those replaced, how many closings applied a step, and the auction at
/// last, if it is closed.
#[derive(Default)]
pub struct Lodgings {
    lodged: bool,
    replaced: bool,
    replaced_by_none: bool,
    applied_in: u64,
    closed: Option<Closed>,
}

/// A closed auction with its two prices.
struct Closed {
    auction: Auction,
    first: u64,
    second: u64,
    short: bool,
}

/// What a record's lodgings show.
pub const LODGINGS: &[Feature<Lodgings>] = &[
    ("lodged", |seen| seen.lodged),
    ("replaced", |seen| seen.replaced),
    ("replaced by an empty list", |seen| seen.replaced_by_none),
    ("applied", |seen| seen.applied_in > 0),
    ("applied in several rounds", |seen| seen.applied_in > 1),
    ("some not reached", |seen| seen.closed_with(not_reached)),
    ("none reached", |seen| {
        seen.closed_with(not_reached) && seen.applied_in == 0
    }),
    ("at the closing price", |seen| {
        seen.closed_with(|plant, closed| {
            let mut withdrawals = plant.withdrawals.iter();
            plant.withdrew_as_lodged() && withdrawals.any(|step| step.price == closed.first)
        })
    }),
    ("taken out with a level above 0", |seen| {
        seen.closed_with(|plant, _| plant.withdrew_as_lodged() && plant.quantity > 0)
    }),
    ("second price above the first", |seen| {
        let closed = seen.closed.as_ref();
        closed.is_some_and(|closed| closed.second > closed.first)
    }),
    ("short", |seen| {
        seen.closed.as_ref().is_some_and(|closed| closed.short)
    }),
];

/// Whether a lodged step lies below the prices that the clock passed.
fn not_reached(plant: &Developer, closed: &Closed) -> bool {
    let last_c = closed.auction.last_c().expect("a closed round");
    plant.lodged.iter().any(|step| step.price < last_c)
}

impl Lodgings {
    pub fn of(record: &[u8]) -> Lodgings {
        let (mut seen, mut auction) = (Lodgings::default(), Auction::new());
        for call in lines(record).into_iter().filter_map(read_call) {
            if !matches!(call, Call::Settle { .. }) {
                seen.make(&mut auction, &call);
            }
        }
        if *auction.phase() == Phase::Closed {
            let (first, (second, short)) = (auction.closing_price(), auction.second_price());
            seen.closed = Some(Closed {
                auction,
                first,
                second,
                short,
            });
        }
        seen
    }

    /// Makes a call that is not a settling.
    fn make(&mut self, auction: &mut Auction, call: &Call) {
        match call {
            Call::Lodge {
                developer, prices, ..
            } => {
                let lodged = auction.developers().get(developer);
                let replaces = lodged.is_some_and(|plant| !plant.lodged.is_empty());
                if make(auction, call).is_ok() {
                    self.lodged = true;
                    self.replaced |= replaces;
                    self.replaced_by_none |= replaces && prices.is_empty();
                }
            }
            Call::Close => {
                let before = applied(auction);
                // Refused, it applies nothing.
                drop(make(auction, call));
                self.applied_in += u64::from(applied(auction) > before);
            }
            _ => drop(make(auction, call)),
        }
    }

    /// Whether the auction is closed, with such a developer.
    fn closed_with(&self, holds: impl Fn(&Developer, &Closed) -> bool) -> bool {
        self.closed.as_ref().is_some_and(|closed| {
            let mut developers = closed.auction.developers().values();
            developers.any(|developer| holds(developer, closed))
        })
    }
}

/// How many lodged steps closings have applied.
fn applied(auction: &Auction) -> usize {
    let developers = auction.developers().values();
    let withdrew = developers.filter(|developer| developer.withdrew_as_lodged());
    withdrew.map(|developer| developer.withdrawals.len()).sum()
}
