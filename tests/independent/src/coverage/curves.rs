//! What the closings of a record do to the supply curve (document 02, request 9).

use super::features::Feature;
use crate::model::auction::{Auction, Developer, Phase, Withdrawal, EXISTING};
use crate::model::curve::Entry;
use crate::model::replay::{lines, make, read_call, Call};

/// The longest curve: 32 developers have at most eight withdrawals each.
pub const LONGEST_CURVE: usize = 256;

/// An accepted closing: the auction before it, the curve after it, and the withdrawals that it
/// added, each with its developer as it was.
pub struct Redrawn {
    before: Auction,
    curve: Vec<Entry>,
    added: Vec<(Developer, Withdrawal)>,
}

/// What a closing shows. It makes an entry if nobody withdrew at that price before.
pub const CURVES: &[Feature<Redrawn>] = &[
    ("closings", |_| true),
    ("empty", |closing| closing.curve.is_empty()),
    ("1 entry", |closing| closing.curve.len() == 1),
    ("2 to 7 entries", |closing| {
        (2..8).contains(&closing.curve.len())
    }),
    ("8 to 31 entries", |closing| {
        (8..32).contains(&closing.curve.len())
    }),
    ("32 entries or more", |closing| closing.curve.len() >= 32),
    ("32 entries or more after several rounds", |closing| {
        closing.curve.len() >= 32 && closing.before.last_c().is_some()
    }),
    ("256 entries", |closing| {
        closing.curve.len() == LONGEST_CURVE
    }),
    ("entry of equal figures", |closing| {
        closing.makes(|entry| entry.before == entry.after)
    }),
    ("entry of several developers", |closing| {
        closing.makes(|entry| closing.added_at(entry.price).count() > 1)
    }),
    ("entry of lodged steps alone", |closing| {
        closing.makes(|entry| {
            let mut added = closing.added_at(entry.price);
            added.all(|developer| developer.kind == EXISTING)
        })
    }),
    ("entry of missing offers at A", |closing| {
        closing.makes(|entry| entry.price == closing.before.settings().a)
    }),
    ("entry of missing offers at the C before", |closing| {
        closing.makes(|entry| Some(entry.price) == closing.before.last_c())
    }),
    ("one price in two rounds", |closing| {
        let mut added = closing.added.iter();
        added.any(|(_, step)| withdrew_at(&closing.before, step.price))
    }),
    ("a developer twice at one price", |closing| {
        let mut added = closing.added.iter();
        added.any(|(developer, step)| withdrew(developer, step.price))
    }),
];

fn withdrew(developer: &Developer, price: u64) -> bool {
    let mut withdrawals = developer.withdrawals.iter();
    withdrawals.any(|withdrawal| withdrawal.price == price)
}

fn withdrew_at(auction: &Auction, price: u64) -> bool {
    let mut developers = auction.developers().values();
    developers.any(|developer| withdrew(developer, price))
}

impl Redrawn {
    /// The accepted closings of a record.
    pub fn all(record: &[u8]) -> Vec<Redrawn> {
        let (mut closings, mut auction) = (Vec::new(), Auction::new());
        for call in lines(record).into_iter().filter_map(read_call) {
            match (&call, auction.phase()) {
                (Call::Settle { .. }, _) => (),
                (Call::Close, Phase::Round(_)) => closings.push(Redrawn::by(&mut auction)),
                // Refused calls are among them.
                _ => drop(make(&mut auction, &call)),
            }
        }
        closings
    }

    /// Closes the open round.
    fn by(auction: &mut Auction) -> Redrawn {
        let before = auction.clone();
        auction.close().expect("a round is open");
        let developers = before.developers().values();
        let added = developers.flat_map(|developer| {
            let withdrawals = &auction.developers()[&developer.number].withdrawals;
            let added = withdrawals[developer.withdrawals.len()..].iter();
            added.map(|&withdrawal| (developer.clone(), withdrawal))
        });
        Redrawn {
            curve: auction.supply_curve(),
            added: added.collect(),
            before,
        }
    }

    /// The length of the curve after it.
    pub fn entries(&self) -> usize {
        self.curve.len()
    }

    /// Whether it makes such an entry.
    fn makes(&self, such: impl Fn(&Entry) -> bool) -> bool {
        let mut curve = self.curve.iter();
        curve.any(|entry| !withdrew_at(&self.before, entry.price) && such(entry))
    }

    /// Who withdraws at the price by it.
    fn added_at(&self, price: u64) -> impl Iterator<Item = &Developer> {
        let added = self.added.iter();
        let there = added.filter(move |(_, step)| step.price == price);
        there.map(|(developer, _)| developer)
    }
}
