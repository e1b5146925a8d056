//! Who withdraws by the closings of a record.

use super::features::Feature;
use crate::model::auction::{Auction, Developer, Phase, EXISTING, NEW};
use crate::model::replay::{lines, make, read_call, Call};

/// An accepted closing: whether anybody had withdrawn before, and the kinds of those who withdraw by
/// it.
pub struct Moves {
    earlier: bool,
    kinds: Vec<u8>,
}

/// What a closing shows.
pub const MOVES: &[Feature<Moves>] = &[
    ("nobody", |moves| moves.kinds.is_empty()),
    ("nobody, behind earlier withdrawals", |moves| {
        moves.kinds.is_empty() && moves.earlier
    }),
    ("existing plants alone", |moves| moves.only(EXISTING)),
    ("one existing plant alone", |moves| {
        moves.kinds == [EXISTING]
    }),
    (
        "one existing plant alone, behind earlier withdrawals",
        |moves| moves.kinds == [EXISTING] && moves.earlier,
    ),
    ("new developers alone", |moves| moves.only(NEW)),
    ("existing plants and new developers", |moves| {
        moves.kinds.contains(&EXISTING) && moves.kinds.contains(&NEW)
    }),
];

impl Moves {
    /// The accepted closings of a record.
    pub fn all(record: &[u8]) -> Vec<Moves> {
        let (mut closings, mut auction) = (Vec::new(), Auction::new());
        for call in lines(record).into_iter().filter_map(read_call) {
            match (&call, auction.phase()) {
                // They change nothing, and many take long.
                (Call::Settle { .. }, _) => (),
                (Call::Close, Phase::Round(_)) => closings.push(Moves::by(&mut auction)),
                // Refused calls are among them.
                _ => drop(make(&mut auction, &call)),
            }
        }
        closings
    }

    /// Closes the open round.
    fn by(auction: &mut Auction) -> Moves {
        let before = withdrawals(auction);
        auction.close().expect("a round is open");
        let moved = std::iter::zip(&before, withdrawals(auction));
        let moved = moved.map(|(before, after)| *before < after);
        let developers = std::iter::zip(auction.developers().values(), moved);
        let kind = |(developer, moved): (&Developer, bool)| moved.then_some(developer.kind);
        Moves {
            earlier: before.iter().any(|&count| count > 0),
            kinds: developers.filter_map(kind).collect(),
        }
    }

    fn only(&self, kind: u8) -> bool {
        !self.kinds.is_empty() && self.kinds.iter().all(|&moving| moving == kind)
    }
}

/// How often each developer has withdrawn.
fn withdrawals(auction: &Auction) -> Vec<usize> {
    let developers = auction.developers().values();
    let counts = developers.map(|developer| developer.withdrawals.len());
    counts.collect()
}
