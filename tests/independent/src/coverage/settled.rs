//! What the settled auction of a record shows: rounds, choices, the award and its ties, the closing price.

use super::features::Feature;
use crate::model::auction::{Auction, Developer};
use crate::model::replay::{lines, make, read_call, Accepted, Call};
use crate::model::settling::{Award, Settlement};

/// A settled record: its auction at the end, the last settlement, and the rounds opened.
pub struct Settled {
    auction: Auction,
    settlement: Settlement,
    rounds: u64,
}

/// What settled records show.
pub const SETTLED: &[Feature<Settled>] = &[
    ("2 rounds or more", |s| s.rounds >= 2),
    ("4 rounds or more", |s| s.rounds >= 4),
    ("8 developers or more", |s| {
        s.auction.developers().len() >= 8
    }),
    ("16 developers or more", |s| {
        s.auction.developers().len() >= 16
    }),
    ("4 developers of a project", |s| {
        let mut projects = s.auction.projects().into_values();
        projects.any(|developers| developers.len() >= 4)
    }),
    ("2 choices or more", |s| s.settlement.choices >= 2),
    ("16 choices or more", |s| s.settlement.choices >= 16),
    ("256 choices or more", |s| s.settlement.choices >= 256),
    ("4,096 choices or more", |s| s.settlement.choices >= 4_096),
    ("65,536 choices", |s| s.settlement.choices == 65_536),
    ("not all choices cover", |s| {
        s.settlement.covering < s.settlement.choices
    }),
    ("2 choices or more cover", |s| s.settlement.covering >= 2),
    ("total is demand", |s| {
        s.settlement.total == s.settlement.demand
    }),
    ("equal least totals", |s| s.choices_of_the_total() >= 2),
    ("2 developers for a level", |s| s.shared_by(2)),
    ("4 developers for a level", |s| s.shared_by(4)),
    ("awarded by study or day", Settled::contested),
    ("awarded by study", |s| {
        s.decided(|first, other| first.study > other.study)
    }),
    ("awarded by day", |s| {
        s.decided(|first, other| first.study == other.study && first.day < other.day)
    }),
    ("awarded by number", |s| {
        s.decided(|first, other| (first.study, first.day) == (other.study, other.day))
    }),
    ("a project at 0", |s| {
        s.settlement.awards.len() < s.auction.projects().len()
    }),
    ("32 awards", |s| s.settlement.awards.len() == 32),
    ("closed with excess", |s| s.excess() > 0),
    ("closed at excess 0", |s| s.excess() == 0),
    ("closed at 999", |s| s.excess() == 999),
    ("closed at 1,000, the floor", |s| s.excess() == 1_000),
    ("highs at P are demand", Settled::just_covered),
    ("P is A", |s| s.settlement.price == s.auction.settings().a),
    ("P is the last C", |s| s.settlement.price == s.last_c()),
    ("no withdrawal at P", |s| {
        !s.withdrawal_at(s.settlement.price)
    }),
    ("missing in round 1", |s| {
        s.withdrawal_at(s.auction.settings().a)
    }),
    ("8 withdrawals", |s| s.longest_history() == 8),
];

impl Settled {
    /// None if no settling is accepted.
    pub fn of(record: &[u8]) -> Option<Settled> {
        let (mut auction, mut last, mut rounds) = (Auction::new(), None, 0);
        for call in lines(record).into_iter().filter_map(read_call) {
            match (&call, make(&mut auction, &call)) {
                (Call::Open { .. }, Ok(_)) => rounds += 1,
                (_, Ok(Accepted::Settled(settlement))) => last = Some(settlement),
                _ => (),
            }
        }
        last.map(|settlement| Settled {
            auction,
            settlement,
            rounds,
        })
    }

    /// The choices of the award's total, listed only if there are not too many choices.
    fn choices_of_the_total(&self) -> u64 {
        let Settlement {
            choices,
            price,
            total,
            ..
        } = self.settlement;
        if choices > 4_096 {
            return 0;
        }
        let mut totals = vec![0];
        for levels in self.auction.open_levels(price).values() {
            let longer = |&sum: &u64| levels.iter().map(move |level| sum + level);
            totals = totals.iter().flat_map(longer).collect();
        }
        totals.into_iter().filter(|&other| other == total).count() as u64
    }

    /// Some award with so many developers having its level open, or more.
    fn shared_by(&self, count: usize) -> bool {
        let mut awards = self.settlement.awards.iter();
        awards.any(|award| self.having(award).len() >= count)
    }

    /// Some award to another developer than the first by number.
    fn contested(&self) -> bool {
        let mut awards = self.settlement.awards.iter();
        awards.any(|award| self.having(award)[0].number != award.developer)
    }

    /// Some award whose developer stands so to another to whom the level is open too.
    fn decided(&self, so: impl Fn(&Developer, &Developer) -> bool) -> bool {
        let mut awards = self.settlement.awards.iter();
        awards.any(|award| {
            let (first, others): (Vec<&Developer>, Vec<&Developer>) = self
                .having(award)
                .into_iter()
                .partition(|developer| developer.number == award.developer);
            others.into_iter().any(|other| so(first[0], other))
        })
    }

    /// The developers to whom an awarded level is open, by rising number.
    fn having(&self, award: &Award) -> Vec<&Developer> {
        let developers = self.auction.projects().remove(&award.project);
        let mut developers = developers.expect("an awarded project");
        developers.retain(|d| d.has_open(award.quantity, self.settlement.price));
        developers
    }

    /// Supply less demand at the last C.
    fn excess(&self) -> i64 {
        let demand = self.auction.settings().demand(self.last_c());
        self.auction.supply().cast_signed() - demand.cast_signed()
    }

    fn last_c(&self) -> u64 {
        self.auction.last_c().expect("a closed round")
    }

    fn withdrawal_at(&self, price: u64) -> bool {
        let developers = self.auction.developers().values();
        let mut withdrawals = developers.flat_map(|developer| &developer.withdrawals);
        withdrawals.any(|withdrawal| withdrawal.price == price)
    }

    /// Whether the highs at P are just the demand.
    fn just_covered(&self) -> bool {
        let p = self.settlement.price;
        self.auction.sum_of_greatest(|developer| developer.high(p)) == self.settlement.demand
    }

    fn longest_history(&self) -> usize {
        let developers = self.auction.developers().values();
        let lengths = developers.map(|developer| developer.withdrawals.len());
        lengths.max().expect("a developer")
    }
}
