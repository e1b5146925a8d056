//! Settling a closed auction: document 01, Closing price and award, and document 02's second price
//! (request 5) and participation (request 10), read literally.
//! Every admissible choice is looked at; only the closing prices are found without trying every
//! price, and `closing_price_by_walk` stands beside it.

mod participation;
mod search;

use crate::model::auction::{Auction, Developer, Phase, Withdrawal};
use crate::{require, ABOVE_THE_LIMIT, BUFFER_TOO_SHORT, NOT_IN_THIS_PHASE};
pub use search::kept;
use std::cmp::{Ordering, Reverse};
use std::collections::{BTreeMap, BTreeSet};

/// The most choices that are looked at, whatever the limit.
pub const MOST_CHOICES: u64 = 65_536;

/// The answer of an accepted settling.
#[derive(Clone, Debug, PartialEq, Eq)]
pub struct Settlement {
    /// P, the closing price.
    pub price: u64,
    /// Dem at the closing price.
    pub demand: u64,
    /// The award's total.
    pub total: u64,
    /// The number of admissible choices.
    pub choices: u64,
    /// The number of covering ones among them.
    pub covering: u64,
    /// One for each project above 0, by rising project (document 02, request 8).
    pub awards: Vec<Award>,
    /// The totals of the complete choices that document 02's request 3 does not set aside; the
    /// result tells how many they are.
    pub kept: Vec<u64>,
    /// The remainder of Dem at the closing price (document 02, request 4).
    pub remainder: u64,
    /// The price for new plants (document 02, request 5).
    pub second: u64,
    /// Whether A was not covered for it.
    pub short: bool,
    /// Whether participation is insufficient (document 02, request 10).
    pub insufficient: bool,
    /// The price paid to existing plants (document 02, request 10).
    pub paid: u64,
}

#[derive(Clone, Copy, Debug, PartialEq, Eq)]
pub struct Award {
    pub project: u8,
    pub developer: u8,
    pub quantity: u64,
}

impl Award {
    /// The award record of 6 bytes: project, developer, quantity with its high byte first.
    pub fn record(&self) -> [u8; 6] {
        let quantity = u32::try_from(self.quantity).expect("a declared level");
        let [q0, q1, q2, q3] = quantity.to_be_bytes();
        [self.project, self.developer, q0, q1, q2, q3]
    }
}

impl Developer {
    /// High at p, document 01's term: its quantity after all withdrawals at prices above p.
    pub fn high(&self, p: u64) -> u64 {
        self.quantity_after(|withdrawal| withdrawal.price > p)
    }

    /// Low at p, document 01's term: its quantity after all withdrawals at p or above.
    pub fn low(&self, p: u64) -> u64 {
        self.quantity_after(|withdrawal| withdrawal.price >= p)
    }

    fn quantity_after(&self, made: impl Fn(&&Withdrawal) -> bool) -> u64 {
        let last = self.withdrawals.iter().rfind(made);
        last.map_or(self.highest_level(), |withdrawal| withdrawal.level)
    }

    /// Whether the level is open to it: declared, or 0, and from its own low to its own high.
    pub fn has_open(&self, level: u64, p: u64) -> bool {
        let known = self.levels_and_0().any(|known| known == level);
        known && self.low(p) <= level && level <= self.high(p)
    }
}

impl Auction {
    /// Covered, document 01's term: the sum of the projects' highs at p is at least Dem(p).
    pub fn covered(&self, p: u64) -> bool {
        self.sum_of_greatest(|developer| developer.high(p)) >= self.settings().demand(p)
    }

    /// P, the lowest covered price that the clock passed, by bisection.
    /// Fewer withdrawals lie above a higher price, and none raises a quantity, so highs do not
    /// fall from one price to the next. Dem does not rise: more quantities are priced at most
    /// so, and none below M1 before 2 × CE. Hence the covered prices passed are all from P on;
    /// A is one of them.
    pub fn closing_price(&self) -> u64 {
        let (last_c, a) = self.passed();
        lowest(last_c, a, |p| self.covered(p))
    }

    /// P, with every price that the clock passed tried from the last C upwards.
    pub fn closing_price_by_walk(&self) -> u64 {
        let (last_c, a) = self.passed();
        let lowest = (last_c..=a).find(|&p| self.covered(p));
        lowest.expect("A is covered once a round opened")
    }

    /// The price for new plants and whether it is short (document 02, request 5): the lowest covered
    /// price passed when projects with an applied lodged step are taken out; A if that is not
    /// covered then.
    pub fn second_price(&self) -> (u64, bool) {
        let a = self.settings().a;
        let left = self.without_lodged();
        if left.covered(a) {
            (left.closing_price(), false)
        } else {
            (a, true)
        }
    }

    /// The auction with the projects taken out that have an applied lodged step.
    pub fn without_lodged(&self) -> Auction {
        let developers = self.developers().values();
        let withdrew = developers.filter(|developer| developer.withdrew_as_lodged());
        self.without(&withdrew.map(|developer| developer.project).collect())
    }

    /// Passed, document 01's term: the prices from the last C to A, both included.
    fn passed(&self) -> (u64, u64) {
        let last_c = self.last_c().expect("a round was closed");
        (last_c, self.settings().a)
    }

    /// The levels open at p to each project that has a developer, both by rising number.
    pub fn open_levels(&self, p: u64) -> BTreeMap<u8, Vec<u64>> {
        let projects = self.projects().into_iter();
        projects
            .map(|(project, developers)| (project, open_to_project(&developers, p)))
            .collect()
    }

    /// Checks: 2, 10, 11. The award records go to the start of the lent buffer, by rising project.
    pub fn settle(&self, limit: u64, buffer: &mut [u8]) -> Result<Settlement, u8> {
        require(*self.phase() == Phase::Closed, NOT_IN_THIS_PHASE)?;
        let p = self.closing_price();
        let open = self.open_levels(p);
        let limit = limit.min(MOST_CHOICES);
        require(number_of_choices(&open) <= limit, ABOVE_THE_LIMIT)?;
        let settlement = self.settlement(p, &open);
        let records: Vec<u8> = settlement.awards.iter().flat_map(Award::record).collect();
        require(records.len() <= buffer.len(), BUFFER_TOO_SHORT)?;
        buffer[..records.len()].copy_from_slice(&records);
        Ok(settlement)
    }

    fn settlement(&self, p: u64, open: &BTreeMap<u8, Vec<u64>>) -> Settlement {
        let demand = self.settings().demand(p);
        let (covering, award) = award(open, demand);
        let above_0 = std::iter::zip(self.projects(), &award).filter(|(_, &level)| level > 0);
        let awards: Vec<Award> = above_0
            .map(|((project, developers), &level)| Award {
                project,
                developer: awarded_developer(&developers, level, p),
                quantity: level,
            })
            .collect();
        let (second, short) = self.second_price();
        let insufficient = !self.participation_is_sufficient(&awards);
        Settlement {
            price: p,
            demand,
            total: award.iter().sum(),
            choices: number_of_choices(open),
            covering,
            awards,
            kept: kept(open, demand),
            remainder: self.settings().remainder(p),
            second,
            short,
            insufficient,
            paid: self.paid_to_existing(p, insufficient),
        }
    }
}

/// The lowest number from `low` to `high` of which it holds, by bisection: it holds of `high`, and of
/// all above that one.
pub(crate) fn lowest(mut low: u64, mut high: u64, holds: impl Fn(u64) -> bool) -> u64 {
    while low < high {
        let middle = (low + high) / 2;
        if holds(middle) {
            high = middle;
        } else {
            low = middle + 1;
        }
    }
    low
}

/// Open to a project, document 01's term: open to some developer of it, and not below the
/// project's low.
fn open_to_project(developers: &[&Developer], p: u64) -> Vec<u64> {
    let lows = developers.iter().map(|developer| developer.low(p));
    let project_low = lows.max().expect("a project has a developer");
    let levels: BTreeSet<u64> = developers
        .iter()
        .flat_map(|developer| {
            developer
                .levels_and_0()
                .map(move |level| (developer, level))
        })
        .filter(|(developer, level)| developer.has_open(*level, p))
        .map(|(_, level)| level)
        .filter(|&level| level >= project_low)
        .collect();
    levels.into_iter().collect()
}

/// The number of admissible choices, or the greatest u64 if that is less: a choice, document
/// 01's term, gives each project one level open to it. Each has one open, its high, so a
/// product once above the limit stays above it.
pub fn number_of_choices(open: &BTreeMap<u8, Vec<u64>>) -> u64 {
    open.values()
        .map(|levels| levels.len() as u64)
        .fold(1, u64::saturating_mul)
}

/// Calls `visit` with each admissible choice that begins with the levels chosen so far; levels
/// stand by rising project.
fn each_choice(open: &[&Vec<u64>], chosen: &mut Vec<u64>, visit: &mut impl FnMut(&[u64])) {
    match open.get(chosen.len()) {
        None => visit(chosen),
        Some(levels) => {
            for &level in *levels {
                chosen.push(level);
                each_choice(open, chosen, visit);
                chosen.pop();
            }
        }
    }
}

fn total(choice: &[u64]) -> u64 {
    choice.iter().sum()
}

/// The number of covering choices, and the award among them.
fn award(open: &BTreeMap<u8, Vec<u64>>, demand: u64) -> (u64, Vec<u64>) {
    let mut covering = 0;
    let mut award: Option<Vec<u64>> = None;
    let open: Vec<&Vec<u64>> = open.values().collect();
    each_choice(&open, &mut Vec::new(), &mut |choice| {
        if total(choice) >= demand {
            covering += 1;
            if award
                .as_ref()
                .is_none_or(|award| goes_before(choice, award))
            {
                award = Some(choice.to_vec());
            }
        }
    });
    // P is covered, and each project's high is open to it.
    (covering, award.expect("the choice of all highs covers"))
}

/// Of less total; of equal totals, with the larger level at the lowest project number where
/// they differ, which is how lists compare.
fn goes_before(choice: &[u64], other: &[u64]) -> bool {
    match total(choice).cmp(&total(other)) {
        Ordering::Less => true,
        Ordering::Equal => choice > other,
        Ordering::Greater => false,
    }
}

/// Among those to whom the level is open: highest study value, then earliest start day, then
/// lowest number (3.15.2 iii).
fn awarded_developer(developers: &[&Developer], level: u64, p: u64) -> u8 {
    let having = developers.iter().filter(|d| d.has_open(level, p));
    let first = having.min_by_key(|d| (Reverse(d.study), d.day, d.number));
    first
        .expect("an awarded level is open to a developer")
        .number
}
