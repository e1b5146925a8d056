//! The ledger of document 01, which closes by document 02's request 1, applies the lists lodged by
//! its request 5 and knows the agents of its request 10: what the calls of one auction leave behind,
//! in order.
//! Each call makes the paper's checks in the paper's order; a refused one changes nothing.
//! Numbers come in as wide as a caller can pass them and are held as u64.

mod developer;

use crate::model::demand::{demand, demand_remainder};
use crate::{
    require, BAD_LEVEL, BAD_NUMBER, BAD_REGISTRATION, BAD_ROUND_PRICE, BAD_STEPS, BEYOND_BOUNDS,
    NOT_IN_THIS_PHASE, NO_EXISTING_PLANT, NO_STANDING_OFFER, OPENING_NOT_COVERED, SECOND_OFFER,
};
use developer::may_be_declared;
pub use developer::{Developer, Withdrawal};
use std::collections::{BTreeMap, BTreeSet};
use std::iter;
use std::ops::{Range, RangeInclusive};

/// The numbers of projects and developers (document 01, Registration), and of agents (document 02,
/// request 10).
pub const NUMBERS: RangeInclusive<u8> = 1..=32;
/// Kind of an existing plant (document 01, Registration).
pub const EXISTING: u8 = 1;
/// Kind of a new plant (document 01, Registration).
pub const NEW: u8 = 2;
/// Most levels of a developer (document 01, Registration).
pub const MOST_LEVELS: usize = 8;
/// Highest level that may be declared (document 01, Registration).
pub const HIGHEST_LEVEL: u32 = 1_000_000_000;
/// Most steps of an offer (document 01, Rounds), and of a lodged list (document 02, request 5).
pub const MOST_STEPS: usize = 8;
/// Least excess after which another round may be opened: a thousandth of a GWh per day
/// (document 02, request 1).
pub const LEAST_OPEN_EXCESS: i64 = 1_000;

/// The ledger, document 01's term (Closing price and award).
#[derive(Clone, Debug, Default, PartialEq, Eq)]
pub struct Auction {
    phase: Phase,
    settings: Settings,
    developers: BTreeMap<u8, Developer>,
    last_c: Option<u64>,
}

/// Which calls are accepted (document 01, Rounds).
#[derive(Clone, Debug, Default, PartialEq, Eq)]
pub enum Phase {
    /// Accepts set-up.
    #[default]
    Fresh,
    /// Accepts registrations, lodgings and the first opening.
    Ready,
    /// Accepts offers, cancellations and closing.
    Round(Round),
    /// Accepts a further opening.
    Between,
    /// Accepts settling.
    Closed,
}

/// The settings that set-up stores; all 0 before it.
#[derive(Clone, Copy, Debug, Default, PartialEq, Eq)]
pub struct Settings {
    pub ce: u64,
    pub d: u64,
    pub m1: u64,
    pub m2: u64,
    pub a: u64,
}

impl Settings {
    pub fn floor(&self) -> u64 {
        self.ce / 2
    }

    /// Dem(p), for a price that the clock can pass.
    pub fn demand(&self, p: u64) -> u64 {
        demand(self.ce, self.d, self.m1, self.m2, p).expect("settings and price within the bounds")
    }

    /// The remainder of Dem(p), for a price that the clock can pass.
    pub fn remainder(&self, p: u64) -> u64 {
        let remainder = demand_remainder(self.ce, self.d, self.m1, self.m2, p);
        remainder.expect("settings and price within the bounds")
    }
}

/// The answer of an accepted closing.
#[derive(Clone, Copy, Debug, PartialEq, Eq)]
pub struct Closing {
    pub excess: i64,
    /// The remainder of Dem(C) (document 02, request 4).
    pub remainder: u64,
}

/// The answer of an accepted preview (document 02, request 6): that of closing a copy, and whether
/// the copy is then closed.
#[derive(Clone, Copy, Debug, PartialEq, Eq)]
pub struct Preview {
    pub closing: Closing,
    pub closed: bool,
}

/// An open round: its prices and the offers accepted so far, by developer.
#[derive(Clone, Debug, PartialEq, Eq)]
pub struct Round {
    pub opening: u64,
    /// C.
    pub closing: u64,
    pub offers: BTreeMap<u8, Vec<Withdrawal>>,
}

impl Round {
    /// The prices that its closing passes: from C to the opening price less 1.
    pub fn passes(&self) -> Range<u64> {
        self.closing..self.opening
    }
}

impl Auction {
    pub fn new() -> Auction {
        Auction::default()
    }

    /// Checks: 2, 1.
    pub fn set_up(&mut self, ce: u64, d: u64, m1: u64, m2: u64, a: u64) -> Result<(), u8> {
        require(self.phase == Phase::Fresh, NOT_IN_THIS_PHASE)?;
        // The demand call refuses each setting and price beyond the same bounds, except that A
        // is above the floor.
        demand(ce, d, m1, m2, a)?;
        require(a > ce / 2, BEYOND_BOUNDS)?;
        self.settings = Settings { ce, d, m1, m2, a };
        self.phase = Phase::Ready;
        Ok(())
    }

    /// Checks: 2, 3, 4. The agent is the developer's number (document 02, request 10).
    pub fn register(
        &mut self,
        project: u8,
        developer: u8,
        kind: u8,
        study: u32,
        day: u32,
        levels: &[u32],
    ) -> Result<(), u8> {
        let agent = developer;
        self.register_for(project, developer, kind, agent, study, day, levels)
    }

    /// A registration that names its agent (document 02, request 10). Checks: 2, 3, 4.
    #[allow(clippy::too_many_arguments, reason = "the fields of frame 08")]
    pub fn register_for(
        &mut self,
        project: u8,
        developer: u8,
        kind: u8,
        agent: u8,
        study: u32,
        day: u32,
        levels: &[u32],
    ) -> Result<(), u8> {
        require(self.phase == Phase::Ready, NOT_IN_THIS_PHASE)?;
        require(
            [project, developer, agent]
                .iter()
                .all(|number| NUMBERS.contains(number))
                && !self.developers.contains_key(&developer),
            BAD_NUMBER,
        )?;
        require(
            [EXISTING, NEW].contains(&kind)
                && may_be_declared(levels)
                && self.may_join(project, kind),
            BAD_REGISTRATION,
        )?;
        let levels: Vec<u64> = levels.iter().map(|&level| level.into()).collect();
        let registered = Developer {
            number: developer,
            project,
            kind,
            agent,
            study,
            day,
            quantity: *levels.last().expect("at least one level"),
            levels,
            withdrawals: Vec::new(),
            lodged: Vec::new(),
        };
        self.developers.insert(developer, registered);
        Ok(())
    }

    /// An existing project has one developer; a new one may have several, all of kind 2.
    fn may_join(&self, project: u8, kind: u8) -> bool {
        self.developers
            .values()
            .filter(|other| other.project == project)
            .all(|other| kind == NEW && other.kind == NEW)
    }

    /// Checks: 2, 15, 6, 7. The list replaces the one lodged before (document 02, request 5).
    pub fn lodge(&mut self, developer: u8, prices: &[u32], levels: &[u32]) -> Result<(), u8> {
        require(self.phase == Phase::Ready, NOT_IN_THIS_PHASE)?;
        let known = self.developers.get_mut(&developer);
        let lodging = known.filter(|d| d.kind == EXISTING);
        let lodging = lodging.ok_or(NO_EXISTING_PLANT)?;
        let from_the_floor = self.settings.floor()..self.settings.a;
        lodging.lodged = steps(lodging, &from_the_floor, prices, levels)?;
        Ok(())
    }

    /// Checks: 2, 5, 9.
    pub fn open(&mut self, c: u32) -> Result<(), u8> {
        let first = self.phase == Phase::Ready;
        require(first || self.phase == Phase::Between, NOT_IN_THIS_PHASE)?;
        let opening = self.opening_price();
        let closing = u64::from(c);
        require(
            self.settings.floor() <= closing && closing < opening,
            BAD_ROUND_PRICE,
        )?;
        require(!first || self.covered(self.settings.a), OPENING_NOT_COVERED)?;
        self.phase = Phase::Round(Round {
            opening,
            closing,
            offers: BTreeMap::new(),
        });
        Ok(())
    }

    /// Checks: 2, 3, 8, 6, 7.
    pub fn offer(&mut self, developer: u8, prices: &[u32], levels: &[u32]) -> Result<(), u8> {
        let Phase::Round(round) = &mut self.phase else {
            return Err(NOT_IN_THIS_PHASE);
        };
        let offering = may_offer(&self.developers, developer)?;
        require(!round.offers.contains_key(&developer), SECOND_OFFER)?;
        let steps = steps(offering, &round.passes(), prices, levels)?;
        round.offers.insert(developer, steps);
        Ok(())
    }

    /// Checks: 2, 3, 16. The offer is as if it had never been made (document 02, request 7).
    pub fn cancel(&mut self, developer: u8) -> Result<(), u8> {
        let Phase::Round(round) = &mut self.phase else {
            return Err(NOT_IN_THIS_PHASE);
        };
        may_offer(&self.developers, developer)?;
        let standing = round.offers.remove(&developer);
        standing.map(|_steps| ()).ok_or(NO_STANDING_OFFER)
    }

    /// Checks: 2. The answer is the excess at C, with demand's remainder there.
    pub fn close(&mut self) -> Result<Closing, u8> {
        let Phase::Round(round) = &self.phase else {
            return Err(NOT_IN_THIS_PHASE);
        };
        let round = round.clone();
        for developer in self.developers.values_mut() {
            let added = match round.offers.get(&developer.number) {
                Some(offered) => offered.clone(),
                None if developer.kind == NEW => developer.without_offer(round.opening),
                None => developer.lodged_at(&round.passes()),
            };
            developer.withdraw(&added);
        }
        let c = round.closing;
        self.last_c = Some(c);
        let excess = self.supply().cast_signed() - self.settings.demand(c).cast_signed();
        self.phase = if excess < LEAST_OPEN_EXCESS || c == self.settings.floor() {
            Phase::Closed
        } else {
            Phase::Between
        };
        Ok(Closing {
            excess,
            remainder: self.settings.remainder(c),
        })
    }

    /// Checks: those of closing, which a copy makes.
    pub fn preview(&self) -> Result<Preview, u8> {
        let mut copy = self.clone();
        let closing = copy.close()?;
        Ok(Preview {
            closing,
            closed: copy.phase == Phase::Closed,
        })
    }

    /// The price at which the next round opens: A, or the previous C.
    pub fn opening_price(&self) -> u64 {
        self.last_c.unwrap_or(self.settings.a)
    }

    /// The sum over projects of the greatest quantity among each one's developers.
    pub fn supply(&self) -> u64 {
        self.sum_of_greatest(|developer| developer.quantity)
    }

    /// The sum over projects of the greatest amount among each one's developers (3.15.2 i).
    pub fn sum_of_greatest(&self, amount: impl Fn(&Developer) -> u64) -> u64 {
        let greatest = |developers: &Vec<&Developer>| {
            let amounts = developers.iter().map(|developer| amount(developer));
            amounts.max().expect("a project has a developer")
        };
        self.projects().values().map(greatest).sum()
    }

    /// The developers of each project that has one, both by rising number.
    pub fn projects(&self) -> BTreeMap<u8, Vec<&Developer>> {
        let mut projects: BTreeMap<u8, Vec<&Developer>> = BTreeMap::new();
        for developer in self.developers.values() {
            let developers = projects.entry(developer.project).or_default();
            developers.push(developer);
        }
        projects
    }

    /// The same auction as if these projects had no developers.
    pub fn without(&self, projects: &BTreeSet<u8>) -> Auction {
        let mut auction = self.clone();
        let stays = |developer: &Developer| !projects.contains(&developer.project);
        auction.developers.retain(|_, developer| stays(developer));
        auction
    }

    /// The same auction as if the developer had then withdrawn so.
    pub fn with_withdrawal(&self, developer: u8, withdrawal: Withdrawal) -> Auction {
        let mut auction = self.clone();
        let withdrawing = auction.developers.get_mut(&developer);
        withdrawing.expect("registered").withdraw(&[withdrawal]);
        auction
    }

    pub fn phase(&self) -> &Phase {
        &self.phase
    }

    pub fn settings(&self) -> &Settings {
        &self.settings
    }

    pub fn developers(&self) -> &BTreeMap<u8, Developer> {
        &self.developers
    }

    /// The C of the last round closed.
    pub fn last_c(&self) -> Option<u64> {
        self.last_c
    }
}

/// The developer, if it is one that makes offers. Checks: 3.
fn may_offer(developers: &BTreeMap<u8, Developer>, number: u8) -> Result<&Developer, u8> {
    let known = developers.get(&number);
    known.filter(|d| d.kind == NEW).ok_or(BAD_NUMBER)
}

/// Steps at these prices. Checks: 6, 7. All prices are tested before any level.
fn steps(
    developer: &Developer,
    at: &Range<u64>,
    prices: &[u32],
    levels: &[u32],
) -> Result<Vec<Withdrawal>, u8> {
    let inside = |&price: &u32| at.contains(&price.into());
    let falling = prices.is_sorted_by(|before, after| before > after);
    require(
        prices.len() == levels.len()
            && prices.len() <= MOST_STEPS
            && prices.iter().all(inside)
            && falling,
        BAD_STEPS,
    )?;
    let levels: Vec<u64> = levels.iter().map(|&level| level.into()).collect();
    require(developer.may_fall_to(&levels), BAD_LEVEL)?;
    let steps = iter::zip(prices, levels).map(|(&price, level)| Withdrawal {
        price: price.into(),
        level,
    });
    Ok(steps.collect())
}
