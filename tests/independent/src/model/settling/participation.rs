//! Participation (document 02, request 10; article 8 of document 002): which agents are small, whether
//! they get enough of the new award, and the price paid to existing plants.

use super::Award;
use crate::model::auction::{Auction, EXISTING, NEW};

impl Auction {
    /// Small: 100 times the sum of the agent's existing plants' highest levels is below 15 times D.
    /// Without existing plants it is small.
    pub fn is_small(&self, agent: u8) -> bool {
        let developers = self.developers().values();
        let plants = developers.filter(|d| d.kind == EXISTING && d.agent == agent);
        let highest: u64 = plants.map(|plant| plant.highest_level()).sum();
        100 * highest < 15 * self.settings().d
    }

    /// The new award: what goes to developers of kind 2.
    fn new_award<'a>(&'a self, awards: &'a [Award]) -> impl Iterator<Item = &'a Award> {
        let kind = |award: &Award| self.developers()[&award.developer].kind;
        awards.iter().filter(move |award| kind(award) == NEW)
    }

    /// Sufficient: twice the new award given to small agents is at least the whole new award.
    pub fn participation_is_sufficient(&self, awards: &[Award]) -> bool {
        let agent = |award: &Award| self.developers()[&award.developer].agent;
        let whole: u64 = self.new_award(awards).map(|award| award.quantity).sum();
        let to_small = self
            .new_award(awards)
            .filter(|award| self.is_small(agent(award)));
        let to_small: u64 = to_small.map(|award| award.quantity).sum();
        2 * to_small >= whole
    }

    /// The price paid to existing plants: their closing price or, where participation is
    /// insufficient, the lower of it and CE × 11 / 10 rounded down.
    pub fn paid_to_existing(&self, closing_price: u64, insufficient: bool) -> u64 {
        if insufficient {
            closing_price.min(self.most_paid())
        } else {
            closing_price
        }
    }

    /// CE × 11 / 10 rounded down: the most that is paid where participation is insufficient.
    pub fn most_paid(&self) -> u64 {
        self.settings().ce * 11 / 10
    }
}
