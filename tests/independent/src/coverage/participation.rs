//! What a record shows of agents and of participation (document 02, request 10).

use super::features::Feature;
use crate::generators::records::with_agent;
use crate::model::auction::{Auction, Developer, EXISTING, NEW};
use crate::model::replay::{lines, make, read_call, Call};
use crate::model::settling::Award;
use crate::BAD_NUMBER;
use std::collections::{BTreeMap, BTreeSet};
use std::ops::Range;

/// A record's registrations, and its auction at last with the settlement, if it settles.
#[derive(Default)]
pub struct Participation {
    /// Of each accepted registration the developer, and the agent if it is named.
    registered: Vec<(u8, Option<u8>)>,
    /// The agents for which alone a registration was refused.
    refused: BTreeSet<u8>,
    auction: Auction,
    settled: Option<Settled>,
}

/// What an accepted settling says.
struct Settled {
    price: u64,
    awards: Vec<Award>,
}

/// What a record's agents and settlement show.
pub const PARTICIPATION: &[Feature<Participation>] = &[
    ("by 08", |seen| seen.named().count() > 0),
    ("by 02 and 08", |seen| {
        let named = seen.named().count();
        0 < named && named < seen.registered.len()
    }),
    ("by 08 for the developer's number", |seen| {
        seen.named().any(|(developer, agent)| developer == agent)
    }),
    ("agent 0 refused", |seen| seen.refused.contains(&0)),
    ("agent 33 refused", |seen| seen.refused.contains(&33)),
    ("several developers of an agent", |seen| {
        seen.agent_with(|developers| developers.len() > 1)
    }),
    ("several existing plants of an agent", |seen| {
        seen.agent_with(|developers| of_kind(developers, EXISTING) > 1)
    }),
    ("existing and new plants of an agent", |seen| {
        seen.agent_with(|developers| {
            of_kind(developers, EXISTING) > 0 && of_kind(developers, NEW) > 0
        })
    }),
    ("no new award", |seen| {
        seen.settled.is_some() && seen.whole() == 0
    }),
    ("new award to an agent with existing plants", |seen| {
        seen.awarded(|agent| seen.existing(agent) > 0)
    }),
    ("new award to a small agent with existing plants", |seen| {
        seen.awarded(|agent| seen.existing(agent) > 0 && seen.small(agent))
    }),
    ("new award to an agent without", |seen| {
        seen.awarded(|agent| seen.existing(agent) == 0)
    }),
    ("new award to small agents and others", |seen| {
        seen.awarded(|agent| seen.small(agent)) && seen.awarded(|agent| !seen.small(agent))
    }),
    ("exactly 15 per cent", |seen| {
        seen.awarded(|agent| seen.at_15_per_cent(agent))
    }),
    ("exactly 15 per cent decides", |seen| {
        let not_above = |agent| seen.small(agent) || seen.at_15_per_cent(agent);
        seen.insufficient() && !seen.insufficient_if(not_above)
    }),
    ("exactly half", |seen| {
        seen.whole() > 0 && 2 * seen.awarded_to(|agent| seen.small(agent)) == seen.whole()
    }),
    ("withdrawn levels decide", |seen| {
        seen.insufficient() && !seen.insufficient_if(|agent| seen.small_by_quantities(agent))
    }),
    ("small agents and others in an awarded project", |seen| {
        seen.project_of_both()
    }),
    ("insufficient", Participation::insufficient),
    ("insufficient with P above CE × 11 / 10", |seen| {
        seen.insufficient() && seen.closing_price() > seen.auction.most_paid()
    }),
    ("insufficient with that rounded down", |seen| {
        let whole = (seen.auction.settings().ce * 11).is_multiple_of(10);
        seen.insufficient() && seen.closing_price() > seen.auction.most_paid() && !whole
    }),
    ("insufficient with P below", |seen| {
        seen.insufficient() && seen.closing_price() < seen.auction.most_paid()
    }),
];

fn of_kind(developers: &[&Developer], kind: u8) -> usize {
    let of_kind = developers.iter().filter(|developer| developer.kind == kind);
    of_kind.count()
}

impl Participation {
    /// By the replies to the record, which hold its settlement.
    pub fn of(record: &[u8], replies: &[u8]) -> Participation {
        let mut seen = Participation::default();
        for call in lines(record).into_iter().filter_map(read_call) {
            if !matches!(call, Call::Settle { .. }) {
                seen.make(&call);
            }
        }
        let mut replies = lines(replies).into_iter();
        let settling = replies.rfind(|reply| reply.starts_with(b"0600"));
        seen.settled = settling.map(Settled::of);
        seen
    }

    /// Makes a call that is not a settling.
    fn make(&mut self, call: &Call) {
        let &Call::Register {
            developer, agent, ..
        } = call
        else {
            return drop(make(&mut self.auction, call));
        };
        let before = self.auction.clone();
        let answer = make(&mut self.auction, call);
        if answer.is_ok() {
            self.registered.push((developer, agent));
        } else if answer == Err(BAD_NUMBER) && !refused_for_another(before, call) {
            self.refused.extend(agent);
        }
    }

    /// Developer and agent of the registrations by frame 08.
    fn named(&self) -> impl Iterator<Item = (u8, u8)> + '_ {
        let registered = self.registered.iter();
        registered.filter_map(|&(developer, agent)| Some((developer, agent?)))
    }

    /// Whether some agent has such developers.
    fn agent_with(&self, such: impl Fn(&[&Developer]) -> bool) -> bool {
        let mut by_agent: BTreeMap<u8, Vec<&Developer>> = BTreeMap::new();
        for developer in self.auction.developers().values() {
            by_agent.entry(developer.agent).or_default().push(developer);
        }
        by_agent.values().any(|developers| such(developers))
    }

    /// The sum of some amount over the agent's existing plants.
    fn sum_of_existing(&self, agent: u8, amount: impl Fn(&Developer) -> u64) -> u64 {
        let developers = self.auction.developers().values();
        let plants = developers.filter(|d| d.kind == EXISTING && d.agent == agent);
        plants.map(amount).sum()
    }

    fn existing(&self, agent: u8) -> u64 {
        self.sum_of_existing(agent, Developer::highest_level)
    }

    fn small(&self, agent: u8) -> bool {
        self.auction.is_small(agent)
    }

    fn at_15_per_cent(&self, agent: u8) -> bool {
        100 * self.existing(agent) == 15 * self.auction.settings().d
    }

    /// What small is not: by what is left of the plants.
    fn small_by_quantities(&self, agent: u8) -> bool {
        let left = self.sum_of_existing(agent, |plant| plant.quantity);
        100 * left < 15 * self.auction.settings().d
    }

    /// Agent and quantity of each new award.
    fn new_award(&self) -> impl Iterator<Item = (u8, u64)> + '_ {
        let awards = self.settled.iter().flat_map(|settled| &settled.awards);
        let awards = awards.map(|award| (&self.auction.developers()[&award.developer], award));
        let new = awards.filter(|(developer, _)| developer.kind == NEW);
        new.map(|(developer, award)| (developer.agent, award.quantity))
    }

    /// Whether such an agent has a new award.
    fn awarded(&self, such: impl Fn(u8) -> bool) -> bool {
        self.awarded_to(such) > 0
    }

    /// The new award that goes to such agents.
    fn awarded_to(&self, such: impl Fn(u8) -> bool) -> u64 {
        let to_such = self.new_award().filter(|&(agent, _)| such(agent));
        to_such.map(|(_, quantity)| quantity).sum()
    }

    fn whole(&self) -> u64 {
        self.awarded_to(|_| true)
    }

    fn insufficient(&self) -> bool {
        self.insufficient_if(|agent| self.small(agent))
    }

    /// Whether it would be, were these agents the small ones.
    fn insufficient_if(&self, small: impl Fn(u8) -> bool) -> bool {
        2 * self.awarded_to(small) < self.whole()
    }

    fn closing_price(&self) -> u64 {
        let settled = self.settled.as_ref();
        settled.map_or(0, |settled| settled.price)
    }

    /// Whether a project with a new award has developers of small agents and of others.
    fn project_of_both(&self) -> bool {
        let mut awards = self.settled.iter().flat_map(|settled| &settled.awards);
        let projects = self.auction.projects();
        awards.any(|award| {
            let agents = projects[&award.project].iter().map(|d| d.agent);
            let (small, others): (Vec<u8>, Vec<u8>) = agents.partition(|&agent| self.small(agent));
            !small.is_empty() && !others.is_empty()
        })
    }
}

/// Whether the registration would be refused by 3 for a sound agent too.
fn refused_for_another(mut auction: Auction, call: &Call) -> bool {
    let for_another = with_agent(call.clone(), Some(1));
    make(&mut auction, &for_another) == Err(BAD_NUMBER)
}

impl Settled {
    /// The reply to an accepted settling, read.
    fn of(reply: &[u8]) -> Settled {
        let awards = number(reply, 48..50) as usize;
        let award = |start: usize| Award {
            project: number(reply, start..start + 2) as u8,
            developer: number(reply, start + 2..start + 4) as u8,
            quantity: number(reply, start + 4..start + 12),
        };
        Settled {
            price: number(reply, 4..12),
            awards: (0..awards).map(|place| award(50 + 12 * place)).collect(),
        }
    }
}

fn number(reply: &[u8], place: Range<usize>) -> u64 {
    let digits = std::str::from_utf8(&reply[place]).expect("digits");
    u64::from_str_radix(digits, 16).expect("digits")
}
