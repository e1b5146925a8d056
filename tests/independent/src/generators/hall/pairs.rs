//! Pairs of runs with one view for a developer, from a seed: the second is the first after edits, of
//! which those are kept that leave the view as it is.

use super::edits::EDITS;
use super::runs::calls;
use crate::generators::random::Random;
use crate::model::hall::lines::{events, Event, Line};
use crate::model::hall::views::{shown, take, view, Run, Shown};
use crate::model::hall::{Call, Hall, Seat};
use crate::model::replay;
use std::collections::BTreeMap;
use std::iter::zip;

/// How many edits are tried.
const TRIES: u64 = 8;

pub struct Pair {
    pub developer: u8,
    pub runs: [Seen; 2],
    /// The calls of either run that the other has not, or not so often.
    pub differing: Vec<Event>,
    /// How many edits gave another view.
    pub other_views: u64,
}

/// A run with the developer's reading before it and behind each call.
pub struct Seen {
    pub events: Vec<Event>,
    /// What each call shows the developer.
    pub shown: Vec<Option<Shown>>,
    /// The developers' quantities behind each closing.
    pub quantities: Vec<BTreeMap<u8, u64>>,
}

/// The pair of a seed, if its edits give one.
pub fn pair(seed: u64) -> Option<Pair> {
    let (developer, [first, second], other_views) = runs(seed);
    (first != second).then(|| Pair::new(developer, [&first, &second], other_views))
}

/// A developer, two runs with one view for it, which may be the same, and how many edits gave another
/// view.
pub fn runs(seed: u64) -> (u8, [Run; 2], u64) {
    let mut random = Random::new(seed);
    let random = &mut random;
    let (developer, first) = calls(random, seed);
    let (second, other_views) = other(random, developer, &first);
    (developer, [first, second], other_views)
}

/// Another run with the same view, and how many edits gave another view.
fn other(random: &mut Random, developer: u8, first: &Run) -> (Run, u64) {
    let same = view(developer, first);
    let (mut run, mut other_views) = (first.clone(), 0);
    for _ in 0..TRIES {
        let edit = random.one_of(EDITS);
        let edited = edit(random, developer, &run);
        if view(developer, &edited) == same {
            run = edited;
        } else {
            other_views += 1;
        }
    }
    (run, other_views)
}

impl Pair {
    pub fn new(developer: u8, runs: [&Run; 2], other_views: u64) -> Pair {
        let runs = runs.map(|run| Seen::new(developer, run));
        let differing = [only(&runs[0], &runs[1]), only(&runs[1], &runs[0])].concat();
        Pair {
            developer,
            runs,
            differing,
            other_views,
        }
    }

    /// What both runs show the developer.
    pub fn view(&self) -> impl Iterator<Item = &Shown> {
        self.runs[0].shown.iter().flatten()
    }

    /// Whether some developer has two quantities behind a closing.
    pub fn quantities_differ(&self) -> bool {
        let [one, other] = self.runs.each_ref().map(|run| &run.quantities);
        zip(one, other).any(|(one, other)| {
            let differs = |(number, quantity)| other.get(number).is_some_and(|q| q != quantity);
            one.iter().any(differs)
        })
    }
}

impl Seen {
    fn new(developer: u8, run: &Run) -> Seen {
        let read = Line::Read(Seat::Developer(developer));
        let mut lines = vec![Line::Fresh, read.clone()];
        for (seat, call) in run {
            lines.extend([Line::Call(*seat, call.clone()), read.clone()]);
        }
        Seen {
            events: events(lines),
            shown: shown(developer, run),
            quantities: quantities(run),
        }
    }

    fn calls(&self) -> impl Iterator<Item = &Event> {
        let calls = self.events.iter();
        calls.filter(|event| matches!(event.line, Line::Call(..)))
    }
}

fn quantities(run: &Run) -> Vec<BTreeMap<u8, u64>> {
    let mut hall = Hall::default();
    let mut quantities = Vec::new();
    for (seat, call) in run {
        if take(&mut hall, *seat, call) && *call == Call::Framed(replay::Call::Close) {
            let developers = hall.auction.developers().values();
            quantities.push(developers.map(|own| (own.number, own.quantity)).collect());
        }
    }
    quantities
}

/// The calls of the one run that are left when each of the other has taken its like away.
fn only(one: &Seen, other: &Seen) -> Vec<Event> {
    let mut left: Vec<&Event> = one.calls().collect();
    for taken in other.calls() {
        if let Some(place) = left.iter().position(|event| event.line == taken.line) {
            left.remove(place);
        }
    }
    left.into_iter().cloned().collect()
}
