//! Records whose offers and cancellations arrive in another order (document 02, request 12).

use crate::generators::random::Random;
use crate::model::replay::{lines, read_call, replay, Call};
use std::iter::zip;

/// A line that asks an offer or a cancellation in an open round, at its place in the first order.
#[derive(Clone, Copy, Debug, PartialEq, Eq)]
pub struct Arrival {
    pub place: usize,
    pub developer: u8,
    pub cancels: bool,
    pub accepted: bool,
}

impl Arrival {
    /// None in the other lines.
    fn of(place: usize, line: &[u8], reply: &[u8]) -> Option<Arrival> {
        let (developer, cancels) = match read_call(line)? {
            Call::Offer { developer, .. } => (developer, false),
            Call::Cancel { developer } => (developer, true),
            _ => return None,
        };
        // With no round open it is refused by 2, which is tested first.
        (reply[2..4] != *b"02").then(|| Arrival {
            place,
            developer,
            cancels,
            accepted: reply[2..4] == *b"00",
        })
    }
}

/// A longest run of such lines: as they arrive first, and in the other order.
pub struct Passage {
    pub first: Vec<Arrival>,
    pub then: Vec<Arrival>,
}

/// Another order of a record's lines.
pub struct Order {
    pub passages: Vec<Passage>,
    /// At each place, the place in the first order of the line that stands there now.
    pub places: Vec<usize>,
}

impl Order {
    /// The record's own, the same in every run.
    pub fn of(record: &[u8]) -> Order {
        Order::new(record.len() as u64, record)
    }

    /// That of a seed: the record's passages are shuffled, but each developer's own lines keep their
    /// order. All other lines stay where they are.
    pub fn new(seed: u64, record: &[u8]) -> Order {
        let mut random = Random::new(seed);
        let mut places: Vec<usize> = (0..lines(record).len()).collect();
        let mut passages = Vec::new();
        for first in runs(record) {
            let then = shuffled(&mut random, first.clone());
            for (line, other) in zip(&first, &then) {
                places[line.place] = other.place;
            }
            passages.push(Passage { first, then });
        }
        Order { passages, places }
    }

    /// The places where another line stands.
    pub fn moved(&self) -> Vec<usize> {
        let mut places: Vec<usize> = (0..self.places.len()).collect();
        places.retain(|&place| self.places[place] != place);
        places
    }

    /// The record in this order, or replies to it with their lines; each line with its 0A.
    pub fn put(&self, text: &[u8]) -> Vec<u8> {
        let lines = lines(text);
        let put = self.places.iter().filter_map(|&first| lines.get(first));
        put.flat_map(|line| [line, &b"\n"[..]].concat()).collect()
    }
}

/// The passages of a record as they arrive first.
fn runs(record: &[u8]) -> Vec<Vec<Arrival>> {
    let replies = replay(record);
    let replied = zip(lines(record), lines(&replies)).enumerate();
    let mut runs: Vec<Vec<Arrival>> = Vec::new();
    for (place, (line, reply)) in replied {
        let Some(arrival) = Arrival::of(place, line, reply) else {
            continue;
        };
        let goes_on = |run: &Vec<Arrival>| run[run.len() - 1].place + 1 == place;
        match runs.last_mut() {
            Some(run) if goes_on(run) => run.push(arrival),
            _ => runs.push(vec![arrival]),
        }
    }
    runs
}

/// The lines in any order in which each developer's own keep theirs: one of those left is drawn, and
/// its developer's next one arrives.
fn shuffled(random: &mut Random, mut left: Vec<Arrival>) -> Vec<Arrival> {
    let mut arriving = Vec::new();
    while !left.is_empty() {
        let developer = left[random.index(left.len())].developer;
        let next = left.iter().position(|line| line.developer == developer);
        arriving.push(left.remove(next.expect("the one that was drawn")));
    }
    arriving
}
