//! What was moved in records that were replayed in another order, and what was compared behind it
//! (document 02, request 12).

use super::features::{Feature, Features};
use crate::generators::shuffling::{Arrival, Order, Passage};
use crate::model::replay::lines;

/// What a passage shows.
pub const PASSAGES: &[Feature<Passage>] = &[
    ("in open rounds", |_| true),
    ("of two or more developers", |passage| {
        passage.any(|arrival| arrival.developer != passage.first[0].developer)
    }),
    ("in another order", Passage::changed),
    ("of these with a cancellation", |passage| {
        passage.changed() && passage.any(|arrival| arrival.cancels)
    }),
    ("with an accepted one", |passage| {
        passage.changed() && passage.any(|arrival| arrival.cancels && arrival.accepted)
    }),
    ("with a refused line", |passage| {
        passage.changed() && passage.any(|arrival| !arrival.accepted)
    }),
];

/// What a reply behind a moved line shows.
const BEHIND: &[Feature<Vec<u8>>] = &[
    ("closings accepted", |reply| reply.starts_with(b"0500")),
    ("settlings accepted", |reply| reply.starts_with(b"0600")),
    ("settlings refused", |reply| {
        reply.starts_with(b"06") && !reply.starts_with(b"0600")
    }),
];

impl Passage {
    fn changed(&self) -> bool {
        self.first != self.then
    }

    fn any(&self, shows: impl Fn(&Arrival) -> bool) -> bool {
        self.first.iter().any(shows)
    }
}

/// Records, lines and passages by what was moved, and the replies behind.
pub struct Orders {
    records: u64,
    changed: u64,
    moved: u64,
    passages: Features<Passage>,
    behind: Features<Vec<u8>>,
}

impl Orders {
    pub fn new() -> Orders {
        Orders {
            records: 0,
            changed: 0,
            moved: 0,
            passages: Features::new(PASSAGES),
            behind: Features::new(BEHIND),
        }
    }

    /// Counts a record with these replies by its other order.
    pub fn count(&mut self, order: &Order, replies: &[u8]) {
        let moved = order.moved();
        self.records += 1;
        self.changed += u64::from(!moved.is_empty());
        self.moved += moved.len() as u64;
        for passage in &order.passages {
            self.passages.count(passage);
        }
        let first = moved.first().copied().unwrap_or(usize::MAX);
        for reply in lines(replies).into_iter().skip(first) {
            self.behind.count(&reply.to_vec());
        }
    }

    /// With the records counted elsewhere.
    pub fn join(&mut self, other: &Orders) {
        self.records += other.records;
        self.changed += other.changed;
        self.moved += other.moved;
        self.passages.join(&other.passages);
        self.behind.join(&other.behind);
    }

    /// Three lines, if any record was looked at.
    pub fn print(&self) {
        let Orders {
            records,
            changed,
            moved,
            ..
        } = self;
        if *records > 0 {
            println!("  in another order: {changed} of {records} records, {moved} lines moved");
        }
        self.passages.print("passages");
        self.behind.print("behind a moved line");
    }
}
