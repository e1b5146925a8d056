//! What a program that compares replies prints: one line a group of records with what their
//! replies were, and the first difference; how often rounds closed where the closing rule
//! decides; how often demand had a remainder; what lodged lists and cancellations did; who
//! participated; what settlings stand behind and between; how long the lent buffers were; how searches
//! went; what closings did to the supply curve, and who moved by them; what was moved to another order;
//! and what it ends with.

mod compared;

use crate::coverage::{add, Features};
use crate::coverage::{
    Buffer, Cancellations, Closings, Cut, Lodgings, Moves, Orders, Participation, Redrawn,
    Remainders, Settlings,
};
use crate::coverage::{
    BUFFERS, CANCELLATIONS, CURVES, LODGINGS, MOVES, PARTICIPATION, SEARCHES, SETTLINGS,
};
use crate::generators::shuffling::Order;
use crate::model::replay::lines;
use crate::model::settling::Settlement;
use crate::parts::in_parts;
pub use compared::Compared;
use std::collections::BTreeMap;
use std::fmt::Write;
use std::process::ExitCode;

/// Whether `FEW` is set: a few inputs are enough for a coarse fault.
pub fn few() -> bool {
    std::env::var_os("FEW").is_some()
}

/// So many generated inputs, or a hundredth of them where few are enough.
pub fn inputs(many: u64) -> u64 {
    if few() {
        many / 100
    } else {
        many
    }
}

/// Whether a group agrees. Where few inputs are enough, the first that does not ends the program: the fault is reported.
pub fn agreeing(agrees: bool) -> bool {
    if few() && !agrees {
        std::process::exit(1);
    }
    agrees
}

/// The exit status of a program whose groups agree or not.
pub fn verdict<'a>(agree: impl IntoIterator<Item = &'a bool>) -> ExitCode {
    if agree.into_iter().all(|&agrees| agrees) {
        ExitCode::SUCCESS
    } else {
        ExitCode::FAILURE
    }
}

/// Records compared under one name.
pub struct Group {
    name: &'static str,
    records: u64,
    /// Records with an accepted settling.
    settled: u64,
    /// Replies by kind and answer, the first four digits.
    replies: BTreeMap<String, u64>,
    /// Lines that the engine wrote again.
    written: u64,
    closings: Closings,
    remainders: Remainders,
    lodgings: Features<Lodgings>,
    cancellations: Features<Cancellations>,
    participation: Features<Participation>,
    cut: Cut,
    orders: Orders,
    searches: Features<Settlement>,
    curves: Features<Redrawn>,
    settlings: Features<Settlings>,
    buffers: Features<Buffer>,
    moves: Features<Moves>,
    /// Words of traces by their names.
    words: BTreeMap<String, u64>,
    difference: Option<String>,
}

impl Group {
    pub fn new(name: &'static str) -> Group {
        Group {
            name,
            records: 0,
            settled: 0,
            replies: BTreeMap::new(),
            written: 0,
            closings: Closings::default(),
            remainders: Remainders::default(),
            lodgings: Features::new(LODGINGS),
            cancellations: Features::new(CANCELLATIONS),
            participation: Features::new(PARTICIPATION),
            cut: Cut::default(),
            orders: Orders::new(),
            searches: Features::new(SEARCHES),
            curves: Features::new(CURVES),
            settlings: Features::new(SETTLINGS),
            buffers: Features::new(BUFFERS),
            moves: Features::new(MOVES),
            words: BTreeMap::new(),
            difference: None,
        }
    }

    /// The group of these records, each compared by the function.
    pub fn of(
        name: &'static str,
        records: &[Vec<u8>],
        compare: impl Fn(&mut Group, &[u8]) + Sync,
    ) -> Group {
        let mut group = Group::new(name);
        let parts = in_parts(records, |records| {
            let mut part = Group::new(name);
            records.iter().for_each(|record| compare(&mut part, record));
            part
        });
        parts.into_iter().for_each(|part| group.join(part));
        group
    }

    /// With the records of another one behind its own.
    fn join(&mut self, other: Group) {
        self.records += other.records;
        self.settled += other.settled;
        add(&mut self.replies, other.replies);
        self.written += other.written;
        self.closings.join(other.closings);
        self.remainders.join(&other.remainders);
        self.lodgings.join(&other.lodgings);
        self.cancellations.join(&other.cancellations);
        self.participation.join(&other.participation);
        self.cut.join(&other.cut);
        self.orders.join(&other.orders);
        self.searches.join(&other.searches);
        self.curves.join(&other.curves);
        self.settlings.join(&other.settlings);
        self.buffers.join(&other.buffers);
        self.moves.join(&other.moves);
        add(&mut self.words, other.words);
        self.difference = self.difference.take().or(other.difference);
    }

    /// Counts a record by the replies to it.
    pub fn count(&mut self, record: &[u8], replies: &[u8]) {
        self.closings.count(record, replies);
        self.remainders.count(replies);
        self.lodgings.count(&Lodgings::of(record));
        self.cancellations.count(&Cancellations::of(record));
        let participation = Participation::of(record, replies);
        self.participation.count(&participation);
        let replies = lines(replies);
        let settled = replies.iter().any(|reply| reply.starts_with(b"0600"));
        self.records += 1;
        self.settled += u64::from(settled);
        for reply in replies {
            let kind_and_answer = shown(&reply[..reply.len().min(4)]);
            *self.replies.entry(kind_and_answer).or_default() += 1;
        }
    }

    /// Counts a line that the engine wrote again.
    pub fn count_written(&mut self) {
        self.written += 1;
    }

    /// Counts a record with these replies that was replayed without so many lines of cancelled
    /// offers, and without so many that were refused.
    pub fn count_cut(&mut self, replies: &[u8], cancelled: usize, refused: usize) {
        self.cut.count(replies, cancelled, refused);
    }

    /// Counts a record with these replies by its other order.
    pub fn count_order(&mut self, order: &Order, replies: &[u8]) {
        self.orders.count(order, replies);
    }

    /// Counts the settlement of a record.
    pub fn count_search(&mut self, settlement: &Settlement) {
        self.searches.count(settlement);
    }

    /// Counts the accepted closings of a record by their supply curves.
    pub fn count_curves(&mut self, record: &[u8]) {
        for closing in Redrawn::all(record) {
            self.curves.count(&closing);
        }
    }

    /// Counts the settlings of a record with these replies, and the accepted closings by who moved.
    pub fn count_repeated(&mut self, record: &[u8], replies: &[u8]) {
        self.settlings.count(&Settlings::of(replies));
        for closing in Moves::all(record) {
            self.moves.count(&closing);
        }
    }

    /// Counts a buffer that was lent.
    pub fn count_buffer(&mut self, buffer: &Buffer) {
        self.buffers.count(buffer);
    }

    /// Whether enough settlings, lent buffers and closings show each feature.
    pub fn holds_enough(&self, fewest: u64) -> bool {
        let settlings = self.settlings.hold_enough(fewest);
        let buffers = self.buffers.hold_enough(fewest);
        self.moves.hold_enough(fewest) && settlings && buffers
    }

    /// Counts a line of a trace's words by its name.
    pub fn count_word(&mut self, name: &str) {
        *self.words.entry(name.to_owned()).or_default() += 1;
    }

    /// Keeps the first difference: the record, and two replies to it with whose they are.
    pub fn differ(&mut self, why: &str, record: &[u8], replies: [(&str, &[u8]); 2]) {
        self.difference.get_or_insert_with(|| {
            let mut text = format!("differs: {why}\n{}", first_differing(record, replies));
            for (name, bytes) in [("record", record)].into_iter().chain(replies) {
                let _ = write!(text, "{name}, {} bytes:\n{}", bytes.len(), listed(bytes));
            }
            text
        });
    }

    /// Prints the group's line and its first difference; true if nothing differed.
    pub fn report(&self) -> bool {
        let Group {
            name,
            records,
            settled,
            ..
        } = self;
        let percent = 100.0 * *settled as f64 / (*records).max(1) as f64;
        let replies: u64 = self.replies.values().sum();
        let counts = listed_counts(&self.replies);
        let verdict = self.difference.as_deref().unwrap_or("ok");
        println!(
            "{name}: {records} records, {percent:.1}% settle, {replies} replies ({counts}): {verdict}"
        );
        if self.written > 0 {
            println!("  well-formed lines written again: {}", self.written);
        }
        self.closings.print();
        self.remainders.print();
        self.lodgings.print("lodgings by record");
        self.cancellations.print("cancellations by record");
        self.participation.print("participation by record");
        self.settlings.print("settlings by record");
        self.buffers.print("lent buffers");
        self.moves.print("moves by closing");
        self.cut.print();
        self.orders.print();
        if !self.words.is_empty() {
            println!("  words: {}", listed_counts(&self.words));
        }
        self.searches.print("searches by record");
        self.curves.print("curves by closing");
        agreeing(self.difference.is_none())
    }
}

fn listed_counts(counts: &BTreeMap<String, u64>) -> String {
    let counts = counts.iter().map(|(name, count)| format!("{name} {count}"));
    counts.collect::<Vec<_>>().join(", ")
}

/// The first line that got two replies, if any did, with both.
fn first_differing(record: &[u8], [(one, replies), (other, others)]: [(&str, &[u8]); 2]) -> String {
    let (replies, others) = (lines(replies), lines(others));
    let count = replies.len().max(others.len());
    let Some(place) = (0..count).find(|&place| replies.get(place) != others.get(place)) else {
        return String::new();
    };
    let at = |lines: &[&[u8]]| lines.get(place).map_or("none".into(), |line| shown(line));
    format!(
        "line {}: {}\n  {one}: {}\n  {other}: {}\n",
        place + 1,
        at(&lines(record)),
        at(&replies),
        at(&others)
    )
}

/// A line's bytes; those that are no printable characters as escapes, and not too many.
fn shown(line: &[u8]) -> String {
    const MOST: usize = 200;
    if line.len() > MOST {
        format!("{}..", line[..MOST].escape_ascii())
    } else {
        line.escape_ascii().to_string()
    }
}

/// The lines, each on its own, and not too many.
pub fn listed(bytes: &[u8]) -> String {
    const MOST: usize = 100;
    let lines = lines(bytes);
    let mut text = String::new();
    for line in lines.iter().take(MOST) {
        let _ = writeln!(text, "  {}", shown(line));
    }
    if lines.len() > MOST {
        let _ = writeln!(text, "  .. and {} lines more", lines.len() - MOST);
    }
    text
}
