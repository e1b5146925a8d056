//! What records and sessions for calibration have to reach, and what one reaches.

use super::features::{Feature, Kind};
use super::{
    Cancellations, Line, Lodgings, Looked, Moves, Participation, RecordLine, Redrawn, Settled,
    Settlings, CANCELLATIONS, CURVES, LODGINGS, MOVES, PARTICIPATION, RECORD_LINES, SESSION_LINES,
    SETTLED, SETTLINGS,
};
use crate::generators::sample;
use crate::model::hall::Hall;
use crate::model::replay::{lines, replay, KEPT_BYTES, PROGRAM_BYTES};
use crate::model::sessions::{answer, asked};
use std::collections::BTreeSet;

/// What can be reached: a feature, and what it is one of.
#[derive(Clone, Copy, Debug, PartialEq, Eq, PartialOrd, Ord)]
pub struct Goal {
    pub topic: &'static str,
    pub feature: &'static str,
}

impl Goal {
    /// In the name of a file.
    pub fn slug(&self) -> String {
        let said = format!("{} {}", self.topic, self.feature);
        let said = said.replace('×', "x").replace(" -", " minus ");
        let words = said.split(|letter: char| !letter.is_ascii_alphanumeric());
        let words: Vec<&str> = words.filter(|word| !word.is_empty()).collect();
        words.join("-").to_lowercase()
    }
}

/// A record, and the replies to it.
pub struct Replied {
    record: Vec<u8>,
    replies: Vec<u8>,
}

const WHOLE: &[Feature<Replied>] = &[
    ("the sample of document 01", |whole| {
        whole.record == sample::RECORD.as_bytes()
    }),
    ("no line", |whole| whole.record.is_empty()),
    ("a last line without 0A", |whole| {
        whole.record.last().is_some_and(|&byte| byte != b'\n')
    }),
    ("a blank line at the end", |whole| {
        whole.record.ends_with(b"\n\n")
    }),
    ("a first line that is malformed", |whole| {
        whole.replies.starts_with(b"FF")
    }),
    ("no line accepted", |whole| {
        let replies = lines(&whole.replies);
        !replies.is_empty() && !replies.iter().any(|reply| reply[2..].starts_with(b"00"))
    }),
    ("100 lines or more", |whole| {
        lines(&whole.record).len() >= 100
    }),
    ("65,536 bytes", |whole| whole.record.len() == PROGRAM_BYTES),
    ("65,536 bytes of replies", |whole| {
        whole.replies.len() == PROGRAM_BYTES
    }),
    ("long replies", |whole| whole.replies.len() > KEPT_BYTES),
];

const WHOLE_RECORD: &str = "record";
const ROUND_WITHDRAWALS: &str = "withdrawals of a round";
const SUPPLY: &str = "supply curve behind a round";
const LODGED: &str = "lodged lists";
const CANCELLED: &str = "cancelled offers";
const AWARD: &str = "settlement";
const AGENTS: &str = "participation";
const SETTLED_AGAIN: &str = "settlings";

/// All goals of a record, by topic.
pub fn goals() -> Vec<Goal> {
    let whole = of(WHOLE_RECORD, WHOLE).chain(by_kind(RECORD_LINES));
    let rounds = of(ROUND_WITHDRAWALS, MOVES).chain(of(SUPPLY, CURVES));
    let moves = of(LODGED, LODGINGS).chain(of(CANCELLED, CANCELLATIONS));
    let settling = of(AWARD, SETTLED).chain(of(AGENTS, PARTICIPATION));
    whole
        .chain(rounds)
        .chain(moves)
        .chain(settling)
        .chain(of(SETTLED_AGAIN, SETTLINGS))
        .collect()
}

/// What a record reaches.
pub fn reached(record: &[u8]) -> BTreeSet<Goal> {
    let replies = replay(record);
    let mut goals = BTreeSet::new();
    goals.extend(shown(RECORD_LINES, &RecordLine::all(record)));
    goals.extend(shown_of(ROUND_WITHDRAWALS, MOVES, &Moves::all(record)));
    goals.extend(shown_of(SUPPLY, CURVES, &Redrawn::all(record)));
    goals.extend(shown_of(LODGED, LODGINGS, &[Lodgings::of(record)]));
    let cancellations = [Cancellations::of(record)];
    goals.extend(shown_of(CANCELLED, CANCELLATIONS, &cancellations));
    let settled: Vec<Settled> = Settled::of(record).into_iter().collect();
    goals.extend(shown_of(AWARD, SETTLED, &settled));
    let participation = [Participation::of(record, &replies)];
    goals.extend(shown_of(AGENTS, PARTICIPATION, &participation));
    let settlings = [Settlings::of(&replies)];
    goals.extend(shown_of(SETTLED_AGAIN, SETTLINGS, &settlings));
    let record = record.to_vec();
    let whole = [Replied { record, replies }];
    goals.extend(shown_of(WHOLE_RECORD, WHOLE, &whole));
    goals
}

/// All goals of a session, by topic.
pub fn session_goals() -> Vec<Goal> {
    by_kind(SESSION_LINES).collect()
}

/// What a session reaches.
pub fn session_reached(session: &[u8]) -> BTreeSet<Goal> {
    let mut hall = Hall::default();
    let lines = lines(session).into_iter().map(|line| {
        let asked = asked(line);
        let (kind, answer) = answer(&mut hall, &asked);
        let number = answer.err().unwrap_or(0);
        Looked::Line(Line::new(line, &asked, kind, number))
    });
    shown(SESSION_LINES, &lines.collect::<Vec<_>>()).collect()
}

fn of<T>(
    topic: &'static str,
    features: &'static [Feature<T>],
) -> impl Iterator<Item = Goal> + use<T> {
    let names = features.iter().map(|(feature, _)| *feature);
    names.map(move |feature| Goal { topic, feature })
}

fn by_kind<T>(kinds: &'static [Kind<T>]) -> impl Iterator<Item = Goal> {
    let kinds = kinds.iter();
    kinds.flat_map(|&(topic, _, features)| of(topic, features))
}

/// The features that one of the things shows.
fn shown_of<'a, T>(
    topic: &'static str,
    features: &'static [Feature<T>],
    things: &'a [T],
) -> impl Iterator<Item = Goal> + 'a {
    let showing = features
        .iter()
        .filter(|(_, shows)| things.iter().any(shows));
    showing.map(move |&(feature, _)| Goal { topic, feature })
}

/// The same of each kind, among the things that are looked at under it.
fn shown<'a, T>(kinds: &'static [Kind<T>], things: &'a [T]) -> impl Iterator<Item = Goal> + 'a {
    kinds.iter().flat_map(move |&(topic, looked_at, features)| {
        let showing = features.iter().filter(move |(_, shows)| {
            let mut things = things.iter();
            things.any(|thing| looked_at(thing) && shows(thing))
        });
        showing.map(move |&(feature, _)| Goal { topic, feature })
    })
}
