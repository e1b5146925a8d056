//! What the settlings of a record's closed auction stand behind, and what stands between them.

use super::features::Feature;
use crate::model::replay::lines;
use std::collections::BTreeSet;

/// The settlings of a closed auction: those that are accepted, or refused by 10.
#[derive(Default)]
pub struct Settlings {
    any: bool,
    accepted: u64,
    /// Whether one is refused before the first that is accepted, or behind it, and whether one is
    /// accepted behind that.
    refused_before: bool,
    refused_behind: bool,
    accepted_then: bool,
    /// The kinds of the refused calls and malformed lines between two of them.
    between: BTreeSet<Vec<u8>>,
}

/// What a record's settlings show.
pub const SETTLINGS: &[Feature<Settlings>] = &[
    ("accepted again", |seen| seen.accepted > 1),
    ("accepted 8 times or more", |seen| seen.accepted >= 8),
    ("refused by 10 before an accepted one", |seen| {
        seen.refused_before && seen.accepted > 0
    }),
    ("refused by 10 behind an accepted one", |seen| {
        seen.refused_behind
    }),
    ("accepted behind that", |seen| seen.accepted_then),
    ("refused 01 between two", |seen| seen.between(b"01")),
    ("refused 02 between two", |seen| seen.between(b"02")),
    ("refused 03 between two", |seen| seen.between(b"03")),
    ("refused 04 between two", |seen| seen.between(b"04")),
    ("refused 05 between two", |seen| seen.between(b"05")),
    ("refused 06 between two", |seen| seen.between(b"06")),
    ("refused 07 between two", |seen| seen.between(b"07")),
    ("refused 08 between two", |seen| seen.between(b"08")),
    ("refused 09 between two", |seen| seen.between(b"09")),
    ("malformed between two", |seen| seen.between(b"FF")),
];

impl Settlings {
    /// By the replies to a record.
    pub fn of(replies: &[u8]) -> Settlings {
        let mut seen = Settlings::default();
        // The kinds refused since the last settling.
        let mut since = BTreeSet::new();
        for reply in lines(replies) {
            let (kind, answer) = (&reply[..2], &reply[2..4]);
            let behind = seen.any;
            if kind == b"06" && (answer == b"00" || answer == b"0A") {
                seen.between.append(&mut since);
                seen.settle(answer == b"00");
            }
            if behind && answer != b"00" {
                since.insert(kind.to_vec());
            }
        }
        seen
    }

    fn settle(&mut self, accepted: bool) {
        self.any = true;
        self.accepted += u64::from(accepted);
        self.accepted_then |= accepted && self.refused_behind;
        self.refused_behind |= !accepted && self.accepted > 0;
        self.refused_before |= !accepted && self.accepted == 0;
    }

    fn between(&self, kind: &[u8]) -> bool {
        self.between.contains(kind)
    }
}
