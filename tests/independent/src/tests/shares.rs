//! What the generated records hold, so that a run beside the engine on them means something.
//! The shares are printed: cargo test --example unit_tests --release shares -- --nocapture

use super::RECORDS;
use independent::coverage::{
    Cancellations, Closings, Features, Lodgings, Participation, Redrawn, Remainders, Settled,
};
use independent::coverage::{CANCELLATIONS, CURVES, LODGINGS, PARTICIPATION, SETTLED};
use independent::generators::records::DECISIVE;
use independent::model::replay::{always_fits, lines, replay};
use std::collections::BTreeMap;

/// What the replies to the records say, counted.
struct Shares {
    records: u64,
    /// Records with an accepted settling.
    settled: u64,
    bytes: usize,
    longest: usize,
    /// Replies by kind and answer.
    replies: BTreeMap<(u8, u8), u64>,
    closings: Closings,
    remainders: Remainders,
    lodgings: Features<Lodgings>,
    cancellations: Features<Cancellations>,
    participation: Features<Participation>,
    curves: Features<Redrawn>,
}

impl Shares {
    fn new() -> Shares {
        Shares {
            records: 0,
            settled: 0,
            bytes: 0,
            longest: 0,
            replies: BTreeMap::new(),
            closings: Closings::default(),
            remainders: Remainders::default(),
            lodgings: Features::new(LODGINGS),
            cancellations: Features::new(CANCELLATIONS),
            participation: Features::new(PARTICIPATION),
            curves: Features::new(CURVES),
        }
    }

    fn count(&mut self, record: &[u8]) {
        let replies = replay(record);
        self.closings.count(record, &replies);
        self.remainders.count(&replies);
        self.lodgings.count(&Lodgings::of(record));
        self.cancellations.count(&Cancellations::of(record));
        let participation = Participation::of(record, &replies);
        self.participation.count(&participation);
        for closing in Redrawn::all(record) {
            self.curves.count(&closing);
        }
        assert!(replies.len() <= always_fits(record), "what always fits");
        let replies = lines(&replies);
        assert_eq!(replies.len(), lines(record).len(), "one reply a line");
        self.records += 1;
        self.bytes += record.len();
        self.longest = self.longest.max(record.len());
        let settled = replies.iter().any(|reply| reply.starts_with(b"0600"));
        self.settled += u64::from(settled);
        for reply in replies {
            let text = std::str::from_utf8(reply).expect("digits");
            let number = |place| u8::from_str_radix(&text[place], 16).expect("digits");
            let count = self.replies.entry((number(0..2), number(2..4)));
            *count.or_default() += 1;
        }
    }

    fn answers(&self, number: u8) -> u64 {
        let replies = self.replies.iter();
        let having = replies.filter(|((_, answer), _)| *answer == number);
        having.map(|(_, count)| count).sum()
    }

    fn print(&self) {
        let percent = 100.0 * self.settled as f64 / self.records as f64;
        println!("{} records, {percent:.1}% settle", self.records);
        println!(
            "{} bytes on average, {} in the longest",
            self.bytes as u64 / self.records,
            self.longest
        );
        for number in 0..=16 {
            println!("answer {number}: {} replies", self.answers(number));
        }
        for ((kind, answer), count) in &self.replies {
            println!("kind {kind:02X}, answer {answer:02X}: {count}");
        }
        self.closings.print();
        self.remainders.print();
        self.lodgings.print("lodgings by record");
        self.cancellations.print("cancellations by record");
        self.participation.print("participation by record");
        self.curves.print("curves by closing");
    }
}

/// Kind and answer of every reply that a frame can get. Refusal 11 is not among them: 192 bytes
/// hold 32 awards.
pub(super) const REPLIES: &[(u8, &[u8])] = &[
    (0x01, &[0, 2, 1]),
    (0x02, &[0, 2, 3, 4]),
    (0x03, &[0, 2, 5, 9]),
    (0x04, &[0, 2, 3, 8, 6, 7]),
    (0x05, &[0, 2]),
    (0x06, &[0, 2, 10]),
    (0x07, &[0, 2, 15, 6, 7]),
    (0x08, &[0, 2, 3, 4]),
    (0x09, &[0, 2, 3, 16]),
    (0xFF, &[12]),
];

#[test]
fn shares_of_replies() {
    let mut shares = Shares::new();
    RECORDS.iter().for_each(|record| shares.count(record));
    shares.print();
    assert!(
        shares.settled * 100 >= shares.records * 60,
        "fewer than 60% settle"
    );
    let occurring: Vec<(u8, u8)> = shares.replies.keys().copied().collect();
    let mut possible: Vec<(u8, u8)> = REPLIES
        .iter()
        .flat_map(|(kind, answers)| answers.iter().map(|answer| (*kind, *answer)))
        .collect();
    possible.sort_unstable();
    assert_eq!(occurring, possible);
    for excess in DECISIVE {
        let (all, large) = shares.closings.with(excess);
        assert!(all >= 300 && large >= 100, "closings at {excess}");
    }
    let remainders = shares.remainders.counts();
    assert!(remainders.iter().flatten().all(|&count| count >= 1_000));
    let refused = [2, 15, 6, 7].map(|number| shares.replies[&(7, number)]);
    assert!(refused.iter().all(|&count| count >= 500), "{refused:?}");
    let refused = [2, 3, 4].map(|number| shares.replies[&(8, number)]);
    assert!(refused.iter().all(|&count| count >= 500), "{refused:?}");
    let refused = [2, 3, 16].map(|number| shares.replies[&(9, number)]);
    assert!(refused.iter().all(|&count| count >= 500), "{refused:?}");
    let lodgings: Vec<_> = shares.lodgings.counts().collect();
    let cancellations: Vec<_> = shares.cancellations.counts().collect();
    let participation: Vec<_> = shares.participation.counts().collect();
    let mut curves: Vec<_> = shares.curves.counts().collect();
    // The longest are fixed records.
    curves.retain(|(name, _)| *name != "256 entries");
    for counts in [lodgings, cancellations, participation, curves] {
        assert!(counts[0].1 * 3 >= shares.records, "{counts:?}");
        assert!(counts.iter().all(|(_, count)| *count >= 500), "{counts:?}");
    }
}

#[test]
fn shares_of_features() {
    let records = RECORDS[..5_000].iter();
    let settled: Vec<Settled> = records.filter_map(|record| Settled::of(record)).collect();
    println!("of {} settled records", settled.len());
    for (name, shows) in SETTLED {
        let count = settled.iter().filter(|settled| shows(settled)).count();
        let percent = 100.0 * count as f64 / settled.len() as f64;
        println!("{percent:5.1}% {name}");
        assert!(count >= 10, "{count} records with: {name}");
    }
}
