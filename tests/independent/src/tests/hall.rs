//! Seats in the auction hall (document 02, request 14): each sentence of it in runs worked out by hand,
//! what it says of all runs on generated ones, and that the comparisons report what differs.

use independent::comparisons::hall::{difference, groups, input, pair_difference, parts};
use independent::generators::hall::pairs::{pair, Pair};
use independent::generators::hall::runs::run;
use independent::generators::hall::stated::runs;
use independent::model::auction::Withdrawal;
use independent::model::hall::lines::{events, printed, Event, Line};
use independent::model::hall::views::{view, Run, Shown};
use independent::model::hall::{Answer, Call, Hall, Published, Reading, Seat};
use independent::model::replay::{self, PROGRAM_BYTES};
use independent::NO_RIGHT;
use std::collections::BTreeMap;
use std::iter::zip;
use std::sync::LazyLock;

/// Generated runs.
static EVENTS: LazyLock<Vec<Vec<Event>>> =
    LazyLock::new(|| (0..300).map(|seed| events(run(seed))).collect());

/// Generated pairs.
static PAIRS: LazyLock<Vec<Pair>> = LazyLock::new(|| (0..300).filter_map(pair).collect());

/// What is printed for a run.
fn lines(events: &[Event]) -> Vec<String> {
    events.iter().map(Event::printed).collect()
}

/// The run of these lines.
fn read(lines: &[&str]) -> Run {
    let lines = lines.iter().map(|line| Line::read(line).expect("a line"));
    lines
        .map(|line| match line {
            Line::Call(seat, call) => (seat, call),
            _ => panic!("no call"),
        })
        .collect()
}

/// The hall behind the lines.
fn hall(lines: &[&str]) -> Hall {
    let mut hall = Hall::default();
    for (seat, call) in read(lines) {
        hall.make(seat, &call);
    }
    hall
}

#[test]
fn stated_runs() {
    for run in runs() {
        for at in 0..run.len() {
            let input: String = run[..=at]
                .iter()
                .map(|(line, _)| format!("{line}\n"))
                .collect();
            let (line, stated) = run[at];
            assert_eq!(printed(&input).lines().last(), Some(stated), "{line}");
        }
    }
}

/// The sample's plants, and a round open at C 25,000.
const OPENED: [&str; 6] = [
    "0,0,1,20000,1000,900,1200,40000",
    "0,0,2,1,1,1,0,0,1,820",
    "0,0,2,2,2,2,400,10,2,100,200",
    "0,0,2,2,3,2,500,20,1,200",
    "0,0,2,3,4,2,0,0,1,150",
    "0,0,3,25000",
];

/// A call of each kind, whatever it is answered; offers and cancellations are for developer 2.
const OF_EACH_KIND: [&str; 12] = [
    "0,0,1,20000,1000,900,1200,40000",
    "0,0,2,5,5,2,0,0,1,10",
    "0,0,3,20000",
    "0,0,4,2,1,1,26000,100",
    "0,0,5",
    "0,0,6,100,192",
    "0,0,7,1,0,0",
    "0,0,8,5,5,2,5,0,0,1,10",
    "0,0,9,2",
    "0,0,10",
    "0,0,11,0",
    "0,0,12,2,4,1,19000",
];

/// Which kinds of calls each seat may make, wherever the sample stands; one that it may not make
/// changes nothing and gives nothing but 20.
#[test]
fn rights() {
    let all = [1, 2, 3, 5, 6, 7, 8, 10, 11, 12];
    let rights: [(Seat, &[u8]); 7] = [
        (Seat::Auctioneer, &all),
        (Seat::Auditor, &[6]),
        (Seat::Developer(2), &[4, 9]),
        (Seat::Developer(3), &[]),
        (Seat::Developer(0), &[]),
        (Seat::Developer(33), &[]),
        (Seat::Developer(255), &[]),
    ];
    let run = [&OPENED[..], &OFFERED].concat();
    for before in (0..=run.len()).map(|lines| hall(&run[..lines])) {
        for (seat, kinds) in rights {
            for (_, call) in read(&OF_EACH_KIND) {
                let mut hall = before.clone();
                let Answer {
                    number,
                    others,
                    lent,
                } = hall.make(seat, &call);
                if kinds.contains(&call.kind()) {
                    assert_ne!(number, NO_RIGHT, "{seat:?} {call:?}");
                } else {
                    assert_eq!(number, NO_RIGHT, "{seat:?} {call:?}");
                    assert!(others.iter().all(|number| *number == 0));
                    assert!(lent.iter().all(|byte| *byte == 238));
                    assert_eq!(hall, before);
                }
            }
        }
    }
}

/// "before every other check": each other number that a call gets from a seat with the right is 20
/// from one without it.
#[test]
fn no_right_first() {
    let opened = hall(&OPENED);
    let ready = hall(&OPENED[..5]);
    let fresh = Hall::default();
    for (hall, line, number) in [
        (&fresh, "0,0,1,3,1000,900,1200,40000", 1),
        (&opened, "0,0,3,20000", 2),
        (&ready, "0,0,2,33,5,2,0,0,1,10", 3),
        (&ready, "0,0,8,5,5,2,0,0,0,1,10", 3),
        (&ready, "0,0,2,1,5,2,0,0,1,10", 4),
        (&ready, "0,0,3,40000", 5),
        (&opened, "2,2,4,2,1,1,24999,100", 6),
        (&opened, "2,2,4,2,1,1,26000,150", 7),
        (&opened, "2,33,4,33,0,0", 3),
        (&opened, "2,2,9,2", 16),
        (&ready, "0,0,7,2,0,0", 15),
        (&ready, "1,0,6,0,0", 2),
    ] {
        let (seat, call) = read(&[line]).remove(0);
        assert_eq!(hall.clone().make(seat, &call).number, number, "{line}");
        let elsewhere = Seat::Developer(7);
        assert_eq!(hall.clone().make(elsewhere, &call).number, NO_RIGHT);
    }
}

/// On generated runs: 20 exactly where the seat has no right, with nothing else, and no other call
/// gives it.
#[test]
fn exactly_without_the_right() {
    for event in EVENTS.iter().flatten() {
        if let Line::Call(seat, call) = &event.line {
            let no_right = event.answer.number == NO_RIGHT;
            assert_eq!(no_right, !seat.may_make(call));
            assert!(!no_right || event.answer.others.iter().all(|number| *number == 0));
        }
    }
}

#[test]
fn lines_read_back() {
    for event in EVENTS.iter().flatten() {
        assert_eq!(
            Line::read(&event.line.to_string()),
            Some(event.line.clone())
        );
    }
}

/// What a seat has to read, told by the accepted calls of a run alone.
#[derive(Default)]
struct Told {
    a: u64,
    published: Published,
    levels: BTreeMap<u8, Vec<u64>>,
    offers: BTreeMap<u8, Vec<Withdrawal>>,
}

impl Told {
    fn hear(&mut self, event: &Event, call: &replay::Call) {
        let wide = |numbers: &[u32]| -> Vec<u64> { numbers.iter().map(|n| (*n).into()).collect() };
        match call {
            replay::Call::SetUp { a, .. } => {
                self.a = *a;
                self.published.phase = 1;
            }
            replay::Call::Register {
                developer, levels, ..
            } => drop(self.levels.insert(*developer, wide(levels))),
            replay::Call::Open { c } => {
                let last_c = self.published.closing;
                self.published.opening = if last_c == 0 { self.a } else { last_c };
                self.published.closing = (*c).into();
                self.published.phase = 2;
            }
            replay::Call::Offer {
                developer,
                prices,
                levels,
            } => {
                let steps = zip(wide(prices), wide(levels));
                let steps = steps.map(|(price, level)| Withdrawal { price, level });
                self.offers.insert(*developer, steps.collect());
            }
            replay::Call::Cancel { developer } => drop(self.offers.remove(developer)),
            replay::Call::Close => {
                self.offers.clear();
                self.published.excess = event.answer.others[0] as i64;
                // The rules of closing say which.
                self.published.phase = event.reading.published.phase;
                assert!([3, 4].contains(&self.published.phase));
            }
            _ => (),
        }
    }

    fn reading(&self, seat: Seat) -> Reading {
        let number = match seat {
            Seat::Developer(number) => number,
            _ => 0,
        };
        Reading {
            published: self.published,
            levels: self.levels.get(&number).cloned().unwrap_or_default(),
            offer: self.offers.get(&number).cloned(),
        }
    }
}

/// "both prices of the open or else the latest round, the excess of the latest closing, the phase, and
/// its own declared levels and standing offer; the other seats read the first three"
#[test]
fn readings() {
    for run in EVENTS.iter() {
        let mut told = Told::default();
        for event in run {
            if let (Line::Call(_, Call::Framed(call)), 0) = (&event.line, event.answer.number) {
                told.hear(event, call);
            }
            if let Some(seat) = event.seat() {
                assert_eq!(event.reading, told.reading(seat), "{}", event.line);
            }
        }
    }
}

/// Offers in the sample's round, and its closing.
const OFFERED: [&str; 4] = [
    "2,2,4,2,1,1,26000,100",
    "2,3,4,3,1,1,26000,0",
    "2,4,4,4,1,1,26000,0",
    "0,0,5",
];

/// What the sample shows developer 2.
#[test]
fn view_of_the_sample() {
    let run = read(&[&OPENED[..], &OFFERED].concat());
    let published = |opening, closing, excess, phase| {
        Shown::Published(Published {
            opening,
            closing,
            excess,
            phase,
        })
    };
    let expected = [
        published(0, 0, 0, 1),
        Shown::MadeFor(run[2].1.clone()),
        published(40_000, 25_000, 0, 2),
        Shown::Own(run[6].1.clone()),
        published(40_000, 25_000, -55, 4),
    ];
    assert_eq!(view(2, &run), expected);
}

/// Other offers of the sample: those of which 2 learns nothing, and those that it learns of by the
/// excess, by its own call or by a call made for it.
#[test]
fn views() {
    let seen = view(2, &read(&[&OPENED[..], &OFFERED].concat()));
    let of = |before: [&str; 6], offers: &[&str]| view(2, &read(&[&before[..], offers].concat()));
    let [own, third, fourth, close] = OFFERED;
    let elsewhere = "2,4,4,4,1,1,39999,0";
    let undone = ["2,3,4,3,0,0", "2,3,9,3"];
    let refused = [
        "2,3,9,3",
        "2,5,4,6,0,0",
        "0,0,4,2,0,0",
        "1,0,6,0,0",
        "0,0,10",
    ];
    for offers in [
        &[own, third, elsewhere, close][..],
        &[third, fourth, own, close],
        // Without an offer it withdraws to 0 as well.
        &[own, close],
        &[&[own], &undone[..], &[third, close]].concat(),
        &[&refused[..], &OFFERED].concat(),
    ] {
        assert_eq!(of(OPENED, offers), seen, "{offers:?}");
    }
    for offers in [
        &[own, "2,3,4,3,0,0", close][..],
        &[third, fourth, close],
        &[own, own, close],
        &["2,2,9,2", own, close],
        &["2,2,6,0,0", own, close],
        &[own, third, fourth],
    ] {
        assert_ne!(of(OPENED, offers), seen, "{offers:?}");
    }
    let mut others_study = OPENED;
    others_study[3] = "0,0,8,2,3,2,9,7,7,1,200";
    assert_eq!(of(others_study, &OFFERED), seen);
    let mut own_study = OPENED;
    own_study[2] = "0,0,2,2,2,2,401,10,2,100,200";
    assert_ne!(of(own_study, &OFFERED), seen);
}

/// "Two runs .. give it equal readings and answers": on generated pairs, which differ.
#[test]
fn pairs_agree() {
    assert!(PAIRS.len() > 200, "{} pairs", PAIRS.len());
    for pair in PAIRS.iter() {
        let [one, other] = pair.runs.each_ref().map(|run| {
            let lines = run.events.iter().map(|event| &event.line);
            lines.collect::<Vec<_>>()
        });
        assert_ne!(one, other);
        let [one, other] = pair.runs.each_ref().map(|run| lines(&run.events));
        let difference = pair_difference(pair, [&one, &other]);
        assert_eq!(difference.map(|text| text()), None);
    }
}

/// A number, a reading, a line too few and one too many are reported, wherever they are.
#[test]
fn planted_differences() {
    for run in EVENTS.iter().take(20) {
        let right = lines(run);
        let differs = |lines: &[String]| difference(run, lines).is_some();
        assert!(!differs(&right));
        for at in 0..right.len() {
            let mut lines = right.clone();
            lines[at].push('0');
            assert!(differs(&lines), "line {at}");
            lines[at] = right[at].replacen(' ', " 1", 1);
            assert!(differs(&lines) || !right[at].contains(' '), "line {at}");
            lines.remove(at);
            assert!(differs(&lines), "line {at}");
        }
        assert!(differs(&[&right[..], &["0".into()]].concat()));
    }
}

/// In a pair: another reading of the developer anywhere, another answer to its own call, or a lost line
/// in one of the runs; the answers to others are not looked at.
#[test]
fn planted_differences_of_pairs() {
    for pair in PAIRS.iter().take(20) {
        let right = pair.runs.each_ref().map(|run| lines(&run.events));
        for (which, run) in pair.runs.iter().enumerate() {
            let differs = |lines: &[String]| {
                let mut both = right.each_ref().map(|lines| &lines[..]);
                both[which] = lines;
                pair_difference(pair, both).is_some()
            };
            for (at, event) in run.events.iter().enumerate() {
                let mut lines = right[which].clone();
                lines[at].push('0');
                let own = event.seat() == Some(Seat::Developer(pair.developer));
                assert_eq!(differs(&lines), own, "line {at}: {}", event.line);
                lines.remove(at);
                assert!(differs(&lines), "line {at}");
            }
        }
    }
}

/// What is printed for several runs falls apart into what is printed for each; a group of them is no
/// longer than a program takes.
#[test]
fn groups_and_parts() {
    let runs: Vec<&[Event]> = EVENTS.iter().map(|run| &run[..]).collect();
    let groups = groups(&runs);
    assert!(groups.len() > 2);
    assert_eq!(groups.concat().len(), runs.len());
    for group in groups {
        assert!(input(group).len() <= PROGRAM_BYTES);
        let whole = printed(&input(group));
        let expected: Vec<Vec<String>> = group.iter().map(|run| lines(run)).collect();
        assert_eq!(parts(group, &whole), expected);
        let last = &expected[expected.len() - 1];
        let more = parts(group, &(whole + "0\n")).pop();
        assert_eq!(more, Some([&last[..], &["0".into()]].concat()));
        assert_eq!(parts(group, "")[0], [""; 0]);
    }
}
