//! Records for the benchmark. Behind the calls that they need stand many lines of one sort:
//! malformed ones, refused calls of a kind, or accepted ones. Where each accepted call needs another
//! kind before it, the two stand in turn; where a record has room for few, it has those.

use super::agents::with_agent;
use crate::generators::sample;
use crate::model::auction::{Phase, EXISTING, NEW, NUMBERS};
use crate::model::replay::{auction_after, lines, read_call, replay, write_call, Call};

/// How many lines stand behind those that a record needs.
const MANY: usize = 400;

// The settings leave room for more rounds than that, each a thousandth below the one before; the plant
// that exists alone leaves an excess of more than 1,000, so only the floor would end the auction.
const CE: u64 = 500_000;
const A: u64 = 2 * CE;
const FLOOR: u32 = (CE / 2) as u32;
const SET_UP: Call = Call::SetUp {
    ce: CE,
    d: 1_000,
    m1: 900,
    m2: 1_200,
    a: A,
};
/// The plant that exists.
const STAYING: u8 = 1;
/// Two new plants of one project.
const OFFERING: u8 = 2;
const RIVAL: u8 = 3;

/// The record up to its last line behind which a round is open.
pub fn in_a_round(record: &[u8]) -> Vec<u8> {
    let frames = lines(record);
    let is_open = |count: &usize| {
        let auction = auction_after(&frames[..*count].join(&b'\n'));
        matches!(auction.phase(), Phase::Round(_))
    };
    let count = (0..=frames.len()).rev().find(is_open);
    frames[..count.expect("a round")].join(&b'\n')
}

/// Blank, of no kind, with a digit that is none at either end, too short, too long.
pub fn malformed() -> Vec<u8> {
    let malformed = [
        "",
        "0A00",
        "0g",
        "0100004E2000000003E8000000038400000004B000009C4x",
        "04020100006590000000",
        "0500",
    ];
    let many = malformed.iter().cycle().take(MANY);
    let record = many.flat_map(|line| [line.as_bytes(), b"\n"].concat());
    let record = record.collect::<Vec<u8>>();
    let replies = replay(&record);
    assert!(lines(&replies).iter().all(|reply| reply == b"FF0C"));
    record
}

// ---- refused calls: for each number that the kind gets where another call of it is accepted

/// CE odd, D not above M1, A at the floor: 1.
pub fn refused_set_ups() -> Vec<u8> {
    let set_up = |ce, d, a| Call::SetUp {
        ce,
        d,
        m1: 900,
        m2: 1_200,
        a,
    };
    let calls = [
        set_up(3, 1_000, 6),
        set_up(CE, 900, A),
        set_up(CE, 1_000, CE / 2),
    ];
    refused(&[], &calls)
}

/// By frame 02.
pub fn refused_registrations() -> Vec<u8> {
    refused(
        &registered(),
        &not_registered().map(|call| with_agent(call, None)),
    )
}

/// By frame 08, for an agent.
pub fn refused_registrations_for() -> Vec<u8> {
    let mut calls = not_registered().map(|call| with_agent(call, Some(5)));
    calls[0] = with_agent(register(9, 9, NEW, 8), Some(33));
    refused(&registered(), &calls)
}

/// A project 33 and a developer that is registered: 3; levels that do not rise and a project of an
/// existing plant: 4.
fn not_registered() -> [Call; 4] {
    let mut falling = register(9, 9, NEW, 8);
    if let Call::Register { levels, .. } = &mut falling {
        levels.reverse();
    }
    [
        register(33, 9, NEW, 8),
        register(9, OFFERING, NEW, 8),
        falling,
        register(STAYING, 9, NEW, 8),
    ]
}

/// C at A: 5; A not covered: 9.
pub fn refused_openings() -> Vec<u8> {
    let start = [SET_UP, register(2, OFFERING, NEW, 8)];
    let calls = [A, A - 1].map(|c| Call::Open { c: c as u32 });
    refused(&start, &calls)
}

/// By an existing plant: 3; a second one: 8; a step below C: 6; a level that is not declared: 7.
pub fn refused_offers() -> Vec<u8> {
    let start = [opened(), vec![offer(OFFERING, 1)]].concat();
    let step = |price, level| Call::Offer {
        developer: RIVAL,
        prices: vec![price],
        levels: vec![level],
    };
    let calls = [
        offer(STAYING, 1),
        offer(OFFERING, 8),
        step(FLOOR - 1, 10),
        step(FLOOR, 11),
    ];
    refused(&start, &calls)
}

/// Before a round: 2, which is all that a closing is refused with.
pub fn refused_closings() -> Vec<u8> {
    refused(&registered(), &[Call::Close])
}

/// Of the sample, with a limit below its number of choices: 10.
pub fn refused_settlings() -> Vec<u8> {
    let (start, _) = sample_settled();
    refused(&start, &[0, 3].map(|limit| Call::Settle { limit }))
}

/// By a new plant: 15; a step at A: 6; a level that is not declared: 7.
pub fn refused_lodgings() -> Vec<u8> {
    let step = |price, level| Call::Lodge {
        developer: STAYING,
        prices: vec![price],
        levels: vec![level],
    };
    let calls = [
        lodging(OFFERING, 1),
        step(A as u32, 2_999),
        step(FLOOR, 2_000),
    ];
    refused(&registered(), &calls)
}

/// Of a developer 33: 3; without an offer: 16.
pub fn refused_cancellations() -> Vec<u8> {
    let calls = [33, RIVAL].map(|developer| Call::Cancel { developer });
    refused(&opened(), &calls)
}

/// A call of each kind but settling behind the sample, which is closed: 2.
pub fn refused_by_phase() -> Vec<u8> {
    let (start, _) = sample_settled();
    let calls = [
        SET_UP,
        register(9, 9, NEW, 8),
        Call::Open { c: FLOOR },
        offer(OFFERING, 8),
        Call::Close,
        lodging(STAYING, 8),
        with_agent(register(9, 9, NEW, 8), Some(5)),
        Call::Cancel {
            developer: OFFERING,
        },
    ];
    refused(&start, &calls)
}

// ---- accepted calls

/// A record has room for one: this is all of it.
pub fn set_up() -> Vec<u8> {
    accepted(&[], &[SET_UP])
}

/// By frame 02, as many as there are numbers.
pub fn registrations() -> Vec<u8> {
    accepted(&[SET_UP], &all_registered())
}

/// By frame 08, each for an agent.
pub fn registrations_for() -> Vec<u8> {
    let calls = all_registered().into_iter().zip(NUMBERS.rev());
    let calls: Vec<Call> = calls
        .map(|(call, agent)| with_agent(call, Some(agent)))
        .collect();
    accepted(&[SET_UP], &calls)
}

/// Rounds without offers: an opening, and its closing.
pub fn openings_and_closings() -> Vec<u8> {
    accepted(&registered(), &rounds())
}

/// The same, with all 32 numbers registered.
pub fn openings_and_closings_of_all() -> Vec<u8> {
    accepted(&[vec![SET_UP], all_registered()].concat(), &rounds())
}

/// Offers of so many steps, each taken back by a cancellation.
pub fn offers_and_cancellations(steps: u32) -> Vec<u8> {
    let developer = OFFERING;
    let calls = [offer(developer, steps), Call::Cancel { developer }];
    accepted(&opened(), &in_turn(&calls))
}

/// Lists of one step and of eight, each of which replaces the one before.
pub fn lodgings() -> Vec<u8> {
    let calls = [1, 8].map(|steps| lodging(STAYING, steps));
    accepted(&registered(), &in_turn(&calls))
}

/// The sample, settled again and again.
pub fn settlings() -> Vec<u8> {
    let (start, settling) = sample_settled();
    accepted(&start, &in_turn(&[settling]))
}

/// One plant and one round, in five lines of which the last settles.
pub fn first_settling() -> Vec<u8> {
    let calls = [
        SET_UP,
        register(1, STAYING, EXISTING, 1),
        Call::Open { c: FLOOR },
        Call::Close,
        Call::Settle { limit: 1 },
    ];
    accepted(&calls[..4], &calls[4..])
}

// ---- their parts

/// The sample's calls up to its closing, and its settling.
fn sample_settled() -> (Vec<Call>, Call) {
    let calls = lines(sample::RECORD.as_bytes()).into_iter();
    let mut calls: Vec<Call> = calls.filter_map(read_call).collect();
    let settling = calls.pop().expect("the sample ends with its settling");
    (calls, settling)
}

/// The plant that exists, and the two new ones of another project.
fn registered() -> Vec<Call> {
    vec![
        SET_UP,
        register(1, STAYING, EXISTING, 8),
        register(2, OFFERING, NEW, 8),
        register(2, RIVAL, NEW, 8),
    ]
}

/// In its first round, down to the floor.
fn opened() -> Vec<Call> {
    [registered(), vec![Call::Open { c: FLOOR }]].concat()
}

/// A plant of each number on a project of its own, with one level to eight; the first one exists.
fn all_registered() -> Vec<Call> {
    let plants = NUMBERS.map(|number| {
        let kind = if number == STAYING { EXISTING } else { NEW };
        register(number, number, kind, u32::from(number) % 8 + 1)
    });
    plants.collect()
}

/// A plant with so many levels.
fn register(project: u8, developer: u8, kind: u8, levels: u32) -> Call {
    Call::Register {
        project,
        developer,
        kind,
        agent: None,
        study: 0,
        day: 0,
        levels: match kind {
            EXISTING => (0..levels).rev().map(|below| 3_000 - below).collect(),
            _ => (1..=levels).map(|level| 10 * level).collect(),
        },
    }
}

/// A new plant of eight levels falls so many, the last of them to 0.
fn offer(developer: u8, steps: u32) -> Call {
    let (prices, levels) = falls(steps, |below| 80 - 10 * below);
    Call::Offer {
        developer,
        prices,
        levels,
    }
}

/// An existing plant of eight levels falls so many, the last of them to 0.
fn lodging(developer: u8, steps: u32) -> Call {
    let (prices, levels) = falls(steps, |below| if below < 8 { 3_000 - below } else { 0 });
    Call::Lodge {
        developer,
        prices,
        levels,
    }
}

/// A step a thousandth, from the levels so far below the highest.
fn falls(steps: u32, level: impl Fn(u32) -> u32) -> (Vec<u32>, Vec<u32>) {
    let step = |below| (FLOOR + steps - below, level(below));
    (1..=steps).map(step).unzip()
}

/// Rounds of a thousandth each.
fn rounds() -> Vec<Call> {
    let prices = (FLOOR..A as u32).rev().take(MANY / 2);
    let rounds = prices.map(|c| [Call::Open { c }, Call::Close]);
    rounds.flatten().collect()
}

/// Many calls, these in turn.
fn in_turn(calls: &[Call]) -> Vec<Call> {
    calls.iter().cycle().take(MANY).cloned().collect()
}

/// The record of the calls, with many others behind them, these in turn, which are all refused.
fn refused(start: &[Call], calls: &[Call]) -> Vec<u8> {
    answered(start, &in_turn(calls), |number| number != b"00")
}

/// The record of the calls, with others behind them, which are accepted too.
fn accepted(start: &[Call], calls: &[Call]) -> Vec<u8> {
    answered(start, calls, |number| number == b"00")
}

/// The record of the calls, which are accepted, with others behind them, each of which is answered so.
fn answered(start: &[Call], calls: &[Call], so: fn(&[u8]) -> bool) -> Vec<u8> {
    let record = start.iter().chain(calls).map(write_call);
    let record: Vec<u8> = record
        .flat_map(|line| [&line[..], b"\n"].concat())
        .collect();
    let replies = replay(&record);
    let numbers: Vec<&[u8]> = lines(&replies).iter().map(|reply| &reply[2..4]).collect();
    let (of_start, of_calls) = numbers.split_at(start.len());
    assert!(of_start.iter().all(|number| number == b"00"));
    assert!(of_calls.iter().all(|number| so(number)));
    record
}
