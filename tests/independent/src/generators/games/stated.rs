//! Games with their outcomes and first moves, worked out by hand, and questions that are refused, each
//! with its number.
//!
//! CE is 20,000, D 1,000,000, M1 900,000, M2 1,200,000 and A 40,000: at 20,000 demand is 1,000,000,
//! and 20 more for each thousandth below. Plant 1 exists and has 900,000; a fall of it to 800,000 is
//! lodged at 19,500. Of the new ones 2 has 150,000 left of 200,000; 3 and 4 share a project, with
//! 100,000 and 60,000; 5 and 6 made no offer, and are at 0. The round ended at 20,000, so 1,150,000 are
//! left:
//!
//! | at 0 | left | covered from |
//! |---|---|---|
//! | nobody, or 4 | 1,150,000 | 12,500 |
//! | 3 | 1,110,000 | 14,500 |
//! | 3, 4 | 1,050,000 | 17,500 |
//! | 2 | 1,000,000 | 20,000 |

use super::Question;
use crate::model::auction::{EXISTING, NEW};
use crate::model::forcing::Move::{Keep, Withdraw};
use crate::model::forcing::{Forced, Move};
use crate::model::replay::{write_call, Call};

/// A question between rounds, with a buffer of so many bytes: first, second and prices; outcome and
/// first move, or the refusal.
type Stated<'a> = ((u64, u64, &'a [u64]), usize, Result<(u64, Move), u8>);

/// Ten prices from 19,000 to the floor.
pub const TEN: &[u64] = &[
    19_000, 18_000, 17_000, 16_000, 15_000, 14_500, 14_000, 13_000, 12_500, 10_000,
];

/// Eleven prices.
const ELEVEN: &[u64] = &[
    19_999, 19_000, 18_000, 17_000, 16_000, 15_000, 14_500, 14_000, 13_000, 12_500, 10_000,
];

const GAMES: &[Stated] = &[
    // Without 2 nothing below its withdrawal is covered; the price of the withdrawal still is.
    ((2, 3, &[19_000, 18_000]), 1, Ok((19_000, Withdraw))),
    ((2, 3, &[18_000, 17_999]), 2, Ok((18_000, Withdraw))),
    // The other way round 2 keeps, and 18,000 is covered without 3.
    ((3, 2, &[19_000, 18_000]), 1, Ok((18_000, Keep))),
    // A withdrawal at the only price, or at the last one, lowers no supply that is looked at.
    ((2, 3, &[19_000]), 1, Ok((19_000, Keep))),
    ((2, 3, &[19_999]), 1, Ok((19_999, Keep))),
    // If 3 waits for 13,000, that is covered; withdrawn at 15,000, it leaves 14,000 uncovered.
    ((3, 2, &[15_000, 14_000, 13_000]), 1, Ok((15_000, Withdraw))),
    // It may wait for 14,500, which is just covered without it.
    (
        (3, 2, &[16_000, 15_000, 14_500, 14_000]),
        1,
        Ok((14_500, Keep)),
    ),
    (
        (3, 2, &[16_000, 15_000, 14_499, 14_000]),
        1,
        Ok((15_000, Withdraw)),
    ),
    // 4 has a stronger partner.
    ((4, 2, &[15_000, 14_000, 13_000]), 1, Ok((13_000, Keep))),
    ((2, 4, &[15_000, 14_000, 13_000]), 1, Ok((15_000, Withdraw))),
    // One at 0 can only keep; the other wants the price low, or has it high.
    ((5, 2, &[19_000, 18_000, 17_000]), 1, Ok((17_000, Keep))),
    ((2, 5, &[19_000, 18_000, 17_000]), 1, Ok((19_000, Withdraw))),
    ((5, 6, &[19_000, 12_500, 10_000]), 1, Ok((12_500, Keep))),
    // No listed price is covered, whatever they do.
    ((2, 3, &[12_499]), 1, Ok((20_000, Keep))),
    ((2, 3, &[12_000, 11_000, 10_000]), 1, Ok((20_000, Keep))),
    ((3, 2, &[12_500, 12_499, 10_000]), 1, Ok((12_500, Keep))),
    // In ten prices 3 may wait for 15,000, below which 14,500 is just covered; 2 may not wait.
    ((3, 2, TEN), 1, Ok((14_500, Keep))),
    ((2, 3, TEN), 64, Ok((19_000, Withdraw))),
    ((5, 6, TEN), 1, Ok((12_500, Keep))),
];

const REFUSED: &[Stated] = &[
    // Numbers outside 1 to 32, unregistered, of kind 1, equal, of one project.
    ((0, 3, &[19_000]), 1, Err(17)),
    ((2, 33, &[19_000]), 1, Err(17)),
    ((258, 3, &[19_000]), 1, Err(17)),
    ((2, (1 << 32) + 3, &[19_000]), 1, Err(17)),
    ((u64::MAX, 3, &[19_000]), 1, Err(17)),
    ((7, 3, &[19_000]), 1, Err(17)),
    ((2, 32, &[19_000]), 1, Err(17)),
    ((1, 3, &[19_000]), 1, Err(17)),
    ((2, 1, &[19_000]), 1, Err(17)),
    ((2, 2, &[19_000]), 1, Err(17)),
    ((3, 4, &[19_000]), 1, Err(17)),
    ((4, 3, &[19_000]), 1, Err(17)),
    // No price, more than 10, not strictly falling, below the floor, above the standing price less 1.
    ((2, 3, &[]), 1, Err(17)),
    ((2, 3, ELEVEN), 1, Err(17)),
    ((2, 3, &[19_000, 19_000]), 1, Err(17)),
    ((2, 3, &[18_000, 19_000]), 1, Err(17)),
    ((2, 3, &[19_000, 9_999]), 1, Err(17)),
    ((2, 3, &[9_999]), 1, Err(17)),
    ((2, 3, &[20_000, 19_000]), 1, Err(17)),
    ((2, 3, &[u64::MAX, 19_000]), 1, Err(17)),
    ((2, 3, &[(1 << 32) + 19_000]), 1, Err(17)),
    // An empty buffer is looked at last.
    ((2, 3, &[19_000, 18_000]), 0, Err(11)),
    ((5, 6, TEN), 0, Err(11)),
    ((3, 4, &[19_000]), 0, Err(17)),
    ((2, 3, &[]), 0, Err(17)),
];

/// All of them, with what the call has to answer.
pub fn questions() -> Vec<(Question, Result<Forced, u8>)> {
    let stated = GAMES.iter().chain(REFUSED);
    let stated = stated.map(|stated| question(&between_rounds(), stated));
    let other_phases = OTHER_PHASES.iter().flat_map(|record| {
        let asked = [(&[19_000, 18_000][..], 1), (&[], 1), (&[], 0)];
        asked.map(|(prices, buffer)| question(&record(), &((2, 3, prices), buffer, Err(2))))
    });
    stated.chain(other_phases).collect()
}

fn question(record: &[Call], stated: &Stated) -> (Question, Result<Forced, u8>) {
    let &((first, second, prices), buffer, answer) = stated;
    let asked = Question {
        record: written(record),
        first,
        second,
        prices: prices.to_vec(),
        buffer,
    };
    let forced = |(outcome, first_move)| Forced {
        outcome,
        first_move,
    };
    (asked, answer.map(forced))
}

/// The calls as a record.
pub fn written(calls: &[Call]) -> Vec<u8> {
    let lines = calls
        .iter()
        .map(|call| [&write_call(call)[..], b"\n"].concat());
    lines.flatten().collect()
}

/// Records of auctions in each other phase: fresh, before the first round, in it, in the second, and
/// closed by it.
const OTHER_PHASES: [fn() -> Vec<Call>; 5] = [
    Vec::new,
    registered,
    || [registered(), vec![Call::Open { c: 20_000 }]].concat(),
    || [between_rounds(), vec![Call::Open { c: 19_000 }]].concat(),
    || {
        let round = [Call::Open { c: 10_000 }, Call::Close];
        [&between_rounds()[..], &round].concat()
    },
];

/// Up to the standing price, 20,000.
pub fn between_rounds() -> Vec<Call> {
    let offer = |developer, steps: &[(u32, u32)]| {
        let (prices, levels) = steps.iter().copied().unzip();
        Call::Offer {
            developer,
            prices,
            levels,
        }
    };
    let mut calls = registered();
    calls.push(Call::Open { c: 20_000 });
    calls.push(offer(2, &[(30_000, 150_000)]));
    calls.extend([3, 4].map(|stays| offer(stays, &[])));
    calls.push(Call::Close);
    calls
}

fn registered() -> Vec<Call> {
    let register = |(project, developer, kind, levels): (u8, u8, u8, &[u32])| Call::Register {
        project,
        developer,
        kind,
        agent: None,
        study: 0,
        day: 0,
        levels: levels.to_vec(),
    };
    let mut calls = vec![Call::SetUp {
        ce: 20_000,
        d: 1_000_000,
        m1: 900_000,
        m2: 1_200_000,
        a: 40_000,
    }];
    let plants: [(u8, u8, u8, &[u32]); 6] = [
        (1, 1, EXISTING, &[800_000, 900_000]),
        (2, 2, NEW, &[150_000, 200_000]),
        (3, 3, NEW, &[100_000]),
        (3, 4, NEW, &[60_000]),
        (5, 5, NEW, &[30_000]),
        (6, 6, NEW, &[30_000]),
    ];
    calls.extend(plants.map(register));
    calls.push(Call::Lodge {
        developer: 1,
        prices: vec![19_500],
        levels: vec![800_000],
    });
    calls
}
