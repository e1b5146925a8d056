//! Supply curves (document 02, request 9): by each cause of a withdrawal, at one price from several
//! developers and in two rounds, without a change of supply, and as long as can be.

use super::{opened, registered, set_up, Offer, Script, Step};
use crate::model::auction::{EXISTING, NEW};

pub(super) fn scripts() -> Vec<Script> {
    vec![
        nobody_withdraws(),
        nobody_offers(),
        smaller_of_a_project(),
        lodged_steps(),
        at_the_edges_of_rounds(),
        two_rounds_at_one_price(),
        two_rounds_at_one_price_without_a_change(),
        twice_at_one_price(),
        lodged_and_missing_at_one_price(),
        refused_and_cancelled(),
        at_a_and_at_the_floor(2),
        at_a_and_at_the_floor(500_000),
        greatest_supply(),
        through_all_levels((0, 1)),
        through_all_levels((1, 32)),
        through_all_levels((8, 1)),
        through_all_levels_in_eight_rounds(),
        through_all_levels_half_lodged(),
        two_hundred_rounds_behind(),
    ]
}

/// The sample's new plants stay.
const STAY: [Offer; 3] = [(2, &[]), (3, &[]), (4, &[])];

/// No entry after two rounds, one after the third.
fn nobody_withdraws() -> Script {
    registered()
        .round(30_000, &STAY)
        .round(29_000, &STAY)
        .round(10_000, &[(2, &[]), (3, &[]), (4, &[(28_500, 0)])])
        .settle(&[100])
}

/// One entry at A.
fn nobody_offers() -> Script {
    opened().close().close().open(24_000).settle(&[100])
}

/// Developer 2 falls to 100 beside the 200 of developer 3; then 3 falls to 0, which leaves the 100.
fn smaller_of_a_project() -> Script {
    registered()
        .round(34_000, &[(2, &[(35_000, 100)]), (3, &[]), (4, &[])])
        .round(30_000, &[(2, &[]), (3, &[(32_000, 0)]), (4, &[])])
        .round(25_000, &[(2, &[(26_000, 0)]), (4, &[(25_000, 0)])])
        .settle(&[100])
}

/// Alone, at the price of an offer, and below the last C.
fn lodged_steps() -> Script {
    registered()
        .register(&[(9, 9, EXISTING, &[100, 200, 300, 400])])
        .lodge(&[(
            9,
            &[(36_000, 300), (35_000, 200), (31_000, 100), (12_000, 0)],
        )])
        .open(30_000)
        .offer(&[(2, &[(35_000, 100)]), (3, &[]), (4, &[(33_000, 0)])])
        .close()
        .round(15_000, &[(2, &[]), (3, &[(15_000, 0)])])
        .settle(&[100])
}

/// At the opening price less 1 and at C, lodged and offered, in two rounds.
fn at_the_edges_of_rounds() -> Script {
    set_up()
        .existing(1, 1, 1_000)
        .register(&[(2, 2, NEW, &[1, 2, 3, 4]), (3, 3, EXISTING, &[5, 6, 7, 8])])
        .lodge(&[(3, &[(39_999, 7), (30_000, 6), (29_999, 5), (20_000, 0)])])
        .round(30_000, &[(2, &[(39_999, 3), (30_000, 2)])])
        .round(20_000, &[(2, &[(29_999, 1), (20_000, 0)])])
        .settle(&[100])
}

/// Developer 2 falls at C, which leaves supply as it was, and developer 3 is missing in the next
/// round; then 2 and 4 are missing where nobody has withdrawn.
fn two_rounds_at_one_price() -> Script {
    registered()
        .round(30_000, &[(2, &[(30_000, 100)]), (3, &[]), (4, &[])])
        .round(29_000, &[(2, &[]), (4, &[])])
        .round(28_000, &[])
        .settle(&[100])
}

/// Developer 4 falls at C, and developer 2 is missing in the next round beside 3, which has as much.
fn two_rounds_at_one_price_without_a_change() -> Script {
    registered()
        .existing(5, 5, 500)
        .round(30_000, &[(2, &[]), (3, &[]), (4, &[(30_000, 0)])])
        .round(29_000, &[(3, &[])])
        .round(10_000, &[(3, &[])])
        .settle(&[100])
}

/// Developer 2 falls at C and is missing in the next round; 3 is missing at A.
fn twice_at_one_price() -> Script {
    registered()
        .round(30_000, &[(2, &[(30_000, 100)]), (4, &[])])
        .round(29_000, &[(4, &[])])
        .round(28_000, &[])
        .settle(&[100])
}

/// A step lodged at C, and a developer missing in the next round.
fn lodged_and_missing_at_one_price() -> Script {
    registered()
        .register(&[(9, 9, EXISTING, &[100, 200])])
        .lodge(&[(9, &[(30_000, 100)])])
        .round(30_000, &STAY)
        .round(29_000, &[(2, &[]), (3, &[])])
        .round(10_000, &[(2, &[])])
        .settle(&[100])
}

/// Only what stands at the closing is on the curve.
fn refused_and_cancelled() -> Script {
    opened()
        .offer(&[(2, &[(40_000, 100)]), (2, &[(39_000, 150)])])
        .offer(&[(2, &[(38_000, 100)]), (2, &[(37_000, 0)])])
        .cancel(&[2])
        .offer(&[(2, &[(36_000, 100)]), (3, &[(35_000, 0)])])
        .cancel(&[3, 3])
        .offer(&[(3, &[]), (4, &[(26_000, 0)])])
        .close()
        .close()
        .offer(&[(3, &[(24_000, 0)])])
        .round(10_000, &[(2, &[]), (3, &[])])
        .settle(&[0, 100])
}

/// The highest and the lowest price of a book.
fn at_a_and_at_the_floor(ce: u32) -> Script {
    let floor = ce / 2;
    Script::fresh()
        .set_up([ce.into(), 2, 1, 3, 2 * u64::from(ce)])
        .existing(1, 1, 1_000)
        .plants(2..=3, &[10])
        .round(floor, &[(2, &[(floor, 0)])])
        .settle(&[100])
}

/// CE, D, M1, M2 and A with a demand that any level above 0 meets.
const LITTLE_DEMAND: [u64; 5] = [20_000, 2, 1, 3, 40_000];

/// 32 plants of 10^9, of which 31 fall in turn; then the rest are missing.
fn greatest_supply() -> Script {
    let levels = [999_999_999, 1_000_000_000];
    let script = Script::fresh().set_up(LITTLE_DEMAND);
    let mut script = script.plants(1..=32, &levels).open(30_000);
    for n in 1..=31 {
        let level = 999_999_999 * u32::from(n % 2);
        script = script.offer(&[(n, &[(39_000 - u32::from(n), level)])]);
    }
    script.close().round(10_000, &[]).settle(&[100])
}

const EIGHT_LEVELS: [u32; 8] = [10, 20, 30, 40, 50, 60, 70, 80];

/// How far a developer's prices lie below those of the one before it, and its own apart.
type Apart = (u32, u32);

/// A developer's steps through all of its levels to 0.
fn eight_steps(developer: u8, (developers, own): Apart) -> Vec<Step> {
    let first = 39_999 - developers * u32::from(developer - 1);
    let levels = [70, 60, 50, 40, 30, 20, 10, 0];
    (0..8).map(|step| first - own * step).zip(levels).collect()
}

/// 256 withdrawals in one round, the last developer's first.
fn through_all_levels(apart: Apart) -> Script {
    let script = Script::fresh().set_up(LITTLE_DEMAND);
    let mut script = script.plants(1..=32, &EIGHT_LEVELS).open(30_000);
    for n in (1..=32).rev() {
        script = script.offer(&[(n, &eight_steps(n, apart))]);
    }
    script.close().settle(&[100])
}

/// A step of each in each of eight rounds.
fn through_all_levels_in_eight_rounds() -> Script {
    let script = Script::fresh().set_up(LITTLE_DEMAND);
    let mut script = script.plants(1..=32, &EIGHT_LEVELS);
    for round in 0..8 {
        script = script.open(40_000 - 32 * (round + 1));
        for n in 1..=32 {
            let step = eight_steps(n, (1, 32))[round as usize];
            script = script.offer(&[(n, &[step])]);
        }
        script = script.close();
    }
    script.settle(&[100])
}

/// Every second developer's lodged.
fn through_all_levels_half_lodged() -> Script {
    let mut script = Script::fresh().set_up(LITTLE_DEMAND);
    for n in (2..=32).step_by(2) {
        script = script.register(&[(n, n, EXISTING, &EIGHT_LEVELS)]);
        script = script.lodge(&[(n, &eight_steps(n, (1, 32)))]);
    }
    for n in (1..=31).step_by(2) {
        script = script.register(&[(n, n, NEW, &EIGHT_LEVELS)]);
    }
    script = script.open(30_000);
    for n in (1..=31).step_by(2) {
        script = script.offer(&[(n, &eight_steps(n, (1, 32)))]);
    }
    script.close().settle(&[100])
}

/// 248 entries that stay through many rounds.
fn two_hundred_rounds_behind() -> Script {
    let script = Script::fresh().set_up(LITTLE_DEMAND).existing(32, 32, 100);
    let mut script = script.plants(1..=31, &EIGHT_LEVELS).open(39_000);
    for n in 1..=31 {
        script = script.offer(&[(n, &eight_steps(n, (1, 32)))]);
    }
    let rounds = (38_800..39_000).rev();
    rounds.fold(script.close(), |script, c| script.round(c, &[]))
}
