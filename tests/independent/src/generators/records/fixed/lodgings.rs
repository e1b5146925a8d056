//! Lodged lists of existing plants (document 02, request 5): refusals 2, 15, 6 and 7, lists in
//! place of others, which steps a closing applies, and the price for new plants.

use super::{registered, set_up, Offer, Script, SETTINGS};
use crate::model::auction::{EXISTING, NEW, NUMBERS};

pub(super) fn scripts() -> Vec<Script> {
    let mut scripts = vec![
        before_set_up(),
        other_phases(),
        who_may_lodge(),
        registered_later(),
        prices(),
        prices_that_do_not_fall(),
        steps(),
        levels(),
        lodging_in_order(),
        replaced(),
        replaced_by_none(),
        refused_in_place(),
        edges_of_a_round(),
        edges_of_two_rounds(),
        a_step_in_each_of_eight_rounds(),
        eight_steps_in_a_round(),
        to_the_floor(),
        covered_before_any_step(),
        kinds_without_offers(),
        levels_open_at_the_price(),
        award_at_the_first_price(),
        thirty_two_plants(),
    ];
    scripts.extend([24_999, 25_000, 25_001].map(around_the_last_c));
    scripts.extend([899, 900, 901].map(just_covered));
    scripts.extend([26_001, 26_000, 25_999].map(around_the_closing_price));
    scripts.extend([[0, 0], [200, 0], [200, 100]].map(whole_projects_out));
    scripts
}

/// A plant beside the sample's that lodges: 300, 500 and 700 of project 9.
const LODGING: (u8, u8, u8, &[u32]) = (9, 9, EXISTING, &[300, 500, 700]);

const STEPS: &[(u32, u32)] = &[(36_000, 500), (26_000, 0)];

/// The sample's plants and that one, which has lodged a list.
fn lodged() -> Script {
    registered().register(&[LODGING]).lodge(&[(9, STEPS)])
}

/// The sample's new plants stay.
const STAY: [Offer; 3] = [(2, &[]), (3, &[]), (4, &[])];

fn before_set_up() -> Script {
    Script::fresh()
        .lodge(&[(1, &[]), (33, &[]), (1, &[(40_000, 1)])])
        .set_up(SETTINGS)
        .lodge(&[(1, &[])])
        .existing(1, 1, 900)
        .lodge(&[(1, &[])])
}

/// 2, also over 15, 6 and 7: in a round, between rounds and once closed. The list stays.
fn other_phases() -> Script {
    let refused = |script: Script| {
        let bad: [Offer; 5] = [
            (9, &[]),
            (9, &[(30_000, 0)]),
            (33, &[]),
            (9, &[(40_000, 0)]),
            (9, &[(30_000, 1)]),
        ];
        script.lodge(&bad)
    };
    lodged()
        .open(37_000)
        .then(refused)
        .offer(&STAY)
        .close()
        .then(refused)
        .round(10_000, &STAY)
        .then(refused)
        .settle(&[100])
}

/// 15, never 3: numbers outside 1 to 32, unknown ones, kind 2; before 6 and 7.
fn who_may_lodge() -> Script {
    registered()
        .lodge(&[
            (0, &[]),
            (33, &[]),
            (34, &[(26_000, 0)]),
            (255, &[(26_000, 0)]),
            (5, &[]),
            (32, &[(26_000, 0)]),
            (2, &[]),
            (4, &[(26_000, 0)]),
            (33, &[(9_999, 0)]),
            (5, &[(26_000, 1)]),
            (2, &[(40_000, 100)]),
            (3, &[(26_000, 200)]),
            (1, &[(26_000, 0)]),
        ])
        .round(25_000, &STAY)
        .settle(&[100])
}

/// A plant lodges once it is registered; others may be registered behind it.
fn registered_later() -> Script {
    set_up()
        .lodge(&[(1, &[])])
        .existing(2, 2, 500)
        .lodge(&[(2, &[(30_000, 0)]), (1, &[(30_000, 0)])])
        .existing(1, 1, 600)
        .lodge(&[(1, &[(28_000, 0)])])
        .existing(3, 3, 700)
        .round(27_000, &[])
        .settle(&[100])
}

/// From the floor to A less 1.
fn prices() -> Script {
    registered().register(&[LODGING]).lodge(&[
        (9, &[(40_000, 0)]),
        (9, &[(39_999, 0)]),
        (9, &[(9_999, 0)]),
        (9, &[(10_000, 0)]),
        (9, &[(0, 0)]),
        (9, &[(u32::MAX, 0)]),
        (9, &[(39_999, 500), (10_000, 0)]),
    ])
}

fn prices_that_do_not_fall() -> Script {
    registered().register(&[LODGING]).lodge(&[
        (9, &[(26_000, 500), (26_000, 0)]),
        (9, &[(26_000, 500), (26_001, 0)]),
        (9, &[(26_000, 500), (25_999, 300), (25_999, 0)]),
        (9, &[(26_000, 500), (9_999, 0)]),
        (9, &[(26_000, 500), (25_999, 0)]),
    ])
}

/// 9 steps, then 8 and none. More are in no frame.
fn steps() -> Script {
    let falling = [790, 780, 770, 760, 750, 740, 730, 720, 710];
    let from = |first: u32| -> Vec<_> { falling.into_iter().zip((0..=first).rev()).collect() };
    Script::fresh()
        .set_up([400, 1_000, 900, 1_200, 800])
        .register(&[(1, 1, EXISTING, &[1, 2, 3, 4, 5, 6, 7, 8])])
        .existing(2, 2, 1_300)
        .lodge(&[(1, &[]), (1, &from(8)), (1, &from(7))])
        .round(700, &[])
        .round(200, &[])
        .settle(&[1])
}

/// From the highest declared level down.
fn levels() -> Script {
    registered().register(&[LODGING]).lodge(&[
        (9, &[(26_000, 700)]),
        (9, &[(26_000, 701)]),
        (9, &[(26_000, 699)]),
        (9, &[(26_000, 1)]),
        (9, &[(26_000, u32::MAX)]),
        (9, &[(26_000, 500), (25_000, 500)]),
        (9, &[(26_000, 300), (25_000, 500)]),
        (9, &[(26_000, 0), (25_000, 0)]),
        (9, &[(26_000, 500), (25_000, 400), (24_000, 0)]),
        (9, &[(26_000, 500), (25_000, 300), (24_000, 0)]),
    ])
}

/// 15 over 6 and 7, 6 over 7, also for a later price over an earlier level.
fn lodging_in_order() -> Script {
    registered().register(&[LODGING]).lodge(&[
        (2, &[(9_999, 1)]),
        (9, &[(9_999, 1)]),
        (9, &[(40_000, 700)]),
        (9, &[(26_000, 1), (26_000, 0)]),
        (9, &[(26_000, 700), (9_999, 0)]),
        (9, &[(26_000, 1)]),
    ])
}

/// The last list counts, not both; its levels again go from the highest down.
fn replaced() -> Script {
    lodged()
        .lodge(&[(9, &[(30_000, 500)]), (9, &[(28_000, 300)])])
        .round(35_000, &STAY)
        .round(29_000, &STAY)
        .round(10_000, &STAY)
        .settle(&[100])
}

fn replaced_by_none() -> Script {
    lodged()
        .lodge(&[(9, &[])])
        .round(25_000, &[])
        .round(10_000, &[])
        .settle(&[100])
}

/// A refused list replaces nothing.
fn refused_in_place() -> Script {
    lodged()
        .lodge(&[(9, &[(40_000, 0)]), (9, &[(26_000, 1)]), (10, &[])])
        .round(30_000, &STAY)
        .round(10_000, &STAY)
        .settle(&[100])
}

/// At A less 1 and at C, and one below C that is not applied.
fn edges_of_a_round() -> Script {
    set_up()
        .existing(1, 1, 600)
        .register(&[LODGING])
        .lodge(&[(9, &[(39_999, 500), (25_000, 300), (24_999, 0)])])
        .round(25_000, &[])
        .settle(&[100])
}

/// At C, which opens the next round, and one below it.
fn edges_of_two_rounds() -> Script {
    set_up()
        .existing(8, 8, 960)
        .register(&[LODGING])
        .lodge(&[(9, &[(30_000, 500), (29_999, 300), (20_000, 0)])])
        .round(30_000, &[])
        .round(20_000, &[])
        .settle(&[100])
}

fn a_step_in_each_of_eight_rounds() -> Script {
    let levels = [1, 2, 3, 5, 8, 13, 21, 34];
    let prices = (24_000..=38_000).rev().step_by(2_000);
    let falls = levels[..7].iter().rev().copied().chain([0]);
    let steps: Vec<_> = prices.clone().zip(falls).collect();
    let script = set_up()
        .existing(1, 1, 1_300)
        .register(&[(2, 2, EXISTING, &levels)])
        .lodge(&[(2, &steps)]);
    let script = prices.fold(script, |script, c| script.round(c, &[]));
    script.round(10_000, &[]).settle(&[1])
}

fn eight_steps_in_a_round() -> Script {
    let levels = [1, 2, 3, 5, 8, 13, 21, 34];
    let falls = levels[..7].iter().rev().copied().chain([0]);
    let steps: Vec<_> = (792..800).rev().zip(falls).collect();
    Script::fresh()
        .set_up([400, 1_000, 900, 1_200, 800])
        .existing(1, 1, 1_300)
        .register(&[(2, 2, EXISTING, &levels)])
        .lodge(&[(2, &steps)])
        .round(792, &[])
        .round(200, &[])
        .settle(&[1])
}

/// A step at the floor, where the auction closes.
fn to_the_floor() -> Script {
    set_up()
        .existing(1, 1, 1_150)
        .register(&[(2, 2, EXISTING, &[60, 100])])
        .lodge(&[(2, &[(10_000, 60)])])
        .round(20_000, &[])
        .round(10_000, &[])
        .settle(&[2, 1])
}

/// A is covered by the highest levels, though the lists fall at A less 1; one less does not cover.
fn covered_before_any_step() -> Script {
    set_up()
        .register(&[(1, 1, EXISTING, &[399]), (2, 2, EXISTING, &[1, 500])])
        .lodge(&[(1, &[(39_999, 0)]), (2, &[(39_999, 0)])])
        .open(39_999)
        .existing(3, 3, 1)
        .round(39_999, &[])
        .settle(&[100])
}

/// New plants withdraw without an offer; existing ones stay but for what they lodged.
fn kinds_without_offers() -> Script {
    set_up()
        .register(&[
            (1, 1, EXISTING, &[500]),
            (2, 2, EXISTING, &[200, 600]),
            (3, 3, NEW, &[900]),
        ])
        .lodge(&[(2, &[(35_000, 200)])])
        .round(30_000, &[])
        .settle(&[100])
}

/// 300, 500 and 700 of the plant are open at 26,000, where it falls from 700 to 300, and 0 and 150
/// of another that leaves; 970 are demanded.
fn levels_open_at_the_price() -> Script {
    set_up()
        .existing(1, 1, 400)
        .register(&[LODGING, (3, 4, NEW, &[150])])
        .lodge(&[(9, &[(26_000, 300), (25_500, 0)])])
        .round(25_000, &[(4, &[(26_000, 0)])])
        .settle(&[6, 5])
}

/// The award is that at 26,000, though the second price is 38,000.
fn award_at_the_first_price() -> Script {
    set_up()
        .existing(1, 1, 910)
        .register(&[(9, 9, EXISTING, &[10, 60, 100]), (3, 4, NEW, &[150])])
        .lodge(&[(9, &[(27_000, 60), (25_000, 10)])])
        .round(25_000, &[(4, &[(39_000, 0)])])
        .settle(&[100])
}

/// All existing, each of its own project; all leave, at eight prices.
fn thirty_two_plants() -> Script {
    let script = NUMBERS.fold(set_up(), |script, n| script.existing(n, 33 - n, 60));
    let script = NUMBERS.fold(script, |script, n| {
        script.lodge(&[(n, &[(30_000 - u32::from(n % 8), 0)])])
    });
    script.round(29_000, &[]).settle(&[65_536])
}

/// A step at the last C is applied, one below it is not, and its project is not taken out.
fn around_the_last_c(price: u32) -> Script {
    set_up()
        .register(&[(1, 1, EXISTING, &[910]), (9, 9, EXISTING, &[60])])
        .lodge(&[(9, &[(price, 0)])])
        .round(35_000, &[])
        .round(25_000, &[])
        .settle(&[100])
}

/// So much beside the plant that leaves: 900 just cover A.
fn just_covered(beside: u32) -> Script {
    set_up()
        .existing(1, 1, beside)
        .register(&[LODGING])
        .lodge(&[(9, &[(39_999, 0)])])
        .round(30_000, &[])
        .settle(&[100])
}

/// A step above, at and below the closing price of 26,000, where a new plant leaves.
fn around_the_closing_price(price: u32) -> Script {
    set_up()
        .existing(1, 1, 920)
        .register(&[(9, 9, EXISTING, &[30, 50]), (3, 4, NEW, &[150])])
        .lodge(&[(9, &[(price, 30)])])
        .round(25_000, &[(4, &[(26_000, 0)])])
        .settle(&[100])
}

/// Two plants fall to these levels: the whole of them is taken out, not only what they withdrew.
fn whole_projects_out([one, other]: [u32; 2]) -> Script {
    set_up()
        .existing(1, 1, 930)
        .register(&[
            (2, 2, EXISTING, &[200, 400]),
            (3, 3, EXISTING, &[100, 300]),
            (4, 4, NEW, &[40]),
        ])
        .lodge(&[(2, &[(32_000, one)]), (3, &[(28_000, other)])])
        .round(30_000, &[(4, &[])])
        .round(10_000, &[(4, &[(24_000, 0)])])
        .settle(&[100])
}
