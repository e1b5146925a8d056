//! Whole auctions, of one round and of several.

use super::{closed, set_up, Plant, Script, Step};
use crate::model::auction::{EXISTING, NEW, NUMBERS};

pub(super) fn scripts() -> Vec<Script> {
    vec![
        closed(),
        excess_1_then_0(),
        closed_at_the_floor(),
        closed_at_the_floor_at_once(),
        missing_offers(),
        developers_of_a_project(),
        eight_steps_in_a_round(),
        a_step_in_each_of_eight_rounds(),
        a_round_for_each_price(),
        greatest_supply_and_demand(),
        greatest_supply_least_demand(),
        thirty_two_developers_of_a_project(),
    ]
}

/// An excess of 1 at 30,000, of 0 at 29,999.
fn excess_1_then_0() -> Script {
    set_up()
        .register(&[(1, 1, EXISTING, &[820]), (2, 2, NEW, &[131])])
        .round(30_000, &[(2, &[])])
        .round(29_999, &[(2, &[])])
        .open(29_998)
}

/// With an excess, after a round down to a thousandth above.
fn closed_at_the_floor() -> Script {
    set_up()
        .register(&[(1, 1, EXISTING, &[1_160]), (2, 2, NEW, &[50, 120])])
        .round(10_001, &[(2, &[(10_001, 50)])])
        .round(10_000, &[(2, &[])])
        .open(10_000)
}

fn closed_at_the_floor_at_once() -> Script {
    let script = set_up().existing(1, 1, 2_000);
    script.round(10_000, &[]).close()
}

/// At A, at the C before, and from a developer at 0.
fn missing_offers() -> Script {
    set_up()
        .register(&[
            (1, 1, EXISTING, &[1_150]),
            (2, 2, NEW, &[50, 100]),
            (3, 3, NEW, &[60]),
            (4, 4, NEW, &[70, 90]),
        ])
        .round(30_000, &[(3, &[]), (4, &[(35_000, 70)])])
        .round(20_000, &[(2, &[]), (4, &[])])
        .round(15_000, &[(3, &[(15_000, 0)])])
        .round(12_500, &[])
        .close()
}

/// The greatest of a project's developers counts.
fn developers_of_a_project() -> Script {
    set_up()
        .register(&[
            (7, 1, EXISTING, &[800]),
            (2, 2, NEW, &[100, 200]),
            (2, 3, NEW, &[200]),
            (2, 32, NEW, &[50, 150, 250]),
        ])
        .round(31_000, &[(2, &[(36_000, 100)]), (3, &[]), (32, &[])])
        .open(26_000)
        .offer(&[(2, &[]), (3, &[]), (32, &[(30_000, 150), (27_000, 50)])])
        .close()
        .round(25_000, &[(2, &[]), (32, &[(25_999, 0)])])
        .open(20_000)
}

/// A developer of eight levels beside an existing plant.
const EIGHT_LEVELS: [Plant; 2] = [
    (1, 1, EXISTING, &[1_300]),
    (2, 2, NEW, &[1, 2, 3, 5, 8, 13, 21, 34]),
];

/// The levels below its highest, falling to 0.
const EIGHT_FALLS: [u32; 8] = [21, 13, 8, 5, 3, 2, 1, 0];

fn eight_steps_in_a_round() -> Script {
    let steps: Vec<Step> = (792..800).rev().zip(EIGHT_FALLS).collect();
    Script::fresh()
        .set_up([400, 1_000, 900, 1_200, 800])
        .register(&EIGHT_LEVELS)
        .round(792, &[(2, &steps)])
        .round(400, &[])
        .round(200, &[(2, &[])])
}

fn a_step_in_each_of_eight_rounds() -> Script {
    let rounds = [
        (38_000, 39_999),
        (36_000, 37_999),
        (34_000, 34_000),
        (32_000, 33_000),
        (30_000, 31_999),
        (28_000, 28_000),
        (26_000, 27_999),
        (24_000, 25_000),
    ];
    let mut script = set_up().register(&EIGHT_LEVELS);
    for ((c, price), level) in rounds.into_iter().zip(EIGHT_FALLS) {
        script = script.round(c, &[(2, &[(price, level)])]);
    }
    script.round(10_000, &[])
}

/// From A less 1 to the floor.
fn a_round_for_each_price() -> Script {
    Script::fresh()
        .set_up([2, 2, 1, 3, 4])
        .register(&[(1, 1, EXISTING, &[4]), (2, 2, NEW, &[1, 2])])
        .round(3, &[(2, &[(3, 1)])])
        .open(3)
        .round(2, &[(2, &[(2, 0)])])
        .round(1, &[])
        .open(1)
}

/// 32 existing plants of 10^9.
fn greatest_supply_and_demand() -> Script {
    Script::fresh()
        .set_up([500_000, 99_999_999_999, 1, 100_000_000_000, 1_000_000])
        .then(thirty_two_existing_plants)
        .round(250_000, &[])
}

fn greatest_supply_least_demand() -> Script {
    Script::fresh()
        .set_up([500_000, 2, 1, 3, 1_000_000])
        .then(thirty_two_existing_plants)
        .round(999_999, &[])
        .round(250_000, &[])
}

fn thirty_two_existing_plants(script: Script) -> Script {
    NUMBERS.fold(script, |script, n| script.existing(n, n, 1_000_000_000))
}

/// Four developers to each pair of levels.
fn thirty_two_developers_of_a_project() -> Script {
    let levels = [
        [1, 100],
        [2, 200],
        [3, 300],
        [4, 400],
        [5, 500],
        [6, 600],
        [7, 700],
        [960, 990],
    ];
    let mut script = set_up();
    for developer in NUMBERS {
        let levels = levels[usize::from(developer - 1) / 4];
        script = script.register(&[(32, developer, NEW, &levels)]);
    }
    script
        .register(&[(32, 32, NEW, &[1_000]), (32, 33, NEW, &[1_000])])
        .open(30_000)
        .offer(&[
            (1, &[(39_999, 1)]),
            (17, &[]),
            (31, &[(30_000, 0)]),
            (32, &[(30_500, 960)]),
        ])
        .close()
        .round(29_000, &[(32, &[])])
        .round(28_000, &[(32, &[(28_500, 0)])])
}
