//! Ties between choices, and totals just above demand, which is 970 at 26,000.

use super::{set_up, Plant, Script};
use crate::model::auction::{EXISTING, NEW};

pub(super) fn scripts() -> Vec<Script> {
    vec![
        two_equal_levels(),
        // 100 and 0, 50 and 50, 0 and 100.
        leaving(&[
            (1, 1, EXISTING, &[870]),
            (2, 2, NEW, &[50, 100]),
            (3, 3, NEW, &[50, 100]),
        ]),
        // Project 2 has 60 in all of least total; projects 3 and 4 tie.
        leaving(&[
            (1, 1, EXISTING, &[870]),
            (2, 2, NEW, &[60]),
            (3, 3, NEW, &[30, 40]),
            (4, 4, NEW, &[30, 40]),
        ]),
        // The lesser project number yields to the lesser total.
        leaving(&[
            (1, 1, EXISTING, &[869]),
            (2, 2, NEW, &[102]),
            (3, 3, NEW, &[101]),
        ]),
        // 969 and 1,069 around a demand of 970.
        leaving(&[
            (1, 1, EXISTING, &[869]),
            (2, 2, NEW, &[100]),
            (3, 3, NEW, &[100]),
        ]),
        several_at_once(),
    ]
}

/// Project 2 goes before project 9, whatever the developers' numbers, study values and days.
fn two_equal_levels() -> Script {
    set_up()
        .existing(5, 5, 870)
        .register_with((7, 0), (9, 2, NEW, &[100]))
        .register_with((0, 9), (2, 9, NEW, &[100]))
        .round(25_000, &[(2, &[(26_000, 0)]), (9, &[(26_000, 0)])])
        .settle(&[100])
}

/// All new plants withdraw to 0 at 26,000.
fn leaving(plants: &[Plant]) -> Script {
    let new = plants.iter().filter(|plant| plant.2 == NEW);
    let mut script = set_up().register(plants).open(25_000);
    for plant in new {
        script = script.offer(&[(plant.1, &[(26_000, 0)])]);
    }
    script.close().settle(&[100])
}

/// Some leave, some stay, some left before: 2, 1, 2 and 3 open levels beside 640.
fn several_at_once() -> Script {
    set_up()
        .register(&[
            (31, 1, EXISTING, &[640]),
            (4, 2, NEW, &[110, 130]),
            (3, 3, NEW, &[80, 120]),
            (2, 4, NEW, &[90]),
            (1, 5, NEW, &[20, 70]),
        ])
        .open(25_000)
        .offer(&[
            (2, &[(26_000, 0)]),
            (3, &[(26_000, 80)]),
            (4, &[]),
            (5, &[(27_000, 20), (26_000, 0)]),
        ])
        .close()
        .settle(&[100])
}
