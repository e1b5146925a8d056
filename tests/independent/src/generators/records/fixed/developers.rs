//! Projects of several developers: what is open to a project, and who gets a level. Demand is 970
//! at 26,000.

use super::{set_up, Script};
use crate::model::auction::{EXISTING, NEW};

pub(super) fn scripts() -> Vec<Script> {
    let mut scripts: Vec<Script> = SHARED.iter().map(shared_level).collect();
    scripts.extend([
        level_not_open_to_the_best_study(),
        level_below_the_best_low(),
        level_below_the_projects_low(),
        level_of_one_developer_only(),
        same_levels_in_two_projects(),
        greatest_high(),
    ]);
    scripts
}

/// Study value and start day of one developer and of another with the same levels.
const SHARED: [[(u32, u32); 2]; 12] = [
    // The highest study value.
    [(400, 10), (500, 20)],
    [(500, 20), (400, 10)],
    [(0, 0), (1, 9)],
    // At equal study values the earliest start day.
    [(400, 10), (400, 20)],
    [(400, 20), (400, 10)],
    [(0, 1), (0, 0)],
    // At equal start days the lowest number.
    [(400, 10), (400, 10)],
    [(0, 0), (0, 0)],
    // Numbers of 32 bits.
    [(u32::MAX, u32::MAX), (u32::MAX - 1, 0)],
    [(1 << 31, 0), ((1 << 31) - 1, 0)],
    [(u32::MAX, u32::MAX), (u32::MAX, u32::MAX - 1)],
    [(0, 1 << 31), (0, (1 << 31) - 1)],
];

/// Developers 2 and 3 of project 2 share levels 100 and 200, and leave together.
fn shared_level([one, other]: &[(u32, u32); 2]) -> Script {
    set_up()
        .existing(1, 1, 820)
        .register_with(*one, (2, 2, NEW, &[100, 200]))
        .register_with(*other, (2, 3, NEW, &[100, 200]))
        .round(25_000, &[(2, &[(26_000, 0)]), (3, &[(26_000, 0)])])
        .settle(&[100])
}

/// Developer 3 left to 100 above P.
fn level_not_open_to_the_best_study() -> Script {
    set_up()
        .existing(1, 1, 820)
        .register_with((0, 9), (2, 2, NEW, &[100, 200]))
        .register_with((900, 0), (2, 3, NEW, &[100, 200]))
        .open(25_000)
        .offer(&[(2, &[(26_000, 0)]), (3, &[(27_000, 100), (26_000, 0)])])
        .close()
        .settle(&[100])
}

/// Developer 3 stays at 200, which is the project's low; so level 100 is not open.
fn level_below_the_best_low() -> Script {
    set_up()
        .existing(1, 1, 760)
        .register_with((900, 0), (2, 2, NEW, &[100, 200]))
        .register_with((0, 9), (2, 3, NEW, &[100, 200]))
        .register(&[(3, 4, NEW, &[50])])
        .open(25_000)
        .offer(&[(2, &[(26_000, 0)]), (3, &[]), (4, &[(26_000, 0)])])
        .close()
        .settle(&[100])
}

/// Developer 3 stays at 100: levels 100, 150 and 200 are open, 0 and 50 are not.
fn level_below_the_projects_low() -> Script {
    set_up()
        .register(&[
            (1, 1, EXISTING, &[820]),
            (2, 2, NEW, &[50, 150, 200]),
            (2, 3, NEW, &[100]),
        ])
        .round(25_000, &[(2, &[(26_000, 0)]), (3, &[])])
        .settle(&[100])
}

/// Level 150 is declared by developer 3 alone, with the least study value.
fn level_of_one_developer_only() -> Script {
    set_up()
        .existing(1, 1, 820)
        .register_with((900, 0), (2, 2, NEW, &[100, 200]))
        .register_with((0, 9), (2, 3, NEW, &[150, 250]))
        .register_with((800, 0), (2, 4, NEW, &[120, 200]))
        .open(25_000)
        .offer(&[
            (2, &[(26_000, 0)]),
            (3, &[(26_000, 0)]),
            (4, &[(26_000, 0)]),
        ])
        .close()
        .settle(&[100])
}

/// Two developers each.
fn same_levels_in_two_projects() -> Script {
    set_up()
        .existing(7, 1, 700)
        .register_with((0, 5), (3, 2, NEW, &[90, 180]))
        .register_with((5, 0), (8, 3, NEW, &[90, 180]))
        .register_with((0, 4), (3, 4, NEW, &[90, 180]))
        .register_with((5, 0), (8, 5, NEW, &[90, 180]))
        .open(25_000)
        .offer(&[
            (2, &[(26_000, 0)]),
            (3, &[(26_000, 90)]),
            (4, &[(26_000, 90)]),
            (5, &[(26_000, 0)]),
        ])
        .close()
        .settle(&[100])
}

/// The two highs of project 2 do not add, or P would be lower.
fn greatest_high() -> Script {
    set_up()
        .register(&[
            (1, 1, EXISTING, &[820]),
            (2, 2, NEW, &[100]),
            (2, 3, NEW, &[100]),
            (3, 4, NEW, &[60]),
        ])
        .open(25_000)
        .offer(&[(2, &[]), (3, &[]), (4, &[(26_000, 0)])])
        .close()
        .settle(&[100])
}
