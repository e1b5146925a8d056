//! Registrations at the edges of document 01, Registration: refusals 3 and 4.

use super::{set_up, Script};
use crate::model::auction::{EXISTING, NEW};

pub(super) fn scripts() -> Vec<Script> {
    vec![
        numbers(),
        kinds(),
        levels(),
        levels_that_do_not_rise(),
        developers_a_project_may_have(),
        registration_in_order(),
    ]
}

/// Numbers 0, 1, 32, 33 and 255; a used developer.
fn numbers() -> Script {
    set_up()
        .register(&[
            (1, 0, NEW, &[10]),
            (1, 33, NEW, &[10]),
            (1, 255, NEW, &[10]),
            (0, 1, NEW, &[10]),
            (33, 1, NEW, &[10]),
            (255, 1, NEW, &[10]),
            (32, 1, NEW, &[10]),
        ])
        .register_with((u32::MAX, u32::MAX), (1, 32, NEW, &[10]))
        .register(&[
            (32, 1, NEW, &[10]),
            (2, 32, NEW, &[10]),
            (1, 31, NEW, &[10]),
        ])
}

fn kinds() -> Script {
    set_up().register(&[
        (1, 1, 0, &[10]),
        (1, 1, 3, &[10]),
        (1, 1, 255, &[10]),
        (1, 1, EXISTING, &[10]),
        (2, 2, NEW, &[10]),
    ])
}

/// 0, 1, 8, 9 and 16 levels; levels 0, 1, 10^9 and 10^9 + 1.
fn levels() -> Script {
    let rising: Vec<u32> = (1..=16).collect();
    set_up().register(&[
        (1, 1, NEW, &[]),
        (1, 1, NEW, &[1]),
        (1, 2, NEW, &rising),
        (1, 2, NEW, &rising[..9]),
        (1, 2, NEW, &rising[..8]),
        (1, 3, NEW, &[0]),
        (1, 3, NEW, &[0, 1]),
        (1, 3, NEW, &[1_000_000_001]),
        (1, 3, NEW, &[u32::MAX]),
        (1, 3, NEW, &[1, 1_000_000_001]),
        (1, 3, NEW, &[1, 1_000_000_000]),
        (1, 4, NEW, &[1_000_000_000]),
    ])
}

fn levels_that_do_not_rise() -> Script {
    set_up().register(&[
        (1, 1, EXISTING, &[5, 5]),
        (1, 1, EXISTING, &[6, 5]),
        (1, 1, EXISTING, &[1, 2, 3, 4, 5, 6, 7, 7]),
        (1, 1, EXISTING, &[1, 2, 3, 4, 5, 6, 8, 7]),
        (1, 1, EXISTING, &[2, 1, 3]),
        (1, 1, EXISTING, &[1, 3, 2]),
        (1, 1, EXISTING, &[1, 0]),
        (1, 1, EXISTING, &[5, 6]),
    ])
}

/// One of an existing project, several of a new one.
fn developers_a_project_may_have() -> Script {
    set_up().register(&[
        (1, 1, EXISTING, &[10]),
        (1, 2, EXISTING, &[10]),
        (1, 2, NEW, &[10]),
        (2, 2, NEW, &[10]),
        (2, 3, EXISTING, &[10]),
        (2, 3, NEW, &[20]),
        (2, 4, EXISTING, &[10]),
        (2, 4, NEW, &[5]),
        (3, 5, EXISTING, &[10]),
    ])
}

/// 3 over 4.
fn registration_in_order() -> Script {
    set_up().register(&[
        (1, 1, EXISTING, &[10]),
        (2, 33, 3, &[10]),
        (0, 2, NEW, &[5, 5]),
        (33, 2, NEW, &[]),
        (1, 1, EXISTING, &[10]),
        (1, 1, NEW, &[0]),
        (1, 2, NEW, &[10]),
        (2, 1, 0, &[10]),
    ])
}
