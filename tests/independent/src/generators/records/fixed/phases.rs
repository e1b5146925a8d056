//! Each call in each phase that does not accept it: a sound one, then one that has a second cause
//! behind 2.

use super::{between_rounds, closed, opened, registered, Plant, Script, SETTINGS};
use crate::model::auction::NEW;

pub(super) fn scripts() -> Vec<Script> {
    vec![
        before_set_up(),
        before_the_first_round(),
        in_a_round(),
        in_between_rounds(),
        once_closed(),
    ]
}

fn before_set_up() -> Script {
    Script::fresh()
        .then(registrations_refused)
        .then(lodgings_refused)
        .then(openings_refused)
        .then(offers_refused)
        .cancel(&[2, 33])
        .close()
        .set_up(SETTINGS)
}

fn before_the_first_round() -> Script {
    registered()
        .then(set_ups_refused)
        .then(offers_refused)
        .cancel(&[2, 33])
        .close()
        .register(&[(5, 5, NEW, &[10])])
}

fn in_a_round() -> Script {
    opened()
        .then(set_ups_refused)
        .then(registrations_refused)
        .then(lodgings_refused)
        .then(openings_refused)
        .offer(&[(2, &[]), (3, &[]), (4, &[])])
        .close()
}

fn in_between_rounds() -> Script {
    between_rounds()
        .then(set_ups_refused)
        .then(registrations_refused)
        .then(lodgings_refused)
        .then(offers_refused)
        .cancel(&[2, 33])
        .close()
        .open(25_000)
}

fn once_closed() -> Script {
    closed()
        .then(set_ups_refused)
        .then(registrations_refused)
        .then(lodgings_refused)
        .then(openings_refused)
        .then(offers_refused)
        .cancel(&[2, 33])
        .close()
}

/// 2 over 1.
fn set_ups_refused(script: Script) -> Script {
    script.set_up(SETTINGS).set_up([3, 1_000, 900, 1_200, 3])
}

/// 2 over 3 and 4.
fn registrations_refused(script: Script) -> Script {
    let plants: &[Plant] = &[
        (5, 5, NEW, &[10]),
        (5, 33, NEW, &[10]),
        (5, 5, NEW, &[5, 5]),
    ];
    let script = script.register(plants).register_for(6, plants);
    script.register_for(33, &plants[..1])
}

/// 2 over 15, 6 and 7.
fn lodgings_refused(script: Script) -> Script {
    script.lodge(&[
        (1, &[(26_000, 0)]),
        (2, &[(26_000, 0)]),
        (1, &[(40_000, 0)]),
        (1, &[(26_000, 1)]),
    ])
}

/// 2 over 5; before set-up also over 9.
fn openings_refused(script: Script) -> Script {
    script.opens(&[24_000, 9_999, 40_000])
}

/// 2 over 3, 6 and 7.
fn offers_refused(script: Script) -> Script {
    script.offer(&[
        (2, &[(26_000, 100)]),
        (33, &[(26_000, 100)]),
        (2, &[(40_000, 100)]),
        (2, &[(26_000, 150)]),
    ])
}
