//! Closing prices: at A, between withdrawals, at the last C and at the floor; of one round and of
//! several.

use super::{set_up, Script};
use crate::model::auction::{EXISTING, NEW};

pub(super) fn scripts() -> Vec<Script> {
    let mut scripts = vec![closing_price_at_a(), closing_price_at_the_last_c()];
    scripts.extend([700, 760, 850].map(crowded_prices));
    scripts.extend([850, 925].map(two_steps_of_a_developer));
    scripts.extend([
        offer_missing_in_a_later_round(),
        closing_price_between_withdrawals(),
        excess_at_the_floor(),
    ]);
    // One that is needed, one that is not, and two of which the lesser suffices.
    let at_the_floor = [(1_150, 0), (1_250, 0), (1_150, 50)];
    scripts.extend(at_the_floor.map(|(existing, kept)| withdrawal_at_the_floor(existing, kept)));
    scripts.push(least_prices());
    scripts
}

/// An offer is missing in the first round.
fn closing_price_at_a() -> Script {
    set_up()
        .register(&[(1, 1, EXISTING, &[800]), (2, 2, NEW, &[150, 200])])
        .round(30_000, &[])
        .settle(&[100])
}

/// No excess at 29,999.
fn closing_price_at_the_last_c() -> Script {
    set_up()
        .register(&[(1, 1, EXISTING, &[820]), (2, 2, NEW, &[131])])
        .round(30_000, &[(2, &[])])
        .round(29_999, &[(2, &[])])
        .settle(&[100])
}

/// Withdrawals at 26,001, 26,000 and 25,999, two each, beside an existing plant.
fn crowded_prices(existing: u32) -> Script {
    set_up()
        .existing(8, 8, existing)
        .plants(2..=7, &[60])
        .open(25_000)
        .offer(&[
            (2, &[(26_001, 0)]),
            (3, &[(26_000, 0)]),
            (4, &[(25_999, 0)]),
            (5, &[(26_001, 0)]),
            (6, &[(26_000, 0)]),
            (7, &[(25_999, 0)]),
        ])
        .close()
        .settle(&[100])
}

/// P at the first and at the second.
fn two_steps_of_a_developer(existing: u32) -> Script {
    set_up()
        .register(&[(1, 1, EXISTING, &[existing]), (2, 2, NEW, &[50, 120])])
        .round(20_000, &[(2, &[(29_000, 50), (26_000, 0)])])
        .settle(&[100])
}

/// P is the C before.
fn offer_missing_in_a_later_round() -> Script {
    set_up()
        .register(&[
            (1, 1, EXISTING, &[820]),
            (2, 2, NEW, &[70, 140]),
            (3, 3, NEW, &[60]),
        ])
        .round(30_000, &[(2, &[]), (3, &[])])
        .round(20_000, &[(3, &[(25_000, 0)])])
        .settle(&[100])
}

/// 1,000 are left below 24,000, which is demand at 20,000; the last withdrawal lies lower.
fn closing_price_between_withdrawals() -> Script {
    set_up()
        .register(&[
            (9, 1, EXISTING, &[900]),
            (4, 32, EXISTING, &[60]),
            (2, 2, NEW, &[40, 90]),
            (3, 3, NEW, &[70]),
        ])
        .round(30_000, &[(2, &[]), (3, &[(36_000, 0)])])
        .round(25_000, &[(2, &[])])
        .round(15_000, &[(2, &[(24_000, 40), (17_000, 0)])])
        .settle(&[100])
}

fn excess_at_the_floor() -> Script {
    set_up()
        .existing(1, 1, 1_300)
        .round(20_000, &[])
        .round(10_000, &[])
        .settle(&[1])
}

fn withdrawal_at_the_floor(existing: u32, kept: u32) -> Script {
    set_up()
        .register(&[(1, 1, EXISTING, &[existing]), (2, 2, NEW, &[50, 60])])
        .round(10_000, &[(2, &[(10_000, kept)])])
        .settle(&[100])
}

/// CE 2, A 4: rounds at 3, 2 and 1.
fn least_prices() -> Script {
    Script::fresh()
        .set_up([2, 2, 1, 3, 4])
        .register(&[(1, 1, EXISTING, &[2]), (2, 2, NEW, &[1])])
        .round(3, &[(2, &[])])
        .round(2, &[(2, &[])])
        .round(1, &[(2, &[(1, 0)])])
        .settle(&[100])
}
