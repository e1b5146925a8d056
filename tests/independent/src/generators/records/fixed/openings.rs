//! Openings at the edges of document 01, Rounds: refusals 5 and 9.

use super::{between_rounds, registered, set_up, Script};
use crate::model::auction::NEW;

pub(super) fn scripts() -> Vec<Script> {
    vec![
        first_round(),
        first_round_to_the_floor(),
        second_round(),
        second_round_to_the_floor(),
        opening_price_covered(),
        opening_price_at_ce_covered(),
    ]
}

/// C below A.
fn first_round() -> Script {
    registered()
        .opens(&[u32::MAX, 40_001, 40_000, 39_999])
        .offer(&[(2, &[(39_999, 100)])])
}

fn first_round_to_the_floor() -> Script {
    registered()
        .opens(&[0, 9_999, 10_000])
        .offer(&[(2, &[(10_000, 100)])])
        .close()
        .open(10_000)
}

/// C below the C before.
fn second_round() -> Script {
    between_rounds()
        .opens(&[40_000, 39_999, 30_001, 30_000, 29_999])
        .offer(&[(2, &[(29_999, 100)]), (3, &[])])
        .close()
        .opens(&[29_999, 29_998])
}

fn second_round_to_the_floor() -> Script {
    between_rounds().opens(&[0, 9_999, 10_000]).close()
}

/// Dem(A) is 900. A refused opening leaves the auction open to registrations; 5 over 9.
fn opening_price_covered() -> Script {
    set_up()
        .opens(&[25_000, 40_000, 9_999])
        .register(&[(1, 1, NEW, &[599]), (1, 2, NEW, &[400, 600])])
        .open(25_000)
        .existing(2, 3, 299)
        .opens(&[25_000, 40_000])
        .existing(3, 4, 1)
        .round(25_000, &[])
}

/// Dem(A) is 1,000.
fn opening_price_at_ce_covered() -> Script {
    Script::fresh()
        .set_up([20_000, 1_000, 900, 1_200, 20_000])
        .existing(1, 1, 999)
        .open(19_999)
        .existing(2, 2, 1)
        .opens(&[20_000, 19_999])
        .close()
}
