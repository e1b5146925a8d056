//! Offers at the edges of document 01, Rounds: refusals 3, 8, 6 and 7.

use super::{between_rounds, opened, registered, Script};
use crate::model::auction::NEW;

pub(super) fn scripts() -> Vec<Script> {
    vec![
        who_may_offer(),
        one_offer_a_round(),
        prices_of_the_first_round(),
        prices_of_the_second_round(),
        prices_that_do_not_fall(),
        steps(),
        levels_at_the_first_step(),
        levels_at_later_steps(),
        quantity_of_earlier_rounds(),
        offer_in_order(),
        prices_before_levels(),
    ]
}

/// Developers 0, 33 and 255, unknown ones, one of kind 1.
fn who_may_offer() -> Script {
    opened()
        .offer(&[
            (0, &[(26_000, 0)]),
            (33, &[(26_000, 0)]),
            (255, &[(26_000, 0)]),
            (5, &[(26_000, 0)]),
            (32, &[]),
            (1, &[(26_000, 0)]),
            (1, &[]),
        ])
        .close()
}

/// A refused offer corrected; a second one in the round and in the next.
fn one_offer_a_round() -> Script {
    registered()
        .open(30_000)
        .offer(&[
            (2, &[(29_999, 100)]),
            (2, &[(35_000, 200)]),
            (2, &[(35_000, 100)]),
            (2, &[(34_000, 0)]),
            (2, &[]),
            (3, &[]),
            (3, &[(35_000, 0)]),
        ])
        .close()
        .open(29_000)
        .offer(&[(2, &[(29_500, 0)]), (3, &[(29_500, 0)]), (3, &[])])
        .close()
}

/// Steps at C - 1, C, A - 1 and A.
fn prices_of_the_first_round() -> Script {
    opened()
        .offer(&[
            (2, &[(24_999, 100)]),
            (2, &[(25_000, 100)]),
            (3, &[(40_000, 0)]),
            (3, &[(39_999, 0)]),
            (4, &[(0, 0)]),
            (4, &[(u32::MAX, 0)]),
        ])
        .close()
}

/// Steps at C - 1, C, the C before less 1 and the C before.
fn prices_of_the_second_round() -> Script {
    between_rounds()
        .open(26_000)
        .offer(&[
            (2, &[(25_999, 100)]),
            (2, &[(26_000, 100)]),
            (3, &[(39_999, 0)]),
            (3, &[(30_000, 0)]),
            (3, &[(29_999, 0)]),
            (4, &[(26_001, 0)]),
        ])
        .close()
}

/// Or of which one is bad.
fn prices_that_do_not_fall() -> Script {
    opened()
        .offer(&[
            (2, &[(26_000, 100), (26_000, 0)]),
            (2, &[(26_000, 100), (26_001, 0)]),
            (2, &[(26_000, 100), (24_999, 0)]),
            (2, &[(40_000, 100), (26_000, 0)]),
            (2, &[(26_000, 100), (25_999, 0)]),
        ])
        .close()
}

/// 9 steps, then 8. More are in no frame.
fn steps() -> Script {
    let falling = [790, 780, 770, 760, 750, 740, 730, 720, 710];
    let from = |first: u32| -> Vec<_> { falling.into_iter().zip((0..=first).rev()).collect() };
    Script::fresh()
        .set_up([400, 1_000, 900, 1_200, 800])
        .existing(1, 1, 1_300)
        .register(&[(2, 2, NEW, &[1, 2, 3, 4, 5, 6, 7, 8])])
        .round(700, &[(2, &from(8)), (2, &from(7))])
}

/// Not declared or not below the quantity.
fn levels_at_the_first_step() -> Script {
    opened()
        .offer(&[
            (2, &[(26_000, 1)]),
            (2, &[(26_000, 99)]),
            (2, &[(26_000, 150)]),
            (2, &[(26_000, 200)]),
            (2, &[(26_000, 201)]),
            (2, &[(26_000, u32::MAX)]),
            (2, &[(26_000, 100)]),
            (3, &[(26_000, 100)]),
            (3, &[(26_000, 0)]),
        ])
        .close()
}

/// Not declared or not below the last.
fn levels_at_later_steps() -> Script {
    opened()
        .offer(&[
            (2, &[(27_000, 100), (26_000, 100)]),
            (2, &[(27_000, 100), (26_000, 200)]),
            (2, &[(27_000, 100), (26_000, 50)]),
            (2, &[(27_000, 0), (26_000, 0)]),
            (2, &[(27_000, 0), (26_000, 100)]),
            (2, &[(27_000, 50), (26_000, 0)]),
            (2, &[(27_000, 100), (26_000, 0)]),
        ])
        .close()
}

/// Levels below the quantity after the round before.
fn quantity_of_earlier_rounds() -> Script {
    registered()
        .round(30_000, &[(2, &[(35_000, 100)]), (3, &[])])
        .open(29_000)
        .offer(&[
            (2, &[(29_500, 200)]),
            (2, &[(29_500, 100)]),
            (2, &[(29_500, 0)]),
            (3, &[(29_500, 200)]),
            (3, &[]),
            (4, &[(29_500, 150)]),
            (4, &[(29_500, 0)]),
            (4, &[]),
        ])
        .close()
}

/// 3 over 8, 6 and 7; 8 over 6 and 7; 6 over 7. Developer 34 is 32 more than one that has
/// offered.
fn offer_in_order() -> Script {
    opened()
        .offer(&[
            (2, &[(26_000, 100)]),
            (34, &[(26_000, 100)]),
            (1, &[(24_999, 820)]),
            (5, &[(40_000, 1)]),
            (2, &[(24_999, 0)]),
            (2, &[(26_000, 100)]),
            (3, &[(24_999, 100)]),
            (3, &[(40_000, 200)]),
        ])
        .close()
}

/// 6 for a later price over 7 for an earlier level.
fn prices_before_levels() -> Script {
    opened()
        .offer(&[
            (2, &[(26_000, 150), (24_999, 0)]),
            (2, &[(26_000, 200), (26_000, 0)]),
            (2, &[(26_000, 150), (40_000, 100)]),
            (2, &[(27_000, 150), (26_000, 0)]),
        ])
        .close()
}
