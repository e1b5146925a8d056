//! Cancellations (document 02, request 7): refusals 2, 3 and 16, offers made again, missing ones,
//! and what stays of other rounds and developers.

use super::{between_rounds, opened, registered, set_up, Script};
use crate::model::auction::{EXISTING, NEW};

pub(super) fn scripts() -> Vec<Script> {
    vec![
        no_round_open(),
        who_may_cancel(),
        without_an_offer(),
        offered_again(),
        second_offer_is_not_revived(),
        corrected_by_cancelling(),
        missing_then(),
        no_steps(),
        calls_of_others_between(),
        all_of_a_project(),
        offer_of_the_round_before(),
        after_withdrawals(),
        eight_steps(),
        closing_by_it(),
        beside_lodged_steps(),
    ]
}

/// 2, also over 3 and 16.
fn no_round_open() -> Script {
    let refused = |script: Script| script.cancel(&[2, 1, 33, 32, 0]);
    Script::fresh()
        .then(refused)
        .set_up(super::SETTINGS)
        .then(refused)
        .existing(1, 1, 1_000)
        .register(&[(2, 2, NEW, &[100, 200])])
        .then(refused)
        .round(30_000, &[(2, &[(30_000, 100)])])
        .then(refused)
        .round(10_000, &[(2, &[])])
        .then(refused)
        .settle(&[100])
}

/// 3 as for an offer: outside 1 to 32, unknown, kind 1; 34 is 32 more than one that has offered.
fn who_may_cancel() -> Script {
    opened()
        .offer(&[(2, &[(26_000, 100)])])
        .cancel(&[0, 33, 34, 255, 5, 32, 1])
        .close()
        .settle(&[100])
}

/// 16: none made, one refused, one cancelled before.
fn without_an_offer() -> Script {
    opened()
        .cancel(&[2])
        .offer(&[(2, &[(24_999, 100)]), (2, &[(26_000, 1)])])
        .cancel(&[2, 3])
        .offer(&[(2, &[(26_000, 100)])])
        .cancel(&[3, 2, 2, 4])
        .close()
        .settle(&[100])
}

/// In the same round, and cancelled and offered again.
fn offered_again() -> Script {
    opened()
        .offer(&[(2, &[(30_000, 100), (26_000, 0)]), (3, &[(27_000, 0)])])
        .cancel(&[2])
        .offer(&[(2, &[(30_000, 0)])])
        .cancel(&[2, 3])
        .offer(&[(3, &[(26_000, 0)]), (4, &[(26_000, 0)])])
        .offer(&[(2, &[(26_000, 100)]), (2, &[])])
        .close()
        .settle(&[100])
}

/// What was refused by 8 stays refused: the developer has no offer.
fn second_offer_is_not_revived() -> Script {
    opened()
        .offer(&[(2, &[]), (2, &[(26_000, 100)]), (2, &[(26_000, 1)])])
        .cancel(&[2, 2])
        .offer(&[(3, &[(26_000, 0)]), (4, &[(26_000, 0)])])
        .close()
        .settle(&[100])
}

/// After 8, 6 and 7 the developer cancels and makes the offer that was refused by 8.
fn corrected_by_cancelling() -> Script {
    opened()
        .offer(&[
            (4, &[(26_000, 0)]),
            (2, &[(39_999, 0)]),
            (2, &[(26_000, 100)]),
        ])
        .cancel(&[2])
        .offer(&[
            (2, &[(40_000, 0)]),
            (2, &[(26_000, 200)]),
            (2, &[(26_000, 100)]),
            (3, &[(26_000, 0)]),
        ])
        .close()
        .settle(&[100])
}

/// Who cancels and offers no more withdraws to 0 at A, and at the C before.
fn missing_then() -> Script {
    set_up()
        .existing(1, 1, 930)
        .plants(2..=4, &[50, 90])
        .open(30_000)
        .offer(&[(2, &[]), (3, &[(35_000, 50)]), (4, &[])])
        .cancel(&[2])
        .close()
        .open(20_000)
        .offer(&[(3, &[]), (4, &[(25_000, 50)])])
        .cancel(&[3, 4, 2])
        .close()
        .settle(&[100])
}

/// An offer of no steps can be cancelled, and made again.
fn no_steps() -> Script {
    opened()
        .offer(&[(2, &[]), (3, &[]), (4, &[])])
        .cancel(&[2, 3, 4])
        .offer(&[(4, &[])])
        .close()
        .settle(&[100])
}

/// Offers of others, refused and not, an opening and a settling.
fn calls_of_others_between() -> Script {
    opened()
        .offer(&[(2, &[(26_000, 0)]), (4, &[(26_000, 1)])])
        .open(20_000)
        .settle(&[100])
        .offer(&[(4, &[(26_000, 0)]), (4, &[]), (33, &[]), (3, &[])])
        .cancel(&[5, 2, 3])
        .offer(&[(3, &[(26_000, 0)])])
        .close()
        .settle(&[100])
}

/// Both developers of project 2 cancel.
fn all_of_a_project() -> Script {
    opened()
        .offer(&[(2, &[]), (3, &[]), (4, &[(26_000, 0)])])
        .cancel(&[3, 2])
        .close()
        .settle(&[100])
}

/// It no longer stands: 16 in the next round, with its steps applied.
fn offer_of_the_round_before() -> Script {
    registered()
        .round(30_000, &[(2, &[(35_000, 100)]), (3, &[]), (4, &[])])
        .open(25_000)
        .cancel(&[2, 3])
        .offer(&[(2, &[(26_000, 0)]), (3, &[])])
        .cancel(&[2, 4])
        .offer(&[(2, &[(26_000, 100)]), (2, &[(26_000, 0)])])
        .close()
        .round(10_000, &[(3, &[])])
        .settle(&[100])
}

/// Those of earlier rounds stay.
fn after_withdrawals() -> Script {
    between_rounds()
        .round(27_000, &[(2, &[(28_000, 100)]), (3, &[]), (4, &[])])
        .open(25_000)
        .offer(&[(2, &[(26_000, 0)]), (3, &[(25_000, 0)]), (4, &[])])
        .cancel(&[2, 3])
        .offer(&[(2, &[]), (3, &[(26_000, 0)])])
        .close()
        .round(10_000, &[])
        .settle(&[100])
}

/// Eight steps, cancelled for none, for one and for eight others.
fn eight_steps() -> Script {
    let levels = [1, 2, 3, 5, 8, 13, 21, 34];
    let falls = [21, 13, 8, 5, 3, 2, 1, 0];
    let steps = |first: u32| -> Vec<_> { (0..8).map(|step| first - step).zip(falls).collect() };
    Script::fresh()
        .set_up([400, 1_000, 900, 1_200, 800])
        .register(&[(1, 1, EXISTING, &[1_300]), (2, 2, NEW, &levels)])
        .open(700)
        .offer(&[(2, &steps(799))])
        .cancel(&[2])
        .offer(&[(2, &[])])
        .cancel(&[2])
        .offer(&[(2, &[(750, 34)]), (2, &[(750, 21)])])
        .cancel(&[2])
        .offer(&[(2, &steps(780))])
        .close()
        .round(200, &[(2, &[])])
        .settle(&[1])
}

/// The excess is above 0 with the offer, and below without it.
fn closing_by_it() -> Script {
    let script = set_up().register(&[(1, 1, EXISTING, &[900]), (2, 2, NEW, &[100])]);
    script
        .open(25_000)
        .offer(&[(2, &[])])
        .cancel(&[2])
        .close()
        .open(20_000)
        .settle(&[100])
}

/// A lodged list is no offer: 3 for its plant, and its steps are applied.
fn beside_lodged_steps() -> Script {
    registered()
        .existing(9, 9, 50)
        .lodge(&[(9, &[(26_000, 0)])])
        .open(25_000)
        .offer(&[(2, &[(26_000, 100)]), (9, &[(26_000, 0)])])
        .cancel(&[9, 2])
        .offer(&[(2, &[(26_000, 0)]), (3, &[(26_000, 0)])])
        .close()
        .cancel(&[9])
        .settle(&[100])
}
