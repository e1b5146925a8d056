//! What pairs of runs with one view for a developer show (document 02, request 14).

use super::features::{Feature, Kind};
use crate::generators::hall::pairs::Pair;
use crate::generators::hall::runs::NO_DEVELOPERS;
use crate::model::auction::{EXISTING, NEW};
use crate::model::hall::views::Shown;
use crate::model::hall::{Call, Seat, PREVIEW};
use crate::model::replay;
use crate::NO_RIGHT;

pub const PAIRS: &[Kind<Pair>] = &[
    ("developer", |_| true, DEVELOPERS),
    ("its view", |_| true, VIEWS),
    ("calls of others that differ", |_| true, DIFFERING),
];

const DEVELOPERS: &[Feature<Pair>] = &[
    ("new plant", |pair| is_of_kind(pair, NEW)),
    ("existing plant", |pair| is_of_kind(pair, EXISTING)),
    ("not registered", |pair| {
        !is_of_kind(pair, NEW) && !is_of_kind(pair, EXISTING)
    }),
    ("0, 33 or 255", |pair| {
        NO_DEVELOPERS.contains(&pair.developer)
    }),
];

fn is_of_kind(pair: &Pair, plant: u8) -> bool {
    pair.view().any(|shown| match shown {
        Shown::MadeFor(Call::Framed(replay::Call::Register { kind, .. })) => *kind == plant,
        _ => false,
    })
}

/// Whether the developer's own call of the kind gets such a number.
fn own(pair: &Pair, kind: u8, such: fn(u8) -> bool) -> bool {
    let mut events = pair.runs[0].events.iter();
    events.any(|event| {
        event.seat() == Some(Seat::Developer(pair.developer))
            && event.kind == kind
            && such(event.answer.number)
    })
}

const VIEWS: &[Feature<Pair>] = &[
    ("offer accepted", |pair| own(pair, 4, |number| number == 0)),
    ("offer refused", |pair| {
        own(pair, 4, |number| ![0, NO_RIGHT].contains(&number))
    }),
    ("offer 20", |pair| own(pair, 4, |number| number == NO_RIGHT)),
    ("cancellation accepted", |pair| {
        own(pair, 9, |number| number == 0)
    }),
    ("cancellation refused", |pair| {
        own(pair, 9, |number| ![0, NO_RIGHT].contains(&number))
    }),
    ("settling 20", |pair| {
        own(pair, 6, |number| number == NO_RIGHT)
    }),
    ("lodged list", |pair| {
        pair.view().any(|shown| {
            matches!(
                shown,
                Shown::MadeFor(Call::Framed(replay::Call::Lodge { .. }))
            )
        })
    }),
    ("one closing", |pair| pair.runs[0].quantities.len() == 1),
    ("several closings", |pair| pair.runs[0].quantities.len() > 1),
];

/// Whether a call of the kind differs and gets such a number.
fn differs(pair: &Pair, kind: u8, such: fn(u8) -> bool) -> bool {
    let mut differing = pair.differing.iter();
    differing.any(|event| event.kind == kind && such(event.answer.number))
}

const DIFFERING: &[Feature<Pair>] = &[
    ("offers accepted", |pair| differs(pair, 4, |n| n == 0)),
    ("offers refused", |pair| differs(pair, 4, |n| n > 0)),
    ("cancellations accepted", |pair| {
        differs(pair, 9, |n| n == 0)
    }),
    ("cancellations refused", |pair| differs(pair, 9, |n| n > 0)),
    ("lodgings accepted", |pair| differs(pair, 7, |n| n == 0)),
    ("registrations accepted", |pair| {
        differs(pair, 2, |n| n == 0) || differs(pair, 8, |n| n == 0)
    }),
    ("set-up accepted", |pair| differs(pair, 1, |n| n == 0)),
    ("settlings", |pair| differs(pair, 6, |_| true)),
    ("previews", |pair| differs(pair, PREVIEW, |_| true)),
    ("quantities behind a closing", Pair::quantities_differ),
];
