//! What calls through seats show (document 02, request 14).

use super::features::{Feature, Kind};
use crate::generators::hall::runs::NO_DEVELOPERS;
use crate::model::hall::lines::{Event, Line, READING};
use crate::model::hall::{Call, Seat, PREVIEW, SUPPLY_POINT, WHO_CAN_FORCE};
use crate::model::replay;
use crate::NO_RIGHT;

pub const SEATS: &[Kind<Event>] = &[
    ("20 by seat and kind of call", is_20, NO_RIGHTS),
    ("20 where the auction gives", is_20, WITHOUT_RIGHTS),
    ("accepted, by kind of call", is_accepted, ACCEPTED),
    ("developers' own", is_own, OWN),
    (
        "seats of no developer",
        |event| number(event).is_some_and(|n| NO_DEVELOPERS.contains(&n)),
        OF_NO_DEVELOPER,
    ),
    ("settlings", |event| event.kind == 6, SETTLINGS),
    (
        "previews, points and games",
        |event| (PREVIEW..=WHO_CAN_FORCE).contains(&event.kind),
        LOOKS,
    ),
    ("readings", |event| event.seat().is_some(), READINGS),
];

// The kinds of seats, as a line begins.
const AUCTIONEER: u8 = 0;
const AUDITOR: u8 = 1;
const DEVELOPER: u8 = 2;

fn seat(event: &Event) -> Option<u8> {
    event.seat().map(|seat| match seat {
        Seat::Auctioneer => AUCTIONEER,
        Seat::Auditor => AUDITOR,
        Seat::Developer(_) => DEVELOPER,
    })
}

/// The number of a developer's seat.
fn number(event: &Event) -> Option<u8> {
    match event.seat() {
        Some(Seat::Developer(number)) => Some(number),
        _ => None,
    }
}

fn is_20(event: &Event) -> bool {
    event.answer.number == NO_RIGHT
}

fn is_accepted(event: &Event) -> bool {
    matches!(event.line, Line::Call(..)) && event.answer.number == 0
}

/// An offer or a cancellation of a developer through its own seat.
fn is_own(event: &Event) -> bool {
    match &event.line {
        Line::Call(Seat::Developer(number), call) => call.offering() == Some(*number),
        _ => false,
    }
}

/// Whether a call of the kind gets the number at such a seat.
fn gets<const SEAT: u8, const KIND: u8, const NUMBER: u8>(event: &Event) -> bool {
    seat(event) == Some(SEAT) && event.kind == KIND && event.answer.number == NUMBER
}

const NO_RIGHTS: &[Feature<Event>] = &[
    ("auctioneer 4", gets::<AUCTIONEER, 4, NO_RIGHT>),
    ("auctioneer 9", gets::<AUCTIONEER, 9, NO_RIGHT>),
    ("auditor 1", gets::<AUDITOR, 1, NO_RIGHT>),
    ("auditor 2", gets::<AUDITOR, 2, NO_RIGHT>),
    ("auditor 3", gets::<AUDITOR, 3, NO_RIGHT>),
    ("auditor 4", gets::<AUDITOR, 4, NO_RIGHT>),
    ("auditor 5", gets::<AUDITOR, 5, NO_RIGHT>),
    ("auditor 7", gets::<AUDITOR, 7, NO_RIGHT>),
    ("auditor 8", gets::<AUDITOR, 8, NO_RIGHT>),
    ("auditor 9", gets::<AUDITOR, 9, NO_RIGHT>),
    ("auditor 10", gets::<AUDITOR, PREVIEW, NO_RIGHT>),
    ("auditor 11", gets::<AUDITOR, SUPPLY_POINT, NO_RIGHT>),
    ("auditor 12", gets::<AUDITOR, WHO_CAN_FORCE, NO_RIGHT>),
    ("developer 1", gets::<DEVELOPER, 1, NO_RIGHT>),
    ("developer 2", gets::<DEVELOPER, 2, NO_RIGHT>),
    ("developer 3", gets::<DEVELOPER, 3, NO_RIGHT>),
    ("developer 4 for another", gets::<DEVELOPER, 4, NO_RIGHT>),
    ("developer 5", gets::<DEVELOPER, 5, NO_RIGHT>),
    ("developer 6", gets::<DEVELOPER, 6, NO_RIGHT>),
    ("developer 7", gets::<DEVELOPER, 7, NO_RIGHT>),
    ("developer 8", gets::<DEVELOPER, 8, NO_RIGHT>),
    ("developer 9 for another", gets::<DEVELOPER, 9, NO_RIGHT>),
    ("developer 10", gets::<DEVELOPER, PREVIEW, NO_RIGHT>),
    ("developer 11", gets::<DEVELOPER, SUPPLY_POINT, NO_RIGHT>),
    ("developer 12", gets::<DEVELOPER, WHO_CAN_FORCE, NO_RIGHT>),
];

/// Whether a call refused by 20 gets this number where no right is asked.
fn else_gets<const NUMBER: u8>(event: &Event) -> bool {
    event.without_rights == Some(NUMBER)
}

const WITHOUT_RIGHTS: &[Feature<Event>] = &[
    ("acceptance", else_gets::<0>),
    ("1", else_gets::<1>),
    ("2", else_gets::<2>),
    ("3", else_gets::<3>),
    ("4", else_gets::<4>),
    ("5", else_gets::<5>),
    ("6", else_gets::<6>),
    ("7", else_gets::<7>),
    ("8", else_gets::<8>),
    ("9", else_gets::<9>),
    ("10", else_gets::<10>),
    ("11", else_gets::<11>),
    ("15", else_gets::<15>),
    ("16", else_gets::<16>),
    ("17", else_gets::<17>),
];

const ACCEPTED: &[Feature<Event>] = &[
    ("auctioneer 1", gets::<AUCTIONEER, 1, 0>),
    ("auctioneer 2", gets::<AUCTIONEER, 2, 0>),
    ("auctioneer 3", gets::<AUCTIONEER, 3, 0>),
    ("auctioneer 5", gets::<AUCTIONEER, 5, 0>),
    ("auctioneer 6", gets::<AUCTIONEER, 6, 0>),
    ("auctioneer 7", gets::<AUCTIONEER, 7, 0>),
    ("auctioneer 8", gets::<AUCTIONEER, 8, 0>),
    ("auctioneer 10", gets::<AUCTIONEER, PREVIEW, 0>),
    ("auctioneer 11", gets::<AUCTIONEER, SUPPLY_POINT, 0>),
    ("auctioneer 12", gets::<AUCTIONEER, WHO_CAN_FORCE, 0>),
    ("auditor 6", gets::<AUDITOR, 6, 0>),
    ("developer 4", gets::<DEVELOPER, 4, 0>),
    ("developer 9", gets::<DEVELOPER, 9, 0>),
];

const OWN: &[Feature<Event>] = &[
    ("offers accepted of no steps", |event| {
        steps(event) == Some(0)
    }),
    ("of one", |event| steps(event) == Some(1)),
    ("of two to seven", |event| {
        steps(event).is_some_and(|steps| (2..=7).contains(&steps))
    }),
    ("of eight", |event| steps(event) == Some(8)),
    ("offers refused by 2", gets::<DEVELOPER, 4, 2>),
    ("offers 3", gets::<DEVELOPER, 4, 3>),
    ("offers 8", gets::<DEVELOPER, 4, 8>),
    ("offers 6", gets::<DEVELOPER, 4, 6>),
    ("offers 7", gets::<DEVELOPER, 4, 7>),
    ("cancellations accepted", gets::<DEVELOPER, 9, 0>),
    ("cancellations 2", gets::<DEVELOPER, 9, 2>),
    ("cancellations 3", gets::<DEVELOPER, 9, 3>),
    ("cancellations 16", gets::<DEVELOPER, 9, 16>),
];

/// The number of steps of an accepted offer.
fn steps(event: &Event) -> Option<usize> {
    match &event.line {
        Line::Call(_, Call::Framed(replay::Call::Offer { prices, .. })) => {
            (event.answer.number == 0).then_some(prices.len())
        }
        _ => None,
    }
}

/// Whether the seat of this number, which is no developer's, makes an offer for itself that gets the
/// number.
fn offer_of<const SEAT: u8, const NUMBER: u8>(event: &Event) -> bool {
    number(event) == Some(SEAT) && is_own(event) && gets::<DEVELOPER, 4, NUMBER>(event)
}

fn without_right<const SEAT: u8>(event: &Event) -> bool {
    number(event) == Some(SEAT) && is_20(event)
}

fn reads<const SEAT: u8>(event: &Event) -> bool {
    number(event) == Some(SEAT) && event.kind == READING
}

const OF_NO_DEVELOPER: &[Feature<Event>] = &[
    ("offer of 0 2", offer_of::<0, 2>),
    ("offer of 0 3", offer_of::<0, 3>),
    ("0 without a right", without_right::<0>),
    ("0 reading", reads::<0>),
    ("offer of 33 2", offer_of::<33, 2>),
    ("offer of 33 3", offer_of::<33, 3>),
    ("33 without a right", without_right::<33>),
    ("33 reading", reads::<33>),
    ("offer of 255 2", offer_of::<255, 2>),
    ("offer of 255 3", offer_of::<255, 3>),
    ("255 without a right", without_right::<255>),
    ("255 reading", reads::<255>),
];

const SETTLINGS: &[Feature<Event>] = &[
    ("auctioneer accepted", gets::<AUCTIONEER, 6, 0>),
    ("auctioneer 2", gets::<AUCTIONEER, 6, 2>),
    ("auctioneer 10", gets::<AUCTIONEER, 6, 10>),
    ("auctioneer 11", gets::<AUCTIONEER, 6, 11>),
    ("auditor accepted", gets::<AUDITOR, 6, 0>),
    ("auditor 2", gets::<AUDITOR, 6, 2>),
    ("auditor 10", gets::<AUDITOR, 6, 10>),
    ("auditor 11", gets::<AUDITOR, 6, 11>),
    ("developer 20", gets::<DEVELOPER, 6, NO_RIGHT>),
    ("where it could be accepted", |event| {
        is_20(event) && else_gets::<0>(event)
    }),
    ("accepted into an exact buffer", |event| {
        is_accepted(event) && event.answer.lent.len() as i128 == 6 * records(event)
    }),
    ("of several records", |event| {
        is_accepted(event) && records(event) > 1
    }),
    ("with an empty buffer", |event| event.answer.lent.is_empty()),
];

fn records(event: &Event) -> i128 {
    *event.answer.others.last().expect("the number of records")
}

/// Whether the number at this place behind the first of an accepted answer is such.
fn has(event: &Event, kind: u8, place: usize, such: fn(i128) -> bool) -> bool {
    is_accepted(event) && event.kind == kind && such(event.answer.others[place])
}

const LOOKS: &[Feature<Event>] = &[
    ("previews closed", |event| {
        has(event, PREVIEW, 2, |n| n == 1)
    }),
    ("not closed", |event| has(event, PREVIEW, 2, |n| n == 0)),
    ("previews 2", gets::<AUCTIONEER, PREVIEW, 2>),
    ("points of the curve", |event| {
        has(event, SUPPLY_POINT, 1, |price| price > 0)
    }),
    ("past its end", |event| {
        has(event, SUPPLY_POINT, 0, |points| points > 0)
            && has(event, SUPPLY_POINT, 1, |price| price == 0)
    }),
    ("of an empty one", |event| {
        has(event, SUPPLY_POINT, 0, |points| points == 0)
    }),
    ("games, keep", |event| {
        has(event, WHO_CAN_FORCE, 1, |n| n == 0)
    }),
    ("withdraw", |event| has(event, WHO_CAN_FORCE, 1, |n| n == 1)),
    ("games 2", gets::<AUCTIONEER, WHO_CAN_FORCE, 2>),
    ("games 17", gets::<AUCTIONEER, WHO_CAN_FORCE, 17>),
];

fn in_phase<const SEAT: u8, const PHASE: u8>(event: &Event) -> bool {
    seat(event) == Some(SEAT) && event.reading.published.phase == PHASE
}

const CLOSED_ROUND: [u8; 2] = [3, 4];

/// Whether a round was closed last, and its excess is such.
fn excess(event: &Event, such: fn(i64) -> bool) -> bool {
    let published = event.reading.published;
    CLOSED_ROUND.contains(&published.phase) && such(published.excess)
}

const READINGS: &[Feature<Event>] = &[
    ("auctioneer fresh", in_phase::<AUCTIONEER, 0>),
    ("auctioneer ready", in_phase::<AUCTIONEER, 1>),
    ("auctioneer round open", in_phase::<AUCTIONEER, 2>),
    ("auctioneer between rounds", in_phase::<AUCTIONEER, 3>),
    ("auctioneer closed", in_phase::<AUCTIONEER, 4>),
    ("auditor fresh", in_phase::<AUDITOR, 0>),
    ("auditor ready", in_phase::<AUDITOR, 1>),
    ("auditor round open", in_phase::<AUDITOR, 2>),
    ("auditor between rounds", in_phase::<AUDITOR, 3>),
    ("auditor closed", in_phase::<AUDITOR, 4>),
    ("developer fresh", in_phase::<DEVELOPER, 0>),
    ("developer ready", in_phase::<DEVELOPER, 1>),
    ("developer round open", in_phase::<DEVELOPER, 2>),
    ("developer between rounds", in_phase::<DEVELOPER, 3>),
    ("developer closed", in_phase::<DEVELOPER, 4>),
    ("excess below 0", |event| excess(event, |excess| excess < 0)),
    ("excess 0", |event| excess(event, |excess| excess == 0)),
    ("excess above 0", |event| excess(event, |excess| excess > 0)),
    ("excess in a later round", |event| {
        event.reading.published.phase == 2 && event.reading.published.excess != 0
    }),
    ("unregistered", |event| {
        number(event).is_some() && event.reading.levels.is_empty()
    }),
    ("registered", is_registered),
    ("eight levels", |event| event.reading.levels.len() == 8),
    ("no offer in an open round", |event| {
        is_registered(event) && in_phase::<DEVELOPER, 2>(event) && event.reading.offer.is_none()
    }),
    ("offer of no steps", |event| {
        offers(event, |steps| steps == 0)
    }),
    ("offer of steps", |event| offers(event, |steps| steps > 0)),
    ("offer of eight", |event| offers(event, |steps| steps == 8)),
];

fn is_registered(event: &Event) -> bool {
    !event.reading.levels.is_empty()
}

fn offers(event: &Event, such: fn(usize) -> bool) -> bool {
    let offer = event.reading.offer.as_ref();
    offer.is_some_and(|steps| such(steps.len()))
}
