//! Sessions (docs/FORMAT.md): records whose lines name the seat that asks. What each line gets, what a
//! seat reads, and the plain record.

pub mod views;

use crate::model::auction::Auction;
use crate::model::figures::{curve, preview, settled, write, write_numbers, Telling, Told};
use crate::model::hall::{self, Hall, Reading, Seat};
use crate::model::replay::{self, kind_of, lines, read_call, reply_of, write_replies, Accepted};
use crate::{
    require, BUFFER_TOO_SHORT, FRAME_BUFFER_TOO_SHORT, MALFORMED_LINE, NOT_WRITABLE, NO_RIGHT,
};

/// The digits of a seat: two for its kind, two for the developer's number.
pub const SEAT_DIGITS: usize = 4;

/// The seat and the call of a line; none of a malformed one, which is nobody's.
pub fn read_seated(line: &[u8]) -> Option<(Seat, replay::Call)> {
    let (seat, frame) = line.split_at_checked(SEAT_DIGITS)?;
    Some((read_seat(seat)?, read_call(frame)?))
}

/// The seat that four digits name.
pub fn read_seat(digits: &[u8]) -> Option<Seat> {
    let number = |digits: &[u8]| {
        let capitals = digits
            .iter()
            .all(|digit| b"0123456789ABCDEF".contains(digit));
        let digits = capitals.then(|| String::from_utf8_lossy(digits))?;
        u8::from_str_radix(&digits, 16).ok()
    };
    match digits {
        b"0000" => Some(Seat::Auctioneer),
        b"0100" => Some(Seat::Auditor),
        [b'0', b'2', digits @ ..] => number(digits).map(Seat::Developer),
        _ => None,
    }
}

/// The call of a line as one through a seat.
pub fn through(call: &replay::Call) -> hall::Call {
    match call {
        // A settling of a record has 192 bytes of its own.
        replay::Call::Settle { limit } => hall::Call::Settle {
            limit: (*limit).into(),
            lent: 192,
        },
        call => hall::Call::Framed(call.clone()),
    }
}

/// What becomes of a line.
#[derive(Clone, Debug, PartialEq, Eq)]
pub enum Asked {
    Malformed,
    /// The seat has no right to it.
    Barred(Seat, replay::Call),
    Permitted(Seat, replay::Call),
}

pub fn asked(line: &[u8]) -> Asked {
    match read_seated(line) {
        None => Asked::Malformed,
        Some((seat, call)) if seat.may_make(&through(&call)) => Asked::Permitted(seat, call),
        Some((seat, call)) => Asked::Barred(seat, call),
    }
}

/// The kind of a line's reply and its answer, in the hall of what was permitted so far.
pub fn answer(hall: &mut Hall, asked: &Asked) -> (u8, Result<Accepted, u8>) {
    match asked {
        Asked::Malformed => (0xFF, Err(MALFORMED_LINE)),
        Asked::Barred(_, call) => (kind_of(call), Err(NO_RIGHT)),
        Asked::Permitted(_, call) => (kind_of(call), hall.ask(call)),
    }
}

/// The reply to a line, with its 0A.
pub fn reply(hall: &mut Hall, line: &[u8]) -> Vec<u8> {
    let (kind, answer) = answer(hall, &asked(line));
    reply_of(kind, &answer)
}

/// All replies to a session, run from a fresh hall.
pub fn replies(session: &[u8]) -> Vec<u8> {
    let mut hall = Hall::default();
    let lines = lines(session).into_iter();
    lines.flat_map(|line| reply(&mut hall, line)).collect()
}

/// Makes what a line asks, if it is permitted and no settling; whether it was then accepted. Settlings
/// change nothing, and many take long.
pub fn take(hall: &mut Hall, asked: &Asked) -> bool {
    match asked {
        Asked::Permitted(_, replay::Call::Settle { .. }) => false,
        Asked::Permitted(_, call) => hall.ask(call).is_ok(),
        _ => false,
    }
}

/// The hall after a session.
pub fn hall_after(session: &[u8]) -> Hall {
    let mut hall = Hall::default();
    for line in lines(session) {
        take(&mut hall, &asked(line));
    }
    hall
}

/// The plain record: the frames of all lines that are permitted, each with its 0A.
pub fn plain_record(session: &[u8]) -> Vec<u8> {
    let lines = lines(session).into_iter();
    let permitted = lines.filter(|line| matches!(asked(line), Asked::Permitted(..)));
    permitted
        .flat_map(|line| [&line[SEAT_DIGITS..], b"\n"].concat())
        .collect()
}

// ---- seats as numbers

/// The seat of this kind and number. A developer's number may be any; nobody has one beyond 32, and
/// nobody has 0.
pub fn seat_by(kind: u64, number: u64) -> Option<Seat> {
    match (kind, number) {
        (0, 0) => Some(Seat::Auctioneer),
        (1, 0) => Some(Seat::Auditor),
        (2, number) => Some(Seat::Developer(u8::try_from(number).unwrap_or(0))),
        _ => None,
    }
}

/// The kind and number of a seat.
pub fn numbers_of(seat: Seat) -> [u64; 2] {
    match seat {
        Seat::Auctioneer => [0, 0],
        Seat::Auditor => [1, 0],
        Seat::Developer(number) => [2, number.into()],
    }
}

/// The four digits of a seat that a line can name. Checks: 14.
pub fn seat_digits(kind: u64, number: u64) -> Result<Vec<u8>, u8> {
    let writable = seat_by(kind, number).is_some() && number < 256;
    require(writable, NOT_WRITABLE)?;
    Ok(format!("{kind:02X}{number:02X}").into_bytes())
}

// ---- what the calls tell

/// What the writer of a seat tells.
pub fn seat_told(kind: u64, number: u64) -> Telling {
    seat_digits(kind, number).map(written)
}

/// Bytes, and how many they are.
pub fn written(bytes: Vec<u8>) -> Told {
    Told {
        number: bytes.len() as u64,
        bytes,
        ..Told::default()
    }
}

/// What the seat reads: opening, closing, excess, phase; for a developer also the number of levels, the
/// levels, 1 where it has an offer, else 0, the number of steps, and each step's price and level.
pub fn reading(hall: &Hall, seat: Seat) -> Vec<u64> {
    let Reading {
        published,
        levels,
        offer,
    } = hall.reading(seat);
    let mut numbers = vec![
        published.opening,
        published.closing,
        published.excess.cast_unsigned(),
        published.phase.into(),
    ];
    if let Seat::Developer(_) = seat {
        numbers.push(levels.len() as u64);
        numbers.extend(levels);
        numbers.push(offer.is_some().into());
        let steps = offer.unwrap_or_default();
        numbers.push(steps.len() as u64);
        numbers.extend(steps.iter().flat_map(|step| [step.price, step.level]));
    }
    numbers
}

/// Every seat reads. Checks: 20.
pub fn read(hall: &Hall, kind: u64, number: u64) -> Telling {
    let seat = seat_by(kind, number).ok_or(NO_RIGHT)?;
    let numbers = reading(hall, seat);
    Ok(Told {
        number: numbers.len() as u64,
        numbers,
        ..Told::default()
    })
}

/// Whether the seat has the right to the call. Checks: 20, before all others.
fn entitled(kind: u64, number: u64, call: &hall::Call) -> Result<(), u8> {
    let may = seat_by(kind, number).is_some_and(|seat| seat.may_make(call));
    require(may, NO_RIGHT)
}

/// Whether it may preview, look at the curve, and ask who can force the price: "every call".
pub fn may_look(kind: u64, number: u64) -> Result<(), u8> {
    entitled(kind, number, &hall::Call::Preview)
}

pub fn may_settle(kind: u64, number: u64) -> Result<(), u8> {
    entitled(kind, number, &hall::Call::Settle { limit: 0, lent: 0 })
}

/// Who can force the price. Checks: 2, 17.
pub fn forced(auction: &Auction, first: u64, second: u64, prices: &[u64]) -> Telling {
    let forced = auction.who_can_force(first, second, prices)?;
    Ok(Told {
        number: forced.outcome,
        bytes: vec![forced.first_move.byte()],
        ..Told::default()
    })
}

// ---- the calls

pub fn write_seat(kind: u64, number: u64, bytes: &mut [u8]) -> u64 {
    write(
        &seat_told(kind, number),
        FRAME_BUFFER_TOO_SHORT,
        &mut [],
        bytes,
    )
}

pub fn session_replay(session: &[u8], buffer: &mut [u8]) -> u64 {
    write_replies(&replies(session), buffer)
}

pub fn session_record(session: &[u8], record: &mut [u8]) -> u64 {
    write_replies(&plain_record(session), record)
}

pub fn session_reading(session: &[u8], kind: u64, number: u64, numbers: &mut [u64]) -> u64 {
    write_numbers(&read(&hall_after(session), kind, number), numbers)
}

pub fn session_preview(session: &[u8], kind: u64, number: u64, figures: &mut [u64]) -> u64 {
    let may = may_look(kind, number);
    let telling = may.and_then(|()| preview(&hall_after(session).auction));
    write_numbers(&telling, figures)
}

pub fn session_curve(session: &[u8], kind: u64, number: u64, points: &mut [u64]) -> u64 {
    let may = may_look(kind, number);
    write_numbers(&may.map(|()| curve(&hall_after(session).auction)), points)
}

pub fn session_settlement(
    session: &[u8],
    kind: u64,
    number: u64,
    limit: u64,
    figures: &mut [u64],
    awards: &mut [u8],
) -> u64 {
    let may = may_settle(kind, number);
    let telling = may.and_then(|()| settled(&hall_after(session).auction, limit));
    write(&telling, BUFFER_TOO_SHORT, figures, awards)
}

pub fn session_forcing(
    session: &[u8],
    [kind, number]: [u64; 2],
    first: u64,
    second: u64,
    prices: &[u64],
    buffer: &mut [u8],
) -> u64 {
    let may = may_look(kind, number);
    let telling = may.and_then(|()| forced(&hall_after(session).auction, first, second, prices));
    write(&telling, BUFFER_TOO_SHORT, &mut [], buffer)
}
