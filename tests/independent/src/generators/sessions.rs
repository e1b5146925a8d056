//! Sessions (docs/FORMAT.md), from a seed: the lines of a generated record, each through a seat that may
//! ask it, now and then all through seats that may not, and between them lines of such seats, of no seats,
//! and of damaged frames.

pub mod pairs;

use crate::generators::hall::runs::NO_DEVELOPERS;
use crate::generators::random::Random;
use crate::generators::records::{damage, late_record, record};
use crate::model::hall::Seat;
use crate::model::replay::{lines, read_call, write_call, Call};
use crate::model::sessions::{numbers_of, seat_digits, through};

/// The session of a seed.
pub fn session(seed: u64) -> Vec<u8> {
    let mut random = Random::new(seed.rotate_left(32));
    let random = &mut random;
    let record = if seed.is_multiple_of(3) {
        late_record(seed)
    } else {
        record(seed)
    };
    let disturbed = random.one_of(&[0, 10, 20, 30, 50]);
    let barring = random.chance(3);
    let mut session = Vec::new();
    for frame in lines(&record) {
        while random.chance(disturbed) {
            add(&mut session, &disturbance(random, frame));
        }
        if barring {
            add(&mut session, &barred(random, frame));
        } else {
            add(&mut session, &seated(random, frame));
        }
    }
    while !barring && random.chance(50) {
        add(&mut session, &behind(random, &record));
    }
    if random.chance(4) {
        damage::record(random, &mut session);
    }
    match random.between(1, 10) {
        1..=3 => drop(session.pop()),
        4 => session.push(b'\n'),
        _ => (),
    }
    session
}

fn add(session: &mut Vec<u8>, line: &[u8]) {
    session.extend_from_slice(line);
    session.push(b'\n');
}

/// The frame behind the digits of a seat.
pub fn line(seat: Seat, frame: &[u8]) -> Vec<u8> {
    let [kind, number] = numbers_of(seat);
    let digits = seat_digits(kind, number).expect("a seat that a line can name");
    [&digits, frame].concat()
}

/// Through a seat that may ask it; a malformed one through any.
fn seated(random: &mut Random, frame: &[u8]) -> Vec<u8> {
    let seat = match read_call(frame) {
        Some(call) => entitled(random, &call),
        None => any_seat(random),
    };
    line(seat, frame)
}

/// The lines of a record, each through a seat that may ask it.
pub fn through_seats(record: &[u8]) -> Vec<u8> {
    let mut random = Random::new(0);
    let mut session = Vec::new();
    for frame in lines(record) {
        add(&mut session, &seated(&mut random, frame));
    }
    session
}

/// A seat that may make the call.
fn entitled(random: &mut Random, call: &Call) -> Seat {
    match call {
        Call::Offer { developer, .. } | Call::Cancel { developer } => Seat::Developer(*developer),
        Call::Settle { .. } => random.one_of(&[Seat::Auctioneer, Seat::Auditor]),
        _ => Seat::Auctioneer,
    }
}

fn any_seat(random: &mut Random) -> Seat {
    let any = random.between(1, 32) as u8;
    let none = random.one_of(&NO_DEVELOPERS);
    let developer = Seat::Developer(random.one_of(&[any, any, none]));
    random.one_of(&[Seat::Auctioneer, Seat::Auditor, developer, developer])
}

/// A line before that of a frame, which changes nothing most often.
fn disturbance(random: &mut Random, frame: &[u8]) -> Vec<u8> {
    match random.between(1, 12) {
        1..=6 => barred(random, frame),
        7..=8 => of_no_seat(random, frame),
        9 => {
            let frame = damage::line(random, frame_or_closing(frame));
            line(any_seat(random), &frame)
        }
        10 => {
            let whole = line(any_seat(random), frame_or_closing(frame));
            damage::line(random, &whole)
        }
        11 => of_nobody(random),
        _ => settling(random),
    }
}

/// Damage needs something that it can cut.
fn frame_or_closing(frame: &[u8]) -> &[u8] {
    if frame.len() < 2 {
        b"05"
    } else {
        frame
    }
}

/// Through a seat that may not ask it, if it asks anything.
fn barred(random: &mut Random, frame: &[u8]) -> Vec<u8> {
    let asked = read_call(frame).map(|call| through(&call));
    let seat = (0..20).map(|_| any_seat(random)).find(|seat| {
        let may = asked.as_ref().map(|call| seat.may_make(call));
        may != Some(true)
    });
    line(seat.unwrap_or(Seat::Auditor), frame)
}

/// Four characters that name no seat, the last of them often a developer's number.
const NO_SEATS: [&[u8]; 18] = [
    b"0001",
    b"0020",
    b"00FF",
    b"0101",
    b"0102",
    b"01FF",
    b"0300",
    b"0302",
    b"1000",
    b"2000",
    b"FF00",
    b"0A00",
    b"02a0",
    b"020g",
    b"02 1",
    b"0 00",
    b"\x0000\0",
    b"02\xFF1",
];

fn of_no_seat(random: &mut Random, frame: &[u8]) -> Vec<u8> {
    let digits = random.one_of(&NO_SEATS);
    let digits = match random.between(1, 10) {
        // A record's line, whose kind and next digits are then read as the seat.
        1 => b"",
        2 => &digits[..random.index(4)],
        _ => digits,
    };
    [digits, frame].concat()
}

/// An offer or a cancellation of one who is no developer, for itself.
fn of_nobody(random: &mut Random) -> Vec<u8> {
    let developer = random.one_of(&NO_DEVELOPERS);
    let (prices, levels) = (Vec::new(), Vec::new());
    let offer = Call::Offer {
        developer,
        prices,
        levels,
    };
    let cancel = Call::Cancel { developer };
    let call = random.one_of(&[&offer, &cancel]);
    line(Seat::Developer(developer), &write_call(call))
}

fn settling(random: &mut Random) -> Vec<u8> {
    let limit = random.one_of(&[0, 1, 1, 100, 65_536, u32::MAX]);
    line(any_seat(random), &write_call(&Call::Settle { limit }))
}

/// A line behind the record's: often a settling, or a line of the record again.
fn behind(random: &mut Random, record: &[u8]) -> Vec<u8> {
    let frames = lines(record);
    if frames.is_empty() || random.chance(60) {
        return settling(random);
    }
    let frame = random.one_of(&frames);
    seated(random, frame)
}
