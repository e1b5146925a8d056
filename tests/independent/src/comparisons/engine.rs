//! The engine's calls as a C host gets them, from its library `host`.
//! Only the programs under `bin/` take this module in; the library links no engine.
#![allow(dead_code, reason = "a program makes the calls that it tests")]

use independent::generators::looks::Look;
use independent::model::replay::Fields;
use independent::model::sealed::Sealed;

mod host {
    #[link(name = "host")]
    extern "C" {
        pub fn engine_version() -> u64;
        pub fn demand(ce: u64, d: u64, m1: u64, m2: u64, p: u64) -> u64;
        pub fn demand_remainder(ce: u64, d: u64, m1: u64, m2: u64, p: u64) -> u64;
        pub fn replay(
            record: *const u8,
            record_length: usize,
            replies: *mut u8,
            replies_length: usize,
        ) -> u64;
        pub fn write_set_up(
            ce: u64,
            d: u64,
            m1: u64,
            m2: u64,
            a: u64,
            frame: *mut u8,
            frame_length: usize,
        ) -> u64;
        pub fn write_registration(
            project: u64,
            developer: u64,
            kind: u64,
            study: u64,
            day: u64,
            levels: *const u64,
            levels_length: usize,
            frame: *mut u8,
            frame_length: usize,
        ) -> u64;
        pub fn write_registration_for(
            project: u64,
            developer: u64,
            kind: u64,
            agent: u64,
            study: u64,
            day: u64,
            levels: *const u64,
            levels_length: usize,
            frame: *mut u8,
            frame_length: usize,
        ) -> u64;
        pub fn write_opening(c: u64, frame: *mut u8, frame_length: usize) -> u64;
        pub fn write_offer(
            developer: u64,
            prices: *const u64,
            prices_length: usize,
            levels: *const u64,
            levels_length: usize,
            frame: *mut u8,
            frame_length: usize,
        ) -> u64;
        pub fn write_closing(frame: *mut u8, frame_length: usize) -> u64;
        pub fn write_settling(limit: u64, frame: *mut u8, frame_length: usize) -> u64;
        pub fn write_lodging(
            developer: u64,
            prices: *const u64,
            prices_length: usize,
            levels: *const u64,
            levels_length: usize,
            frame: *mut u8,
            frame_length: usize,
        ) -> u64;
        pub fn write_cancellation(developer: u64, frame: *mut u8, frame_length: usize) -> u64;
        pub fn who_can_force(
            record: *const u8,
            record_length: usize,
            first: u64,
            second: u64,
            prices: *const u64,
            prices_length: usize,
            first_move: *mut u8,
            first_move_length: usize,
        ) -> u64;
        pub fn sealed_auction(
            ceiling: u64,
            demand: u64,
            prices: *const u64,
            prices_length: usize,
            quantities: *const u64,
            quantities_length: usize,
            minimums: *const u64,
            minimums_length: usize,
            ages: *const u64,
            ages_length: usize,
            awards: *mut u64,
            awards_length: usize,
        ) -> u64;
        pub fn record_state(
            record: *const u8,
            record_length: usize,
            figures: *mut u64,
            figures_length: usize,
        ) -> u64;
        pub fn record_preview(
            record: *const u8,
            record_length: usize,
            figures: *mut u64,
            figures_length: usize,
        ) -> u64;
        pub fn record_curve(
            record: *const u8,
            record_length: usize,
            points: *mut u64,
            points_length: usize,
        ) -> u64;
        pub fn record_settlement(
            record: *const u8,
            record_length: usize,
            limit: u64,
            figures: *mut u64,
            figures_length: usize,
            awards: *mut u8,
            awards_length: usize,
        ) -> u64;
        pub fn write_seat(kind: u64, number: u64, bytes: *mut u8, bytes_length: usize) -> u64;
        pub fn session_replay(
            session: *const u8,
            session_length: usize,
            replies: *mut u8,
            replies_length: usize,
        ) -> u64;
        pub fn session_reading(
            session: *const u8,
            session_length: usize,
            seat: u64,
            number: u64,
            reading: *mut u64,
            reading_length: usize,
        ) -> u64;
        pub fn session_preview(
            session: *const u8,
            session_length: usize,
            seat: u64,
            number: u64,
            figures: *mut u64,
            figures_length: usize,
        ) -> u64;
        pub fn session_curve(
            session: *const u8,
            session_length: usize,
            seat: u64,
            number: u64,
            points: *mut u64,
            points_length: usize,
        ) -> u64;
        pub fn session_settlement(
            session: *const u8,
            session_length: usize,
            seat: u64,
            number: u64,
            limit: u64,
            figures: *mut u64,
            figures_length: usize,
            awards: *mut u8,
            awards_length: usize,
        ) -> u64;
        pub fn session_forcing(
            session: *const u8,
            session_length: usize,
            seat: u64,
            number: u64,
            first: u64,
            second: u64,
            prices: *const u64,
            prices_length: usize,
            first_move: *mut u8,
            first_move_length: usize,
        ) -> u64;
        pub fn session_record(
            session: *const u8,
            session_length: usize,
            record: *mut u8,
            record_length: usize,
        ) -> u64;
    }
}

/// The version in one number.
pub fn engine_version() -> u64 {
    // SAFETY: the call takes nothing, returns a plain number and has no preconditions.
    unsafe { host::engine_version() }
}

/// Dem, or 2^64 - 1 for refusal 1.
pub fn demand(ce: u64, d: u64, m1: u64, m2: u64, p: u64) -> u64 {
    // SAFETY: the call takes and returns plain numbers and has no preconditions.
    unsafe { host::demand(ce, d, m1, m2, p) }
}

/// The remainder of Dem, or 2^64 - 1 for refusal 1.
pub fn demand_remainder(ce: u64, d: u64, m1: u64, m2: u64, p: u64) -> u64 {
    // SAFETY: the call takes and returns plain numbers and has no preconditions.
    unsafe { host::demand_remainder(ce, d, m1, m2, p) }
}

/// The number of bytes written from the start of `replies`, or 2^64 - 11 for refusal 11.
pub fn replay(record: &[u8], replies: &mut [u8]) -> u64 {
    // SAFETY: the call reads the one slice and writes the other; an exclusive borrow keeps them
    // apart.
    unsafe {
        host::replay(
            record.as_ptr(),
            record.len(),
            replies.as_mut_ptr(),
            replies.len(),
        )
    }
}

/// The number of bytes written from the start of `frame`, or 2^64 - 13 or 2^64 - 14 for those
/// refusals: the call of the fields' kind.
pub fn write(fields: &Fields, frame: &mut [u8]) -> u64 {
    let (start, length) = (frame.as_mut_ptr(), frame.len());
    // SAFETY: the calls read the lists and write the frame; an exclusive borrow keeps them apart.
    unsafe {
        match (fields.kind, &fields.numbers[..], &fields.lists[..]) {
            (1, &[ce, d, m1, m2, a], []) => host::write_set_up(ce, d, m1, m2, a, start, length),
            (2, &[project, developer, kind, study, day], [levels]) => host::write_registration(
                project,
                developer,
                kind,
                study,
                day,
                levels.as_ptr(),
                levels.len(),
                start,
                length,
            ),
            (3, &[c], []) => host::write_opening(c, start, length),
            (4, &[developer], [prices, levels]) => host::write_offer(
                developer,
                prices.as_ptr(),
                prices.len(),
                levels.as_ptr(),
                levels.len(),
                start,
                length,
            ),
            (5, [], []) => host::write_closing(start, length),
            (6, &[limit], []) => host::write_settling(limit, start, length),
            (7, &[developer], [prices, levels]) => host::write_lodging(
                developer,
                prices.as_ptr(),
                prices.len(),
                levels.as_ptr(),
                levels.len(),
                start,
                length,
            ),
            (8, &[project, developer, kind, agent, study, day], [levels]) => {
                host::write_registration_for(
                    project,
                    developer,
                    kind,
                    agent,
                    study,
                    day,
                    levels.as_ptr(),
                    levels.len(),
                    start,
                    length,
                )
            }
            (9, &[developer], []) => host::write_cancellation(developer, start, length),
            _ => panic!("no call: {fields:?}"),
        }
    }
}

/// The outcome that can be forced, with a best first move in the first byte of `first_move`, or 2^64
/// less 2, 17 or 11 for those refusals.
pub fn who_can_force(
    record: &[u8],
    first: u64,
    second: u64,
    prices: &[u64],
    first_move: &mut [u8],
) -> u64 {
    // SAFETY: the call reads the record and the prices and writes the move; an exclusive borrow keeps
    // them apart.
    unsafe {
        host::who_can_force(
            record.as_ptr(),
            record.len(),
            first,
            second,
            prices.as_ptr(),
            prices.len(),
            first_move.as_mut_ptr(),
            first_move.len(),
        )
    }
}

/// What is left, with the awards from the start of `awards`, or 2^64 less 18, 19 or 11 for those
/// refusals.
pub fn sealed_auction(auction: &Sealed, awards: &mut [u64]) -> u64 {
    let [prices, quantities, minimums, ages] = &auction.lists;
    // SAFETY: the call reads the lists and writes the awards; an exclusive borrow keeps them apart.
    unsafe {
        host::sealed_auction(
            auction.ceiling,
            auction.demand,
            prices.as_ptr(),
            prices.len(),
            quantities.as_ptr(),
            quantities.len(),
            minimums.as_ptr(),
            minimums.len(),
            ages.as_ptr(),
            ages.len(),
            awards.as_mut_ptr(),
            awards.len(),
        )
    }
}

/// The call over a record that looks at this: 0 or the number of points, with the figures from the start
/// of `numbers` and award records from the start of `bytes`, or 2^64 less the number of a refusal.
pub fn look(record: &[u8], look: &Look, numbers: &mut [u64], bytes: &mut [u8]) -> u64 {
    let (record, length) = (record.as_ptr(), record.len());
    let (figures, count) = (numbers.as_mut_ptr(), numbers.len());
    // SAFETY: the calls read the record and write the buffers; exclusive borrows keep them apart.
    unsafe {
        match look {
            Look::State => host::record_state(record, length, figures, count),
            Look::Preview => host::record_preview(record, length, figures, count),
            Look::Curve => host::record_curve(record, length, figures, count),
            Look::Settlement { limit } => host::record_settlement(
                record,
                length,
                *limit,
                figures,
                count,
                bytes.as_mut_ptr(),
                bytes.len(),
            ),
            _ => panic!("no call over a record: {look:?}"),
        }
    }
}

/// The call over a session that looks at this through a seat, or the one that writes the seat, with what
/// it writes from the start of `numbers` and of `bytes`.
pub fn look_through(
    session: &[u8],
    [seat, number]: [u64; 2],
    look: &Look,
    numbers: &mut [u64],
    bytes: &mut [u8],
) -> u64 {
    let (session, length) = (session.as_ptr(), session.len());
    let (figures, count) = (numbers.as_mut_ptr(), numbers.len());
    let (lent, room) = (bytes.as_mut_ptr(), bytes.len());
    // SAFETY: the calls read the session and the prices and write the buffers; exclusive borrows keep
    // them apart.
    unsafe {
        match look {
            Look::Reading => host::session_reading(session, length, seat, number, figures, count),
            Look::Preview => host::session_preview(session, length, seat, number, figures, count),
            Look::Curve => host::session_curve(session, length, seat, number, figures, count),
            Look::Settlement { limit } => host::session_settlement(
                session, length, seat, number, *limit, figures, count, lent, room,
            ),
            Look::Forcing {
                first,
                second,
                prices,
            } => host::session_forcing(
                session,
                length,
                seat,
                number,
                *first,
                *second,
                prices.as_ptr(),
                prices.len(),
                lent,
                room,
            ),
            Look::Replies => host::session_replay(session, length, lent, room),
            Look::PlainRecord => host::session_record(session, length, lent, room),
            Look::Digits => host::write_seat(seat, number, lent, room),
            Look::State => panic!("no call over a session"),
        }
    }
}
