//! Sessions: the one of docs/FORMAT.md, written out; lines of no seat; what the words imply on generated
//! sessions and pairs of one view.

use independent::generators::sample::{SESSION, SESSION_RECORD, SESSION_REPLIES};
use independent::generators::sessions::pairs::pair;
use independent::generators::sessions::session;
use independent::model::figures::record_state;
use independent::model::hall::Seat;
use independent::model::replay::{lines, replay};
use independent::model::sessions::views::{view, Shown};
use independent::model::sessions::{
    asked, hall_after, plain_record, read_seat, reading, replies, seat_digits, session_curve,
    session_forcing, session_preview, session_reading, session_record, session_replay,
    session_settlement, write_seat, Asked,
};
use independent::{
    host_number, BUFFER_TOO_SHORT, FRAME_BUFFER_TOO_SHORT, NOT_IN_THIS_PHASE, NOT_WRITABLE,
    NO_RIGHT,
};

fn refusal(number: u8) -> u64 {
    host_number(Err(number))
}

/// The stated session's first lines.
fn behind(count: usize) -> Vec<u8> {
    lines(SESSION.as_bytes())[..count].join(&b'\n')
}

#[test]
fn stated_session() {
    let session = SESSION.as_bytes();
    assert_eq!(replies(session), SESSION_REPLIES.as_bytes());
    assert_eq!(plain_record(session), SESSION_RECORD.as_bytes());
    let mut lent = [238; 400];
    let written = session_replay(session, &mut lent);
    assert_eq!(written, SESSION_REPLIES.len() as u64);
    assert!(lent[SESSION_REPLIES.len()..]
        .iter()
        .all(|byte| *byte == 238));
    assert_eq!(
        session_replay(session, &mut [0; 20]),
        refusal(BUFFER_TOO_SHORT)
    );
    assert_eq!(
        session_record(session, &mut [0; 20]),
        refusal(BUFFER_TOO_SHORT)
    );
}

/// "Behind the ninth line developer 2 reads 40000, 25000, 0, 2, 2 levels 100 and 200, and its offer: 1, 1
/// step, 26000, 100."
#[test]
fn stated_reading() {
    let hall = hall_after(&behind(9));
    let published = [40_000, 25_000, 0, 2];
    let read = |seat| reading(&hall, seat);
    let own = [2, 100, 200, 1, 1, 26_000, 100];
    assert_eq!(read(Seat::Developer(2)), [&published[..], &own].concat());
    assert_eq!(read(Seat::Auctioneer), published);
    assert_eq!(read(Seat::Auditor), published);
    assert_eq!(
        read(Seat::Developer(1)),
        [&published[..], &[1, 820, 0, 0]].concat()
    );
    assert_eq!(
        read(Seat::Developer(3)),
        [&published[..], &[0, 0, 0]].concat()
    );
    let mut numbers = [7; 12];
    let session = behind(9);
    for (seat, number, expected) in [
        (0, 0, 4),
        (1, 0, 4),
        (2, 2, 11),
        (2, 1, 8),
        (2, 0, 7),
        (2, 33, 7),
        (2, 258, 7),
        (2, u64::MAX, 7),
        (0, 1, refusal(NO_RIGHT)),
        (1, 2, refusal(NO_RIGHT)),
        (3, 0, refusal(NO_RIGHT)),
        (258, 2, refusal(NO_RIGHT)),
    ] {
        assert_eq!(
            session_reading(&session, seat, number, &mut numbers),
            expected
        );
        let empty = session_reading(&session, seat, number, &mut []);
        let short = if expected == refusal(NO_RIGHT) {
            expected
        } else {
            refusal(BUFFER_TOO_SHORT)
        };
        assert_eq!(empty, short);
    }
    assert_eq!(numbers[11], 7);
    assert_eq!(
        session_reading(&session, 2, 2, &mut [0; 10]),
        refusal(BUFFER_TOO_SHORT)
    );
}

/// 20 is tested before every other check, and 11 last.
#[test]
fn rights() {
    let open = behind(9);
    let (no_right, short) = (refusal(NO_RIGHT), refusal(BUFFER_TOO_SHORT));
    let phase = refusal(NOT_IN_THIS_PHASE);
    for (seat, number) in [(1, 0), (2, 2), (2, 0), (0, 2), (3, 0)] {
        assert_eq!(session_preview(&open, seat, number, &mut []), no_right);
        assert_eq!(session_curve(&open, seat, number, &mut []), no_right);
        let forcing = session_forcing(&open, [seat, number], 2, 3, &[], &mut []);
        assert_eq!(forcing, no_right);
    }
    for (seat, number) in [(2, 2), (1, 1), (0, 2), (3, 0)] {
        let answer = session_settlement(&open, seat, number, 0, &mut [], &mut []);
        assert_eq!(answer, no_right);
    }
    assert_eq!(session_preview(&open, 0, 0, &mut []), short);
    assert_eq!(session_preview(&open, 0, 0, &mut [0; 3]), 0);
    assert_eq!(session_preview(b"", 0, 0, &mut []), phase);
    assert_eq!(session_curve(&open, 0, 0, &mut []), 0);
    assert_eq!(session_forcing(&open, [0, 0], 2, 3, &[], &mut []), phase);
    let closed = SESSION.as_bytes();
    for seat in [0, 1] {
        let settle = |limit, figures: &mut [u64], awards: &mut [u8]| {
            session_settlement(closed, seat, 0, limit, figures, awards)
        };
        assert_eq!(settle(1, &mut [], &mut []), refusal(10));
        assert_eq!(settle(2, &mut [0; 11], &mut [0; 12]), short);
        assert_eq!(settle(2, &mut [0; 12], &mut [0; 11]), short);
        assert_eq!(settle(2, &mut [0; 12], &mut [0; 12]), 0);
    }
    assert_eq!(session_curve(closed, 0, 0, &mut [0; 3]), 1);
}

#[test]
fn seats_of_lines() {
    for (digits, seat) in [
        ("0000", Some(Seat::Auctioneer)),
        ("0100", Some(Seat::Auditor)),
        ("0200", Some(Seat::Developer(0))),
        ("0201", Some(Seat::Developer(1))),
        ("02FF", Some(Seat::Developer(255))),
        ("0001", None),
        ("0101", None),
        ("0300", None),
        ("02fF", None),
        ("02+1", None),
        ("02 1", None),
        ("0G00", None),
        ("A000", None),
    ] {
        assert_eq!(read_seat(digits.as_bytes()), seat, "{digits}");
    }
    let long = |characters: usize| [&b"0000"[..], &vec![b'0'; characters - 4]].concat();
    for line in [
        &b"05"[..],
        b"000",
        b"0000",
        b"00000",
        b"",
        &long(164),
        &long(165),
    ] {
        assert_eq!(asked(line), Asked::Malformed);
    }
}

#[test]
fn seats_written() {
    for (kind, number, digits) in [
        (0, 0, Ok("0000")),
        (1, 0, Ok("0100")),
        (2, 0, Ok("0200")),
        (2, 32, Ok("0220")),
        (2, 255, Ok("02FF")),
        (2, 256, Err(NOT_WRITABLE)),
        (0, 1, Err(NOT_WRITABLE)),
        (1, 255, Err(NOT_WRITABLE)),
        (3, 0, Err(NOT_WRITABLE)),
        (256, 0, Err(NOT_WRITABLE)),
        (u64::MAX, u64::MAX, Err(NOT_WRITABLE)),
    ] {
        let stated = digits.map(|digits| digits.as_bytes().to_vec());
        assert_eq!(seat_digits(kind, number), stated);
        for length in 0..6 {
            let mut lent = vec![238; length];
            let number = write_seat(kind, number, &mut lent);
            let short = digits.and(Err(FRAME_BUFFER_TOO_SHORT));
            let expected = if length < 4 { short } else { digits.map(|_| 4) };
            assert_eq!(number, host_number(expected));
            let written = expected.map_or(0, |count| count as usize);
            assert_eq!(
                &lent[..written],
                &digits.unwrap_or("").as_bytes()[..written]
            );
            assert!(lent[written..].iter().all(|byte| *byte == 238));
        }
    }
}

/// The plain record, replayed, gives the replies to the permitted lines; its state is the session's.
#[test]
fn plain_records() {
    for seed in 0..1_000 {
        let session = session(seed);
        let record = plain_record(&session);
        let given = replies(&session);
        let both = std::iter::zip(lines(&session), lines(&given));
        let permitted = both.filter(|(line, _)| matches!(asked(line), Asked::Permitted(..)));
        let permitted: Vec<u8> = permitted
            .flat_map(|(_, reply)| [reply, b"\n"].concat())
            .collect();
        assert_eq!(replay(&record), permitted);
        let mut state = [0; 5];
        assert_eq!(record_state(&record, &mut state), 0);
        let published = reading(&hall_after(&session), Seat::Auditor);
        assert_eq!(published, [state[1], state[2], state[3], state[0]]);
    }
}

/// What a pair of one view gives the developer, line by line, is the same; others are not shown.
#[test]
fn one_view() {
    let mut pairs = 0;
    for pair in (0..100).filter_map(pair) {
        pairs += 1;
        let own = Seat::Developer(pair.developer);
        let given = pair.sessions.each_ref().map(|seen| {
            assert_eq!(
                view(pair.developer, &seen.session),
                seen.view().cloned().collect::<Vec<_>>()
            );
            let replies = replies(&seen.session);
            let frames = lines(&seen.session);
            let mut given = Vec::new();
            let mut last = reading(&hall_after(b""), own);
            for (place, reply) in lines(&replies).into_iter().enumerate() {
                let reading = reading(&hall_after(&frames[..=place].join(&b'\n')), own);
                match &seen.shown[place] {
                    Some(Shown::Own(_)) => given.push((reply.to_vec(), reading.clone())),
                    Some(_) => given.push((Vec::new(), reading.clone())),
                    None => assert_eq!(reading, last),
                }
                last = reading;
            }
            given
        });
        assert_eq!(given[0], given[1]);
    }
    assert!(pairs > 90, "{pairs} pairs");
}
