//! The figures that a C host reads of a record: those of the sample, written out; what their words imply on
//! generated records; and the order of the checks.

use super::RECORDS;
use independent::generators::sample;
use independent::model::auction::Phase;
use independent::model::figures::{
    hall_after, limited, record_curve, record_preview, record_settlement, record_state, settled,
    settlement, settling, state,
};
use independent::model::replay::{lines, replay};
use independent::{host_number, ABOVE_THE_LIMIT, BUFFER_TOO_SHORT, NOT_IN_THIS_PHASE};

const UNTOUCHED: u64 = 0xEEEE;

/// What the call returns with a buffer of so many numbers, and the buffer.
fn called(length: usize, call: impl FnOnce(&mut [u64]) -> u64) -> (u64, Vec<u64>) {
    let mut numbers = vec![UNTOUCHED; length];
    (call(&mut numbers), numbers)
}

/// The sample's first lines.
fn behind(count: usize) -> Vec<u8> {
    lines(sample::RECORD.as_bytes())[..count].join(&b'\n')
}

#[test]
fn sample_figures() {
    for stated in sample::FIGURES {
        let record = behind(stated.behind);
        let mut awards = [238; 13];
        let (number, numbers) = called(13, |numbers| match stated.look {
            "state" => record_state(&record, numbers),
            "preview" => record_preview(&record, numbers),
            "curve" => record_curve(&record, numbers),
            _ => record_settlement(&record, 100, numbers, &mut awards),
        });
        let (told, rest) = numbers.split_at(stated.figures.len());
        assert_eq!((number, told), (stated.number, stated.figures));
        assert!(rest.iter().all(|number| *number == UNTOUCHED));
        let (told, rest) = awards.split_at(stated.awards.len());
        assert_eq!(told, stated.awards);
        assert!(rest.iter().all(|byte| *byte == 238));
    }
}

#[test]
fn short_buffers() {
    let (ready, open, closed) = (behind(5), behind(9), behind(10));
    let short = host_number(Err(BUFFER_TOO_SHORT));
    let phase = host_number(Err(NOT_IN_THIS_PHASE));
    for length in 0..16 {
        let fits = |exact: usize, number: u64| if length < exact { short } else { number };
        let (number, _) = called(length, |numbers| record_state(&ready, numbers));
        assert_eq!(number, fits(5, 0));
        let (number, _) = called(length, |numbers| record_preview(&ready, numbers));
        assert_eq!(number, phase);
        let (number, _) = called(length, |numbers| record_preview(&open, numbers));
        assert_eq!(number, fits(3, 0));
        let (number, _) = called(length, |numbers| record_curve(&open, numbers));
        assert_eq!(number, 0);
        let (number, _) = called(length, |numbers| record_curve(&closed, numbers));
        assert_eq!(number, fits(3, 1));
    }
}

/// Either buffer of a settlement may be too short; 2 and 10 are tested before.
#[test]
fn settlement_buffers() {
    for (record, limit, number) in [
        (behind(9), 100, Err(NOT_IN_THIS_PHASE)),
        (behind(10), 3, Err(ABOVE_THE_LIMIT)),
        (behind(10), 4, Ok(0)),
        (behind(10), 1 << 32, Ok(0)),
        (behind(10), u64::MAX, Ok(0)),
    ] {
        for figures in [0, 11, 12, 13] {
            for awards in [0, 11, 12, 13] {
                let mut records = vec![238; awards];
                let (given, numbers) = called(figures, |numbers| {
                    record_settlement(&record, limit, numbers, &mut records)
                });
                let short = figures < 12 || awards < 12;
                let expected = number.and(if short { Err(BUFFER_TOO_SHORT) } else { Ok(0) });
                assert_eq!(given, host_number(expected));
                if expected.is_err() {
                    assert!(numbers.iter().all(|number| *number == UNTOUCHED));
                    assert!(records.iter().all(|byte| *byte == 238));
                }
            }
        }
    }
}

/// A closing's reply tells the excess and the remainder that a preview told just before.
#[test]
fn previews_are_closings() {
    let mut previews = 0;
    for record in &RECORDS[..1_000] {
        let frames = lines(record);
        let replies = replay(record);
        for (place, reply) in lines(&replies).into_iter().enumerate() {
            if !reply.starts_with(b"05") {
                continue;
            }
            let record = frames[..place].join(&b'\n');
            let (number, figures) = called(3, |numbers| record_preview(&record, numbers));
            let closing = frames[..=place].join(&b'\n');
            let told = state(&hall_after(&closing)).numbers;
            if reply.starts_with(b"0500") {
                let digits = format!("0500{:016X}{:08X}", figures[0], figures[1]);
                assert_eq!((number, digits.as_bytes()), (0, reply));
                assert_eq!([told[3], u64::from(told[0] == 4)], [figures[0], figures[2]]);
                previews += 1;
            } else {
                assert_eq!(number, host_number(Err(NOT_IN_THIS_PHASE)));
            }
        }
    }
    assert!(previews > 1_000, "{previews} previews");
}

/// A state counts the accepted closings, and a refused one leaves it.
#[test]
fn closings_are_counted() {
    for record in &RECORDS[..1_000] {
        let replies = replay(record);
        let closings = lines(&replies).into_iter();
        let accepted = closings.filter(|reply| reply.starts_with(b"0500"));
        let last = accepted.clone().last();
        let told = state(&hall_after(record)).numbers;
        assert_eq!(told[4], accepted.count() as u64);
        let excess = format!("{:016X}", told[3]);
        assert_eq!(
            excess.as_bytes(),
            last.map_or(&[b'0'; 16][..], |reply| &reply[4..20])
        );
    }
}

/// The settling that is asked once tells what settling under any limit does.
#[test]
fn settlings_asked_once() {
    let mut told = 0;
    for record in &RECORDS[..300] {
        let hall = hall_after(record);
        let auction = &hall.auction;
        let once = settling(auction);
        assert_eq!(
            once.is_ok() || *auction.phase() == Phase::Closed,
            once != Err(2)
        );
        let exact = once.as_ref().map_or(100, |answer| answer.choices);
        for limit in [0, exact - 1, exact, exact + 1, 65_537, u64::MAX] {
            let answer = limited(&once, limit).map(settlement);
            assert_eq!(answer, settled(auction, limit));
            told += u64::from(answer.is_ok());
        }
    }
    assert!(told > 500, "{told} settlements");
}
