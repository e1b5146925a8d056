//! Cancellations (document 02, request 7) by calls, and records cut of cancelled offers.

use super::{close, each_step, sample_closed, sample_opened, sample_registered, RECORDS};
use independent::generators::cutting::{cancelled, without};
use independent::generators::records::fixed;
use independent::generators::sample::{CANCELLED, RECORD, REPLY};
use independent::model::auction::{Auction, EXISTING};
use independent::model::replay::{lines, read_call, replay, Call};

#[test]
fn while_a_round_is_open() {
    for mut auction in [Auction::new(), sample_registered(), sample_closed()] {
        for developer in [2, 0, 33, 1, 5] {
            assert_eq!(auction.cancel(developer), Err(2));
        }
    }
    let mut auction = sample_registered();
    assert_eq!(auction.register(9, 9, EXISTING, 0, 0, &[3_000]), Ok(()));
    assert_eq!(auction.open(30_000), Ok(()));
    assert_eq!(auction.offer(2, &[30_000], &[100]), Ok(()));
    assert!(close(&mut auction).is_ok_and(|excess| excess > 1_000));
    assert_eq!(auction.cancel(2), Err(2));
    // In the next round it no longer stands, and stays applied.
    assert_eq!(auction.open(25_000), Ok(()));
    assert_eq!(auction.cancel(2), Err(16));
    assert_eq!(auction.developers()[&2].quantity, 100);
}

/// 3 as for an offer, before 16.
#[test]
fn by_whom() {
    let mut auction = sample_opened();
    for developer in [0, 1, 5, 32, 33, 34, 255] {
        assert_eq!(auction.cancel(developer), Err(3));
        assert_eq!(auction.offer(developer, &[], &[]), Err(3));
    }
    for developer in [2, 3, 4] {
        assert_eq!(auction.cancel(developer), Err(16));
    }
    assert_eq!(auction.offer(2, &[24_999], &[100]), Err(6));
    assert_eq!(auction.cancel(2), Err(16));
    assert_eq!(auction.offer(2, &[26_000], &[100]), Ok(()));
    assert_eq!(auction.cancel(3), Err(16));
    assert_eq!(auction.cancel(34), Err(3));
    assert_eq!(auction.cancel(2), Ok(()));
    assert_eq!(auction.cancel(2), Err(16));
}

/// As if never made, with a second offer between, which stays refused, and calls of others.
#[test]
fn equal_auctions() {
    for (prices, levels) in [
        (&[][..], &[][..]),
        (&[26_000], &[100]),
        (&[30_000, 26_000], &[100, 0]),
    ] {
        let (mut auction, mut other) = (sample_opened(), sample_opened());
        assert_eq!(auction.offer(2, prices, levels), Ok(()));
        assert_eq!(auction.offer(2, &[26_000], &[100]), Err(8));
        for auction in [&mut auction, &mut other] {
            assert_eq!(auction.offer(3, &[26_000], &[0]), Ok(()));
            assert_eq!(auction.offer(3, &[], &[]), Err(8));
            assert_eq!(auction.offer(4, &[26_000], &[1]), Err(7));
        }
        assert_eq!(auction.cancel(2), Ok(()));
        assert_eq!(auction, other);
        for auction in [&mut auction, &mut other] {
            assert_eq!(auction.cancel(2), Err(16));
            assert_eq!(auction.offer(2, &[26_000], &[100]), Ok(()));
        }
        assert_eq!(auction, other);
    }
}

/// A missing offer, then: 2 withdraws to 0 at A.
#[test]
fn missing_then() {
    let mut auction = sample_opened();
    for developer in [2, 3, 4] {
        assert_eq!(auction.offer(developer, &[], &[]), Ok(()));
    }
    assert_eq!(auction.cancel(2), Ok(()));
    assert_eq!(auction.cancel(3), Ok(()));
    assert_eq!(auction.offer(3, &[], &[]), Ok(()));
    assert_eq!(close(&mut auction), Ok(820 + 200 + 150 - 975));
    let withdrawals = &auction.developers()[&2].withdrawals;
    assert_eq!(withdrawals.len(), 1);
    assert_eq!((withdrawals[0].price, withdrawals[0].level), (40_000, 0));
    assert!(auction.developers()[&3].withdrawals.is_empty());
}

/// What is cut of the sample with cancellations: the two offers that are cancelled and what the
/// developer does between; the calls before them stay.
#[test]
fn cut_of_the_sample() {
    let [(record, reply), (missing, _)] = CANCELLED;
    let places = cancelled(record.as_bytes());
    assert!(places.iter().eq(&[8, 10, 11, 13, 18]));
    let record = without(record.as_bytes(), &places);
    let reply = without(reply.as_bytes(), &places);
    assert_eq!(replay(&record), reply);
    let accepted: Vec<u8> = lines(&record)
        .into_iter()
        .zip(lines(&reply))
        .filter(|(_, reply)| reply[2..4] == *b"00")
        .flat_map(|(line, _)| [line, b"\n"].concat())
        .collect();
    let mut offers_swapped: Vec<&str> = RECORD.lines().collect();
    offers_swapped.swap(6, 7);
    assert_eq!(accepted, (offers_swapped.join("\n") + "\n").as_bytes());
    assert_eq!(replay(&accepted), REPLY.as_bytes());
    assert!(cancelled(missing.as_bytes()).iter().eq(&[6, 7, 9, 10]));
}

/// On generated records and the fixed ones: without the cancelled offers and what their developers
/// called between, each line has the same reply, and the auction is equal.
#[test]
fn cut_records() {
    let fixed = fixed::groups().into_iter().flat_map(|(_, records)| records);
    let fixed: Vec<Vec<u8>> = fixed.collect();
    let (mut cut, mut lines_cut) = (0, 0);
    for record in RECORDS[..3_000].iter().chain(&fixed) {
        let places = cancelled(record);
        if places.is_empty() {
            continue;
        }
        let rest = without(record, &places);
        assert_eq!(replay(&rest), without(&replay(record), &places));
        let (whole, rest) = (each_step(record, |_| ()), each_step(&rest, |_| ()));
        assert!(whole == rest);
        (cut, lines_cut) = (cut + 1, lines_cut + places.len());
    }
    println!("{cut} records, {lines_cut} lines cut");
    assert!(cut > 1_000 && lines_cut > 5_000, "{cut}, {lines_cut}");
}

/// No accepted cancellation is left in a record that is cut.
#[test]
fn none_is_left() {
    for record in &RECORDS[..1_000] {
        let rest = without(record, &cancelled(record));
        let replies = replay(&rest);
        for (line, reply) in lines(&rest).into_iter().zip(lines(&replies)) {
            let cancels = matches!(read_call(line), Some(Call::Cancel { .. }));
            assert!(!cancels || reply != b"0900");
        }
        assert!(cancelled(&rest).is_empty());
    }
}
