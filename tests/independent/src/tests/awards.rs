//! What document 01's rules imply for settlings, on those of generated records.

use super::{choices, each_step, RECORDS, SETTLINGS};
use independent::generators::cutting::{refused, without};
use independent::model::auction::{Auction, Developer};
use independent::model::replay::replay;
use independent::model::settling::{Award, Settlement};
use std::cmp::Reverse;

fn each_settling(mut visit: impl FnMut(&Auction, &Settlement)) {
    for (auction, settlement) in &*SETTLINGS {
        visit(auction, settlement);
    }
}

/// The same, up to so many choices that all can be listed at once.
fn each_short_settling(mut visit: impl FnMut(&Auction, &Settlement)) {
    each_settling(|auction, settlement| {
        if settlement.choices <= 4_096 {
            visit(auction, settlement);
        }
    });
}

/// High at p is low at p + 1: prices are whole.
#[test]
fn highs_are_lows_above() {
    each_settling(|auction, settlement| {
        let p = settlement.price;
        for developer in auction.developers().values() {
            for p in [p.saturating_sub(1), p, p + 1] {
                assert_eq!(developer.high(p), developer.low(p + 1));
                assert!(developer.low(p) <= developer.high(p));
            }
        }
    });
}

/// The longest range of prices that is walked.
const LONGEST_WALK: u64 = 3_000;

/// Bisection finds what the walk over all prices finds, and the covered prices are those from
/// there on: all where the range is small, else at and around each withdrawal.
#[test]
fn closing_price_is_the_walk() {
    let mut walked = 0;
    each_settling(|auction, settlement| {
        let p = settlement.price;
        let last_c = auction.last_c().expect("a closed round");
        let passed = last_c..=auction.settings().a;
        let covered_from_p = |price: u64| auction.covered(price) == (price >= p);
        assert!(auction.covered(p) && (p == last_c || !auction.covered(p - 1)));
        if passed.end() - last_c <= LONGEST_WALK {
            walked += 1;
            assert_eq!(auction.closing_price_by_walk(), p);
            assert!(passed.clone().all(covered_from_p));
        }
        let developers = auction.developers().values();
        developers
            .flat_map(|developer| &developer.withdrawals)
            .flat_map(|withdrawal| [withdrawal.price - 1, withdrawal.price, withdrawal.price + 1])
            .filter(|price| passed.contains(price))
            .for_each(|price| assert!(covered_from_p(price), "{price}"));
    });
    assert!(walked > 1_000, "{walked} walks");
}

/// Where the lows cover at the last C, it is the closing price: also where the last excess was
/// from 1 to 999 (document 02, request 1).
#[test]
fn closing_price_after_an_excess() {
    let mut from_1_to_999 = 0;
    each_settling(|auction, settlement| {
        let last_c = auction.last_c().expect("a closed round");
        let demand = auction.settings().demand(last_c);
        if auction.supply() >= demand {
            assert_eq!(settlement.price, last_c);
            assert_eq!(settlement.covering, settlement.choices);
            let excess = auction.supply() - demand;
            from_1_to_999 += u64::from((1..=999).contains(&excess));
        }
    });
    assert!(from_1_to_999 > 100, "{from_1_to_999} settlings");
}

/// The award as a list of levels by rising project.
fn awarded_levels(auction: &Auction, settlement: &Settlement) -> Vec<u64> {
    let level = |project: &u8| {
        let award = settlement.awards.iter().find(|a| a.project == *project);
        award.map_or(0, |award| award.quantity)
    };
    auction.projects().keys().map(level).collect()
}

/// Against a list of all choices: both counts, and the award is among them, covers, is least,
/// and stands first among those of its total.
#[test]
fn award_among_all_choices() {
    each_short_settling(|auction, settlement| {
        let choices = choices(auction, settlement.price);
        let total = |choice: &Vec<u64>| choice.iter().sum::<u64>();
        let covers = |choice: &&Vec<u64>| total(choice) >= settlement.demand;
        let covering: Vec<&Vec<u64>> = choices.iter().filter(covers).collect();
        assert_eq!(settlement.choices, choices.len() as u64);
        assert_eq!(settlement.covering, covering.len() as u64);
        let award = awarded_levels(auction, settlement);
        assert!(covering.contains(&&award));
        assert_eq!(settlement.total, total(&award));
        let (settings, p) = (auction.settings(), settlement.price);
        assert_eq!(settlement.demand, settings.demand(p));
        assert_eq!(settlement.remainder, settings.remainder(p));
        for other in covering {
            assert!(total(other) >= settlement.total);
            if total(other) == settlement.total && *other != award {
                let place = (0..award.len()).find(|&place| other[place] != award[place]);
                let place = place.expect("they differ");
                assert!(award[place] > other[place]);
            }
        }
    });
}

/// Each level that a developer of the project knows is open or not by the definition; the
/// project's low is the least open one, its high the greatest.
#[test]
fn open_levels_by_definition() {
    each_settling(|auction, settlement| {
        let p = settlement.price;
        let open = auction.open_levels(p);
        for (project, developers) in auction.projects() {
            let open = &open[&project];
            let low = developers.iter().map(|d| d.low(p)).max();
            let high = developers.iter().map(|d| d.high(p)).max();
            assert_eq!((open.first(), open.last()), (low.as_ref(), high.as_ref()));
            for level in developers.iter().flat_map(|d| d.levels_and_0()) {
                let to_some = developers.iter().any(|d| {
                    let known = level == 0 || d.levels.contains(&level);
                    known && d.low(p) <= level && level <= d.high(p)
                });
                assert_eq!(open.contains(&level), to_some && Some(level) >= low);
            }
        }
    });
}

/// Awards by rising project, each to the first of the developers to whom the level is open.
#[test]
fn awarded_developers() {
    each_settling(|auction, settlement| {
        let p = settlement.price;
        let awards = &settlement.awards;
        assert!(awards.is_sorted_by(|before, after| before.project < after.project));
        for &Award {
            project,
            developer,
            quantity,
        } in awards
        {
            let awarded = &auction.developers()[&developer];
            let rank = |d: &Developer| (Reverse(d.study), d.day, d.number);
            assert!(quantity > 0 && awarded.project == project);
            assert!(awarded.levels.contains(&quantity));
            assert!((awarded.low(p)..=awarded.high(p)).contains(&quantity));
            for other in &auction.projects()[&project] {
                let range = other.low(p)..=other.high(p);
                let open = other.levels.contains(&quantity) && range.contains(&quantity);
                assert!(!open || rank(awarded) <= rank(other));
            }
        }
    });
}

/// The limit decides acceptance and nothing else; the buffer needs 6 bytes an award.
#[test]
fn limits_and_buffers() {
    each_short_settling(|auction, settlement| {
        let mut buffer = [0xEE; 200];
        let exact = 6 * settlement.awards.len();
        let settled = auction.settle(settlement.choices, &mut buffer[..exact]);
        assert_eq!(settled.as_ref(), Ok(settlement));
        let records: Vec<u8> = settlement.awards.iter().flat_map(Award::record).collect();
        assert_eq!(buffer[..exact], records);
        let mut untouched = [0xEE; 192];
        let below = auction.settle(settlement.choices - 1, &mut untouched);
        assert_eq!(below, Err(10));
        let short = auction.settle(u64::MAX, &mut untouched[..exact - 1]);
        assert_eq!(short, Err(11));
        assert_eq!(untouched, [0xEE; 192]);
    });
}

/// Without the refused calls the auction is equal, and each accepted settling gives the same answer
/// and the same whole buffer (document 02, request 8).
#[test]
fn determined_by_accepted_calls() {
    let mut settled = 0;
    for record in &RECORDS[..2_000] {
        let replies = replay(record);
        let places = refused(&replies);
        let accepted = without(record, &places);
        assert_eq!(replay(&accepted), without(&replies, &places));
        let (whole, rest) = (each_step(record, |_| ()), each_step(&accepted, |_| ()));
        assert!(whole == rest);
        let settles = |auction: &Auction| {
            let mut buffer: Vec<u8> = (0..200).collect();
            let answer = auction.settle(u64::MAX, &mut buffer);
            (answer, buffer)
        };
        let (answer, buffer) = settles(&whole);
        settled += u64::from(answer.is_ok() && !places.is_empty());
        assert_eq!(settles(&rest), (answer, buffer));
    }
    assert!(settled >= 1_000, "{settled} settled");
}

/// The buffer after an accepted settling: the records by rising project number, then the old bytes.
#[test]
fn records_by_rising_project() {
    each_settling(|auction, settlement| {
        let old: Vec<u8> = (0..200).map(|place| 0xC0 ^ place).collect();
        let mut buffer = old.clone();
        assert_eq!(auction.settle(65_536, &mut buffer).as_ref(), Ok(settlement));
        let (records, behind) = buffer.split_at(6 * settlement.awards.len());
        assert_eq!(*behind, old[records.len()..]);
        let projects: Vec<u8> = records.chunks(6).map(|record| record[0]).collect();
        assert!(projects.is_sorted_by(|before, after| before < after));
        let awarded = settlement.awards.iter().map(|award| award.project);
        assert!(awarded.eq(projects));
    });
}
