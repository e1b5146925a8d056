//! The search of document 02's request 3: beside a list of all choices in its order, at small
//! books that are written out, and beside searches that are wrong in one thing.

use super::{sample_closed, SETTLINGS};
use independent::generators::records::{easy_book, hard_book};
use independent::model::settling::{kept, Settlement};
use independent::model::trace::traced_with_settlement;
use std::cmp::Reverse;
use std::collections::BTreeMap;

/// The levels open to each project.
type Open = BTreeMap<u8, Vec<u64>>;

/// A project's number and its open levels.
type Project = (u8, Vec<u64>);

/// The totals of all choices in the order of the projects, the first one's level changing last.
fn totals(projects: &[Project]) -> Vec<u64> {
    projects.iter().fold(vec![0], |totals, (_, levels)| {
        let longer = |total: u64| levels.iter().map(move |level| total + level);
        totals.into_iter().flat_map(longer).collect()
    })
}

/// Of the totals in turn, those that cover and are not above an earlier one of these. A part that
/// is set aside has no other: its choices do not cover, or are above one found before.
fn not_above(totals: Vec<u64>, demand: u64) -> Vec<u64> {
    let mut kept: Vec<u64> = Vec::new();
    for total in totals {
        if total >= demand && kept.iter().all(|&earlier| total <= earlier) {
            kept.push(total);
        }
    }
    kept
}

/// The search, over a list of all choices; projects with one level change nothing wherever they
/// stand.
fn kept_in_list(open: &Open, demand: u64) -> Vec<u64> {
    not_above(
        totals(&ordered(open, |(n, high)| (Reverse(high), n))),
        demand,
    )
}

/// The projects by a key of number and high.
fn ordered<K: Ord>(open: &Open, key: impl Fn((u8, u64)) -> K) -> Vec<Project> {
    let mut projects: Vec<Project> = open.clone().into_iter().collect();
    projects.sort_by_key(|(number, levels)| key((*number, levels[levels.len() - 1])));
    projects
}

/// Calls `visit` with open levels and settlement of each settling of up to so many choices that all
/// can be listed at once.
fn each_short_settling(mut visit: impl FnMut(&Open, &Settlement)) {
    for (auction, settlement) in &*SETTLINGS {
        if settlement.choices <= 1_024 {
            visit(&auction.open_levels(settlement.price), settlement);
        }
    }
}

#[test]
fn search_is_the_list() {
    each_short_settling(|open, settlement| {
        assert_eq!(settlement.kept, kept_in_list(open, settlement.demand));
    });
}

/// At least 1, at most the covering ones, and 1 where all lows cover; the last is of the award's
/// total.
#[test]
fn bounds() {
    each_short_settling(|open, settlement| {
        let number = settlement.kept.len() as u64;
        assert!((1..=settlement.covering).contains(&number));
        let lows: u64 = open.values().map(|levels| levels[0]).sum();
        assert!(lows < settlement.demand || number == 1);
        assert_eq!(settlement.kept.last(), Some(&settlement.total));
    });
}

/// 100 of project 2 covers with the 150 of project 3, and is set aside without; 200 alone is
/// better, and with 150 above the best.
#[test]
fn sample() {
    let settled = sample_closed().settle(100, &mut [0; 192]);
    assert_eq!(settled.map(|s| s.kept), Ok(vec![1_070, 1_020]));
}

/// Books written out: the open levels by project, demand, and the totals kept.
#[test]
fn small_books() {
    let books: [(&[(u8, &[u64])], u64, &[u64]); 8] = [
        // One choice.
        (&[(1, &[5]), (2, &[7])], 12, &[12]),
        // All lows cover.
        (&[(1, &[5, 9]), (2, &[7, 8])], 12, &[12]),
        // Project 2 has the larger high: 1 + 6 is found first, and 7 + 2 is above it.
        (&[(1, &[2, 6]), (2, &[1, 7])], 7, &[7]),
        // Project 1 has it: 2 + 6 is found first, and 7 + 1 is not above it.
        (&[(1, &[2, 7]), (2, &[1, 6])], 8, &[8, 8]),
        // Equal highs by number: 0 + 5 is found first, then 5 + 1.
        (&[(1, &[0, 5]), (2, &[1, 5])], 5, &[5]),
        (&[(1, &[1, 5]), (2, &[0, 5])], 5, &[6, 5]),
        // Three equal totals are all kept.
        (&[(1, &[0, 5]), (2, &[0, 5]), (3, &[0, 5])], 5, &[5, 5, 5]),
        // A project of one level is in every choice, whatever its high: 4 + 5, then 6 + 0.
        (&[(1, &[90]), (2, &[0, 5]), (3, &[4, 6])], 96, &[99, 96]),
    ];
    for (levels, demand, expected) in books {
        let open: Open = levels.iter().map(|&(n, list)| (n, list.to_vec())).collect();
        assert_eq!(kept(&open, demand), expected, "{levels:?}");
    }
}

/// The benchmark's books have 65,536 choices each. In the one all lows are one short, in the other
/// the award, two thirds of all highs, is the first choice found that covers.
#[test]
fn crowded_books() {
    for (record, covering) in [(easy_book(), 65_535), (hard_book(), 21_846)] {
        let (_, settlement) = traced_with_settlement(&record);
        let settlement = settlement.expect("the book settles");
        let numbers = (settlement.choices, settlement.covering);
        assert_eq!(numbers, (65_536, covering));
        assert_eq!(settlement.kept, [settlement.total]);
    }
}

/// A search that is wrong in one thing, over a list of all choices.
type Wrong = (&'static str, fn(&Open, u64) -> usize);

const WRONG: [Wrong; 6] = [
    ("by rising high", |open, demand| {
        let order = ordered(open, |(number, high)| (high, number));
        not_above(totals(&order), demand).len()
    }),
    ("by number", |open, demand| {
        let order = ordered(open, |(number, _)| number);
        not_above(totals(&order), demand).len()
    }),
    ("equal highs by falling number", |open, demand| {
        let order = ordered(open, |(number, high)| (Reverse(high), Reverse(number)));
        not_above(totals(&order), demand).len()
    }),
    ("levels falling", |open, demand| {
        let mut order = ordered(open, |(number, high)| (Reverse(high), number));
        order.iter_mut().for_each(|(_, levels)| levels.reverse());
        not_above(totals(&order), demand).len()
    }),
    ("equal totals set aside", |open, demand| {
        let mut kept = kept_in_list(open, demand);
        kept.dedup();
        kept.len()
    }),
    ("best total not used", |open, demand| {
        let totals = totals(&ordered(open, |(number, _)| number));
        totals.iter().filter(|&&total| total >= demand).count()
    }),
];

/// The generated records tell each of them from the right one.
#[test]
fn wrong_searches_differ() {
    let mut differing = [0; WRONG.len()];
    each_short_settling(|open, settlement| {
        for (count, (_, wrong)) in differing.iter_mut().zip(WRONG) {
            *count += u64::from(wrong(open, settlement.demand) != settlement.kept.len());
        }
    });
    for (count, (name, _)) in differing.iter().zip(WRONG) {
        println!("{count} settlings differ: {name}");
        assert!(*count >= 20, "{count} settlings differ: {name}");
    }
}
