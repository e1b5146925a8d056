//! Records in another order of arrival (document 02, request 12): what is moved and what stays, and
//! what the rules imply for it.

use super::{each_step, Step, RECORDS};
use independent::coverage::{Features, PASSAGES};
use independent::generators::records::fixed;
use independent::generators::sample::{RECORD, REPLY};
use independent::generators::shuffling::Order;
use independent::model::auction::{Auction, Phase};
use independent::model::replay::{lines, replay, Call};
use std::collections::{BTreeMap, BTreeSet};

/// The sample with these lines in place of its offers.
fn sample_with(offers: &[&str]) -> Vec<u8> {
    let sample: Vec<&str> = RECORD.lines().collect();
    let lines = [&sample[..6], offers, &sample[9..]].concat();
    (lines.join("\n") + "\n").into_bytes()
}

/// The reply to the closing of that record.
fn closing_with(offers: &[&str]) -> String {
    let replies = replay(&sample_with(offers));
    let closing = lines(&replies)[6 + offers.len()];
    String::from_utf8_lossy(closing).into_owned()
}

/// The developer whose line it is, if it asks an offer or a cancellation in an open round.
fn developer_in_round(step: &Step) -> Option<u8> {
    let open = matches!(step.before.phase(), Phase::Round(_));
    match step.call? {
        Call::Offer { developer, .. } | Call::Cancel { developer } if open => Some(*developer),
        _ => None,
    }
}

/// Every line once; those of no developer in a round at their places, and none moved across them;
/// each developer's in their order.
#[test]
fn what_is_moved() {
    let mut passages = Features::new(PASSAGES);
    for (seed, record) in (0..).zip(&RECORDS[..2_000]) {
        let mut developers = Vec::new();
        each_step(record, |step| developers.push(developer_in_round(&step)));
        let order = Order::new(seed, record);
        let mut sorted = order.places.clone();
        sorted.sort_unstable();
        assert!(sorted.into_iter().eq(0..developers.len()));
        let mut last: BTreeMap<u8, usize> = BTreeMap::new();
        for (place, &first) in order.places.iter().enumerate() {
            let across = &developers[place.min(first)..=place.max(first)];
            assert!(place == first || across.iter().all(Option::is_some));
            if let Some(developer) = developers[first] {
                assert!(last.insert(developer, first) < Some(first));
            }
        }
        order.passages.iter().for_each(|p| passages.count(p));
    }
    println!("{}", passages.listed());
    assert!(passages.counts().all(|(_, count)| count >= 1_000));
}

/// What ends a passage: malformed lines, calls of other kinds, refused ones too. Offers with no round
/// open are in none.
#[test]
fn passages() {
    let sample: Vec<&str> = RECORD.lines().collect();
    let [two, three, four] = [sample[6], sample[7], sample[8]];
    let before = [&sample[..5], &[three, two], &sample[5..6]].concat();
    let round = format!("{two} {three} 0g {four} 0904 {three} 0600000064 0903 05 {three} {two}");
    let record = before.join("\n") + "\n" + &round.replace(' ', "\n");
    let passages = Order::of(record.as_bytes()).passages;
    let places = passages.iter().map(|passage| {
        let places = passage.first.iter().map(|arrival| arrival.place);
        places.collect::<Vec<_>>()
    });
    assert!(places.eq([vec![8, 9], vec![11, 12, 13], vec![15]]));
    let arrivals = passages[1].first.iter();
    let shown = arrivals.map(|arrival| (arrival.developer, arrival.cancels, arrival.accepted));
    assert!(shown.eq([(4, false, true), (4, true, true), (3, false, false)]));
}

/// The sample's offers in each of their six orders, with the sample's replies; two lines of one
/// developer and one of another in three.
#[test]
fn each_order() {
    let orders_of = |record: &[u8]| -> BTreeSet<Vec<u8>> {
        let orders = (0..100).map(|seed| Order::new(seed, record).put(record));
        orders.collect()
    };
    let own = ["040200", "0902", "040300"];
    assert_eq!(orders_of(&sample_with(&own)).len(), 3);
    let orders = orders_of(RECORD.as_bytes());
    assert_eq!(orders.len(), 6);
    for record in orders {
        assert_eq!(replay(&record), REPLY.as_bytes());
    }
}

/// Calls of one developer keep their order for a reason: of two offers the first stands, and a
/// cancellation is for one before it. With 820, developer 2 keeps 100, 200 or nothing of 975.
#[test]
fn own_order_matters() {
    let [falls, stays, cancels] = ["0402010000659000000064", "040200", "0902"];
    let (minus_55, plus_45, minus_155) = (
        "0500FFFFFFFFFFFFFFC900000000",
        "0500000000000000002D00000000",
        "0500FFFFFFFFFFFFFF6500000000",
    );
    assert_eq!(closing_with(&[falls, stays]), minus_55);
    assert_eq!(closing_with(&[stays, falls]), plus_45);
    assert_eq!(closing_with(&[stays, cancels]), minus_155);
    assert_eq!(closing_with(&[cancels, stays]), plus_45);
}

/// On generated records and the fixed ones: each line has the reply of the first order, and wherever
/// the same lines have arrived the auctions are equal, their supply curves too.
#[test]
fn equal_auctions() {
    let auctions = |record: &[u8]| {
        let mut auctions: Vec<Auction> = Vec::new();
        each_step(record, |step| auctions.push(step.after.clone()));
        auctions
    };
    let mut changed = 0;
    for (seed, record) in (0..).zip(RECORDS[..1_000].iter().chain(&fixed::records())) {
        let order = Order::new(seed, record);
        if order.moved().is_empty() {
            continue;
        }
        let shuffled = order.put(record);
        assert_eq!(replay(&shuffled), order.put(&replay(record)));
        let pairs = auctions(record).into_iter().zip(auctions(&shuffled));
        for (place, (first, then)) in pairs.enumerate() {
            if order.places[..=place].iter().max() == Some(&place) {
                assert!(first == then && first.supply_curve() == then.supply_curve());
            }
        }
        changed += 1;
    }
    assert!(changed >= 500, "{changed} records");
}
