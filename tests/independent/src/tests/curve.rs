//! The supply curve (document 02, request 9), each case worked out by hand, and what the rules imply
//! for it on generated records.

use super::{
    close, each_step, sample_closed, sample_opened, sample_registered, sample_set_up, RECORDS,
};
use independent::coverage::{Redrawn, LONGEST_CURVE};
use independent::generators::records::fixed;
use independent::model::auction::{Auction, Phase, EXISTING, NEW};
use independent::model::curve::Entry;
use independent::model::replay::{Accepted, PROGRAM_BYTES};

/// The curve as (price, before, after).
fn curve(auction: &Auction) -> Vec<(u64, u64, u64)> {
    let curve = auction.supply_curve().into_iter();
    curve
        .map(|entry| (entry.price, entry.before, entry.after))
        .collect()
}

/// The sample's plants, 1,170 in all, with an existing plant of 1,000 besides, so that there are
/// further rounds.
fn plants() -> Auction {
    let mut auction = sample_registered();
    assert_eq!(auction.register(9, 9, EXISTING, 0, 0, &[1_000]), Ok(()));
    auction
}

/// An offer of one step, or of none.
type Offer = (u8, Option<(u32, u32)>);

/// A round down to C with these offers.
fn round(auction: &mut Auction, c: u32, offers: &[Offer]) {
    assert_eq!(auction.open(c), Ok(()));
    for &(developer, step) in offers {
        let (prices, levels): (Vec<u32>, Vec<u32>) = step.into_iter().unzip();
        assert_eq!(auction.offer(developer, &prices, &levels), Ok(()));
    }
    assert!(close(auction).is_ok());
}

/// 2, 3 and 4 stay.
const STAY: [Offer; 3] = [(2, None), (3, None), (4, None)];

/// 820 + 200 + 150 before 26,000, and 820 + 100 after it.
#[test]
fn sample() {
    assert_eq!(curve(&sample_closed()), [(26_000, 1_170, 920)]);
}

/// Registered quantities and standing offers are no withdrawals, nor are rounds in which all stay.
#[test]
fn empty() {
    assert_eq!(curve(&Auction::new()), []);
    assert_eq!(curve(&sample_registered()), []);
    let mut auction = sample_opened();
    assert_eq!(auction.offer(2, &[26_000], &[100]), Ok(()));
    assert_eq!(curve(&auction), []);
    let mut auction = plants();
    for c in [30_000, 29_000] {
        round(&mut auction, c, &STAY);
        assert_eq!(curve(&auction), []);
    }
}

/// Prices fall, whoever's they are and whoever offers first; a round's stand below those of the one
/// before.
#[test]
fn falling_prices() {
    let mut auction = plants();
    assert_eq!(auction.open(30_000), Ok(()));
    assert_eq!(auction.offer(4, &[33_000], &[0]), Ok(()));
    assert_eq!(auction.offer(3, &[31_000], &[0]), Ok(()));
    assert_eq!(auction.offer(2, &[35_000, 32_000], &[100, 0]), Ok(()));
    assert!(close(&mut auction).is_ok());
    let first = [
        (35_000, 2_170, 2_170),
        (33_000, 2_170, 2_020),
        (32_000, 2_020, 2_020),
        (31_000, 2_020, 1_820),
    ];
    assert_eq!(curve(&auction), first);

    let mut auction = plants();
    let falls = [(2, None), (3, Some((30_001, 0))), (4, None)];
    round(&mut auction, 30_000, &falls);
    let falls = [(2, Some((29_999, 100))), (3, None), (4, None)];
    round(&mut auction, 29_000, &falls);
    let two_rounds = [(30_001, 2_170, 2_170), (29_999, 2_170, 2_070)];
    assert_eq!(curve(&auction), two_rounds);
}

/// Three developers at one price make one entry, with all of them gone after it.
#[test]
fn one_price_of_several() {
    let mut auction = plants();
    let offers = [2, 3, 4].map(|developer| (developer, Some((33_000, 0))));
    round(&mut auction, 30_000, &offers);
    assert_eq!(curve(&auction), [(33_000, 2_170, 1_820)]);
}

/// The greatest of a project counts: a fall of the smaller one changes nothing, and has its entry;
/// that of the greater one leaves what the smaller one has.
#[test]
fn smaller_of_a_project() {
    for (falls, stays, figures) in [(1, 2, (1_200, 1_200)), (2, 1, (1_200, 1_100))] {
        let mut auction = sample_set_up();
        assert_eq!(auction.register(1, 1, NEW, 0, 0, &[1_100]), Ok(()));
        assert_eq!(auction.register(1, 2, NEW, 0, 0, &[1_200]), Ok(()));
        let offers = [(falls, Some((35_000, 0))), (stays, None)];
        round(&mut auction, 30_000, &offers);
        assert_eq!(curve(&auction), [(35_000, figures.0, figures.1)]);
    }
}

/// A missing offer is a withdrawal at the opening price: A, or the C before.
#[test]
fn missing_offers() {
    let mut auction = plants();
    round(&mut auction, 30_000, &[(2, None), (3, None)]);
    assert_eq!(curve(&auction), [(40_000, 2_170, 2_020)]);
    // Developer 4 is at 0, so it adds nothing.
    round(&mut auction, 29_000, &[(2, None)]);
    let smaller = [(40_000, 2_170, 2_020), (30_000, 2_020, 2_020)];
    assert_eq!(curve(&auction), smaller);
    round(&mut auction, 28_000, &[]);
    let at_29_000 = [smaller[0], smaller[1], (29_000, 2_020, 1_820)];
    assert_eq!(curve(&auction), at_29_000);
}

/// Steps at the C of a round and missing offers of the next are one entry, whose figure after it
/// goes by both.
#[test]
fn one_price_in_two_rounds() {
    let mut auction = plants();
    let falls = [(2, None), (3, None), (4, Some((30_000, 0)))];
    round(&mut auction, 30_000, &falls);
    assert_eq!(curve(&auction), [(30_000, 2_170, 2_020)]);
    round(&mut auction, 29_000, &[(2, None)]);
    assert_eq!(curve(&auction), [(30_000, 2_170, 2_020)]);

    let mut auction = plants();
    let falls = [(2, Some((30_000, 100))), (3, None), (4, None)];
    round(&mut auction, 30_000, &falls);
    assert_eq!(curve(&auction), [(30_000, 2_170, 2_170)]);
    round(&mut auction, 29_000, &[(2, None), (4, None)]);
    assert_eq!(curve(&auction), [(30_000, 2_170, 2_070)]);
}

/// Developer 2 falls to 100 at C and is missing in the next round; only what it has at last counts.
#[test]
fn twice_at_one_price() {
    let mut auction = plants();
    let offers = [(2, Some((30_000, 100))), (4, None)];
    round(&mut auction, 30_000, &offers);
    let once = [(40_000, 2_170, 2_170), (30_000, 2_170, 2_070)];
    assert_eq!(curve(&auction), once);
    round(&mut auction, 29_000, &[(4, None)]);
    assert_eq!(auction.developers()[&2].withdrawals.len(), 2);
    assert_eq!(curve(&auction), [once[0], (30_000, 2_170, 1_970)]);
}

/// A lodged step is on the curve once a closing applies it, also beside an offer's at its price.
#[test]
fn lodged_steps() {
    let mut auction = plants();
    let registered = auction.register(8, 8, EXISTING, 0, 0, &[10, 20, 30]);
    assert_eq!(registered, Ok(()));
    let lodged = auction.lodge(8, &[35_000, 30_000, 20_000], &[20, 10, 0]);
    assert_eq!(lodged, Ok(()));
    assert_eq!(curve(&auction), []);
    let falls = [(2, None), (3, None), (4, Some((30_000, 0)))];
    round(&mut auction, 30_000, &falls);
    let applied = [(35_000, 2_200, 2_190), (30_000, 2_190, 2_030)];
    assert_eq!(curve(&auction), applied);
    // Developers 2 and 3 are missing at the price of the step.
    round(&mut auction, 20_001, &[]);
    assert_eq!(curve(&auction), [applied[0], (30_000, 2_190, 1_830)]);
}

/// A cancelled offer is none.
#[test]
fn cancelled() {
    let mut auction = sample_opened();
    for developer in [2, 3, 4] {
        assert_eq!(auction.offer(developer, &[30_000], &[0]), Ok(()));
    }
    assert_eq!(auction.cancel(3), Ok(()));
    assert_eq!(auction.offer(3, &[], &[]), Ok(()));
    assert_eq!(auction.cancel(4), Ok(()));
    assert!(close(&mut auction).is_ok());
    let expected = [(40_000, 1_170, 1_020), (30_000, 1_020, 1_020)];
    assert_eq!(curve(&auction), expected);
}

/// On generated records, after each closing: prices fall strictly, from A at most to the last C at
/// least, and are those of the histories; the first entry begins with the whole supply, each other
/// one where the one before it ends, and the last ends with the supply that is left.
#[test]
fn entries_follow_one_another() {
    let look_at = |auction: &Auction| {
        let curve = auction.supply_curve();
        assert!(curve.len() <= LONGEST_CURVE);
        assert!(curve.is_sorted_by(|one, next| one.price > next.price));
        let passed = auction.last_c().expect("a closed round")..=auction.settings().a;
        assert!(curve.iter().all(|entry| passed.contains(&entry.price)));
        let developers = auction.developers().values();
        let mut withdrawals = developers.flat_map(|developer| &developer.withdrawals);
        let listed = |price| curve.iter().any(|entry: &Entry| entry.price == price);
        assert!(withdrawals.all(|withdrawal| listed(withdrawal.price)));
        let whole = auction.sum_of_greatest(|d| *d.levels.last().expect("a level"));
        let (begins, ends) = (
            curve.iter().map(|e| e.before),
            curve.iter().map(|e| e.after),
        );
        let begins = begins.chain([auction.supply()]);
        assert!(begins.eq([whole].into_iter().chain(ends)));
        assert!(curve.iter().all(|entry| entry.before >= entry.after));
    };
    for record in &RECORDS[..3_000] {
        each_step(record, |step| {
            if matches!(step.answer, Ok(Accepted::Closed(_))) {
                look_at(step.after);
            }
        });
    }
}

/// On generated records: only accepted closings change the curve; none is there before a round is
/// closed.
#[test]
fn changed_by_closings_alone() {
    for record in &RECORDS[..1_000] {
        each_step(record, |step| {
            let curves = [step.before, step.after].map(Auction::supply_curve);
            let closing = matches!(step.answer, Ok(Accepted::Closed(_)));
            assert!(closing || curves[0] == curves[1]);
            assert!(step.after.last_c().is_some() || curves[1].is_empty());
        });
    }
}

/// On generated records: what the curve says of supply at a price is what the highs say.
#[test]
fn supply_by_the_curve() {
    let mut looked_at = 0;
    let mut look_at = |auction: &Auction| {
        let curve = auction.supply_curve();
        let prices = curve.iter().map(|entry| entry.price);
        for p in prices.flat_map(|price| [price - 1, price, price + 1]) {
            let highs = auction.sum_of_greatest(|developer| developer.high(p));
            let below = curve.iter().find(|entry| entry.price <= p);
            let supply = below.map_or(auction.supply(), |entry| entry.before);
            assert_eq!(supply, highs);
            looked_at += 1;
        }
    };
    for record in &RECORDS[..1_000] {
        let auction = each_step(record, |_| ());
        if *auction.phase() == Phase::Closed {
            look_at(&auction);
        }
    }
    assert!(looked_at > 10_000, "{looked_at} prices");
}

/// The longest curves are among the fixed records, which the programs take.
#[test]
fn longest() {
    let records = fixed::records();
    let lengths = records.iter().map(|record| {
        assert!(record.len() <= PROGRAM_BYTES);
        let closings = Redrawn::all(record);
        closings.iter().map(Redrawn::entries).max().unwrap_or(0)
    });
    let lengths: Vec<usize> = lengths.collect();
    let longest = lengths.iter().filter(|&&length| length == LONGEST_CURVE);
    assert_eq!(longest.count(), 4, "{lengths:?}");
}
