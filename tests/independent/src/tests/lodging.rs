//! Lodged lists of existing plants (document 02, request 5) by calls: when and by whom, which steps
//! a closing applies, and the price for new plants.

use super::{
    close, each_step, sample_opened, sample_registered, sample_set_up, RECORDS, SETTLINGS,
};
use independent::model::auction::{Auction, Developer, Phase, Withdrawal, EXISTING, NEW};
use independent::model::replay::Call;
use independent::model::settling::Settlement;

/// The sample's settings with existing plants of these levels, each of the project of its number.
fn existing(plants: &[&[u32]]) -> Auction {
    let mut auction = sample_set_up();
    for (number, levels) in (1..).zip(plants) {
        let registered = auction.register(number, number, EXISTING, 0, 0, levels);
        registered.expect("a sound registration");
    }
    auction
}

/// A developer's withdrawals, as (price, level).
fn history(auction: &Auction, developer: u8) -> Vec<(u64, u64)> {
    steps(&auction.developers()[&developer].withdrawals)
}

fn steps(withdrawals: &[Withdrawal]) -> Vec<(u64, u64)> {
    let steps = withdrawals.iter();
    steps
        .map(|&Withdrawal { price, level }| (price, level))
        .collect()
}

/// Opens a round and closes it without offers.
fn round(auction: &mut Auction, c: u32) -> i64 {
    auction.open(c).expect("a sound opening");
    close(auction).expect("a round is open")
}

fn settled(auction: &Auction) -> Settlement {
    let settled = auction.settle(65_536, &mut [0; 192]);
    settled.expect("choices within the limit")
}

/// First price, second price and mark.
fn prices(auction: &Auction) -> (u64, u64, bool) {
    let settlement = settled(auction);
    let Settlement {
        price,
        second,
        short,
        ..
    } = settlement;
    (price, second, short)
}

#[test]
fn between_set_up_and_the_first_round() {
    assert_eq!(Auction::new().lodge(1, &[], &[]), Err(2));
    assert_eq!(sample_registered().lodge(1, &[], &[]), Ok(()));
    for mut auction in [sample_opened(), super::sample_closed()] {
        assert_eq!(auction.lodge(1, &[], &[]), Err(2));
        assert_eq!(auction.lodge(33, &[1], &[]), Err(2));
    }
    let mut auction = existing(&[&[3_000]]);
    assert!(round(&mut auction, 30_000) > 1_000);
    assert_eq!(*auction.phase(), Phase::Between);
    assert_eq!(auction.lodge(1, &[], &[]), Err(2));
    // A refused opening leaves the time of lodging as it was.
    let mut short = existing(&[&[899]]);
    assert_eq!(short.open(30_000), Err(9));
    assert_eq!(short.lodge(1, &[39_999], &[0]), Ok(()));
}

/// 15 for each number that is no registered existing plant, whatever the list.
#[test]
fn by_whom() {
    let mut auction = sample_registered();
    for developer in [0, 2, 3, 4, 5, 32, 33, 34, 255] {
        for (prices, levels) in [
            (&[][..], &[][..]),
            (&[30_000], &[]),
            (&[9_999], &[0]),
            (&[30_000], &[7]),
        ] {
            assert_eq!(auction.lodge(developer, prices, levels), Err(15));
        }
    }
    assert_eq!(auction.lodge(5, &[], &[]), Err(15));
    assert_eq!(auction.register(5, 5, EXISTING, 0, 0, &[9]), Ok(()));
    assert_eq!(auction.lodge(5, &[], &[]), Ok(()));
    assert_eq!(auction.register(6, 6, NEW, 0, 0, &[9]), Ok(()));
}

#[test]
fn at_the_edges() {
    let nine: Vec<u32> = (0..9).map(|step| 39_999 - step).collect();
    for (prices, levels, answer) in [
        (&[][..], &[][..], Ok(())),
        (&[10_000], &[300], Ok(())),
        (&[39_999], &[0], Ok(())),
        (&[39_999, 10_000], &[300, 0], Ok(())),
        (&[40_000], &[300], Err(6)),
        (&[9_999], &[300], Err(6)),
        (&[u32::MAX], &[300], Err(6)),
        (&[30_000, 30_000], &[300, 0], Err(6)),
        (&[30_000, 30_001], &[300, 0], Err(6)),
        (&[30_000], &[], Err(6)),
        (&[], &[300], Err(6)),
        (&[30_000, 29_000], &[300], Err(6)),
        (&nine, &[0; 9], Err(6)),
        // All prices before any level.
        (&[30_000, 9_999], &[7, 7], Err(6)),
        (&[30_000], &[7, 7], Err(6)),
        (&[30_000], &[700], Err(7)),
        (&[30_000], &[299], Err(7)),
        (&[30_000], &[701], Err(7)),
        (&[30_000, 29_000], &[300, 300], Err(7)),
        (&[30_000, 29_000], &[0, 300], Err(7)),
    ] {
        let mut auction = existing(&[&[300, 700]]);
        let before = auction.clone();
        let lodged = auction.lodge(1, prices, levels);
        assert_eq!(lodged, answer, "{prices:?} {levels:?}");
        if answer.is_err() {
            assert_eq!(auction, before);
        }
    }
}

/// The last accepted list is the one that counts.
#[test]
fn replaced() {
    let mut auction = existing(&[&[300, 700], &[2_500]]);
    let plain = auction.clone();
    assert_eq!(auction.lodge(1, &[35_000, 30_000], &[300, 0]), Ok(()));
    assert_eq!(auction.lodge(1, &[33_000], &[700]), Err(7));
    assert_eq!(
        steps(&auction.developers()[&1].lodged),
        [(35_000, 300), (30_000, 0)]
    );
    assert_eq!(auction.lodge(1, &[33_000], &[0]), Ok(()));
    assert_eq!(steps(&auction.developers()[&1].lodged), [(33_000, 0)]);
    let mut withdrawn = auction.clone();
    assert_eq!(round(&mut withdrawn, 32_000), 2_500 - 940);
    assert_eq!(history(&withdrawn, 1), [(33_000, 0)]);
    assert_eq!(auction.lodge(1, &[], &[]), Ok(()));
    assert_eq!(auction, plain);
}

/// A closing applies the steps from C to the opening price less 1, and each step once.
#[test]
fn applied() {
    let mut auction = existing(&[&[1, 2, 3, 4], &[3_000]]);
    let lodged = auction.lodge(1, &[39_999, 30_000, 29_999, 20_000], &[3, 2, 1, 0]);
    assert_eq!(lodged, Ok(()));
    assert_eq!(
        auction.developers()[&1].quantity,
        4,
        "none before a closing"
    );
    assert_eq!(auction.open(30_000), Ok(()));
    assert_eq!(auction.developers()[&1].quantity, 4, "none at an opening");
    assert_eq!(close(&mut auction), Ok(3_002 - 950));
    assert_eq!(history(&auction, 1), [(39_999, 3), (30_000, 2)]);
    assert_eq!(auction.developers()[&1].quantity, 2);
    assert_eq!(round(&mut auction, 20_001), 3_001 - 1_000);
    assert_eq!(
        history(&auction, 1),
        [(39_999, 3), (30_000, 2), (29_999, 1)]
    );
    let mut higher = auction.clone();
    assert_eq!(round(&mut auction, 20_000), 3_000 - 1_000);
    assert_eq!(history(&auction, 1)[3..], [(20_000, 0)]);
    assert_eq!(round(&mut auction, 10_000), 3_000 - 1_200);
    assert_eq!(history(&auction, 1).len(), 4);
    assert_eq!(round(&mut higher, 10_000), 3_000 - 1_200);
    assert_eq!(history(&higher, 1), history(&auction, 1));
    assert_eq!(history(&auction, 2), []);
}

/// 9 is about the highest levels; the lists apply later.
#[test]
fn covered_before_any_step() {
    let mut auction = existing(&[&[500], &[400]]);
    assert_eq!(auction.lodge(1, &[39_999], &[0]), Ok(()));
    assert_eq!(auction.lodge(2, &[39_999], &[0]), Ok(()));
    assert_eq!(round(&mut auction, 39_999), -901);
    assert_eq!(prices(&auction), (40_000, 40_000, true));
}

/// 900 cover A without the plant of 700, 899 do not.
#[test]
fn short_or_not() {
    for (beside, second) in [
        (900, (40_000, false)),
        (899, (40_000, true)),
        (950, (30_000, false)),
    ] {
        let mut auction = existing(&[&[beside], &[700]]);
        assert_eq!(auction.lodge(2, &[39_000], &[0]), Ok(()));
        assert_eq!(round(&mut auction, 20_000), i64::from(beside) - 1_000);
        let first = if beside == 950 { 30_000 } else { 39_000 };
        assert_eq!(prices(&auction), (first, second.0, second.1), "{beside}");
    }
}

/// A step below the last C takes nothing out; one at it does, with the whole project.
#[test]
fn taken_out() {
    for (price, second) in [(25_001, 36_000), (25_000, 36_000), (24_999, 25_000)] {
        let mut auction = existing(&[&[920], &[300, 700]]);
        assert_eq!(auction.lodge(2, &[price], &[300]), Ok(()));
        let at_c = if price < 25_000 { 1_620 } else { 1_220 };
        assert_eq!(round(&mut auction, 25_000), at_c - 975);
        assert_eq!(prices(&auction), (25_000, second, false), "{price}");
    }
}

/// Levels from low to high of a plant that withdraws at P enter the choices: 300, 500 and 700.
#[test]
fn levels_at_the_closing_price() {
    let mut auction = existing(&[&[450], &[200, 300, 500, 700]]);
    assert_eq!(auction.lodge(2, &[30_000], &[300]), Ok(()));
    assert_eq!(round(&mut auction, 20_000), 750 - 1_000);
    assert_eq!(auction.open_levels(30_000)[&2], [300, 500, 700]);
    let settlement = settled(&auction);
    assert_eq!((settlement.choices, settlement.covering), (3, 2));
    assert_eq!(settlement.total, 950);
    assert_eq!(prices(&auction), (30_000, 40_000, true));
    assert_eq!(auction.settle(2, &mut [0; 192]), Err(10));
}

/// An existing plant stays without a list; a new one withdraws without an offer.
#[test]
fn kinds_without_offers() {
    let mut auction = existing(&[&[820]]);
    assert_eq!(auction.register(2, 2, NEW, 0, 0, &[820]), Ok(()));
    assert_eq!(round(&mut auction, 30_000), 820 - 950);
    assert_eq!(history(&auction, 1), []);
    assert_eq!(history(&auction, 2), [(40_000, 0)]);
    assert_eq!(prices(&auction), (40_000, 40_000, false));
}

/// An applied step by the papers' words: lodged, and at a price that the clock passed.
fn applied_step(auction: &Auction, plant: &Developer) -> bool {
    let last_c = auction.last_c().expect("a closed round");
    plant.lodged.iter().any(|step| step.price >= last_c)
}

/// The longest range of prices that is walked.
const LONGEST_WALK: u64 = 3_000;

/// On generated settlings: the second price is never below the first, and the first where no lodged
/// step was applied; A covered by the other projects decides the mark; walked where the range is
/// small, it is the lowest price that they cover.
#[test]
fn second_prices() {
    let (mut applied, mut walked) = (0, 0);
    for (auction, settlement) in &*SETTLINGS {
        let (a, last_c) = (
            auction.settings().a,
            auction.last_c().expect("a closed round"),
        );
        let (first, second) = (settlement.price, settlement.second);
        assert!(second >= first);
        let out = |d: &Developer| applied_step(auction, d);
        let none = !auction.developers().values().any(out);
        assert!(!none || (second, settlement.short) == (first, false));
        applied += u64::from(!none);
        let left = |p: u64| {
            let projects = auction.projects().into_values();
            let left = projects.filter(|developers| !developers.iter().any(|d| out(d)));
            let highs = left.map(|developers| developers.iter().map(|d| d.high(p)).max());
            highs.map(|high| high.expect("a developer")).sum::<u64>()
        };
        let covered = |p: u64| left(p) >= auction.settings().demand(p);
        assert_eq!(settlement.short, !covered(a));
        if settlement.short {
            assert_eq!(second, a);
        } else if a - last_c <= LONGEST_WALK {
            walked += 1;
            assert_eq!((last_c..=a).find(|&p| covered(p)), Some(second));
        } else {
            assert!(covered(second) && (second == last_c || !covered(second - 1)));
        }
    }
    assert!(
        applied > 500 && walked > 500,
        "{applied} applied, {walked} walked"
    );
}

/// On generated records: an accepted lodging stores its list and changes nothing else, and no other
/// call changes a list.
#[test]
fn lists_change_by_lodging_alone() {
    for record in &RECORDS[..3_000] {
        each_step(record, |step| {
            let lists = |auction: &Auction| -> Vec<(u8, Vec<Withdrawal>)> {
                let developers = auction.developers().values();
                let lists = developers.map(|d| (d.number, d.lodged.clone()));
                lists.filter(|(_, list)| !list.is_empty()).collect()
            };
            match (step.call, step.answer) {
                (
                    Some(Call::Lodge {
                        developer,
                        prices,
                        levels,
                    }),
                    Ok(_),
                ) => {
                    let mut expected = step.before.clone();
                    let lodged = expected.lodge(*developer, prices, levels);
                    assert_eq!((lodged, &expected), (Ok(()), step.after));
                    let stored = steps(&step.after.developers()[developer].lodged);
                    let asked = prices.iter().zip(levels);
                    assert!(stored
                        .iter()
                        .copied()
                        .eq(asked.map(|(&p, &l)| (p.into(), l.into()))));
                    assert_eq!(step.before.phase(), step.after.phase());
                }
                _ => assert_eq!(lists(step.before), lists(step.after)),
            }
        });
    }
}
