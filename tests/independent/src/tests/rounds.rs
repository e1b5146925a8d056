//! Rounds by calls: phases, offers, missing offers, the excess and when the auction closes.

use super::{close, sample_closed, sample_opened, sample_registered, sample_set_up};
use independent::model::auction::{Auction, Phase, Withdrawal, EXISTING, NEW};

/// The withdrawals of a developer, as (price, level).
fn history(auction: &Auction, developer: u8) -> Vec<(u64, u64)> {
    let withdrawals = auction.developers()[&developer].withdrawals.iter();
    withdrawals
        .map(|&Withdrawal { price, level }| (price, level))
        .collect()
}

fn quantity(auction: &Auction, developer: u8) -> u64 {
    auction.developers()[&developer].quantity
}

/// The sample's auction with an existing plant of 1,000 besides: as much as the excess that
/// another round takes.
fn sample_and_1_000() -> Auction {
    let mut auction = sample_registered();
    let registered = auction.register(32, 32, EXISTING, 0, 0, &[1_000]);
    registered.expect("a sound registration");
    auction
}

/// Its first round closed after offers of no steps by 2, 3 and 4.
fn all_stay(c: u32) -> (Auction, i64) {
    let mut auction = sample_and_1_000();
    auction.open(c).expect("a sound opening");
    for developer in [2, 3, 4] {
        let offered = auction.offer(developer, &[], &[]);
        offered.expect("an offer of no steps");
    }
    let excess = close(&mut auction).expect("a round is open");
    (auction, excess)
}

/// Which of the six calls each phase takes up; what else may refuse them comes after.
#[test]
fn calls_by_phase() {
    let (between, _) = all_stay(30_000);
    for (auction, accepted) in [
        (Auction::new(), [true, false, false, false, false, false]),
        (
            sample_registered(),
            [false, true, true, false, false, false],
        ),
        (sample_opened(), [false, false, false, true, true, false]),
        (between, [false, false, true, false, false, false]),
        (sample_closed(), [false, false, false, false, false, true]),
    ] {
        let answers = [
            auction
                .clone()
                .set_up(20_000, 1_000, 900, 1_200, 40_000)
                .err(),
            auction.clone().register(9, 9, NEW, 0, 0, &[1]).err(),
            auction.clone().open(20_000).err(),
            auction.clone().offer(4, &[], &[]).err(),
            auction.clone().close().err(),
            auction.settle(100, &mut [0; 192]).err(),
        ];
        let expected = accepted.map(|accepted| (!accepted).then_some(2));
        assert_eq!(answers, expected, "{:?}", auction.phase());
    }
}

/// Supply takes the greatest of developers 2 and 3, not their sum: 1,000 + 820 + 200 + 150.
#[test]
fn greatest_of_a_project() {
    let (auction, excess) = all_stay(30_000);
    assert_eq!(auction.supply(), 2_170);
    assert_eq!(excess, 2_170 - 950);
    assert_eq!(*auction.phase(), Phase::Between);
    // 500 and 500 on one project do not cover the 900 at A.
    let mut short = sample_set_up();
    for developer in [1, 2] {
        let registered = short.register(1, developer, NEW, 0, 0, &[500]);
        assert_eq!(registered, Ok(()));
    }
    assert_eq!(short.open(25_000), Err(9));
    // A refused opening ends no registration.
    assert_eq!(short.register(2, 3, EXISTING, 0, 0, &[399]), Ok(()));
    assert_eq!(short.open(25_000), Err(9));
    assert_eq!(short.register(3, 4, NEW, 0, 0, &[1]), Ok(()));
    assert_eq!(short.open(25_000), Ok(()));
}

/// Without offers 2, 3 and 4 withdraw to 0 at the opening price, and 1 stays.
#[test]
fn missing_offers() {
    let mut auction = sample_opened();
    assert_eq!(close(&mut auction), Ok(820 - 975));
    for developer in [2, 3, 4] {
        assert_eq!(history(&auction, developer), [(40_000, 0)]);
        assert_eq!(quantity(&auction, developer), 0);
    }
    assert_eq!(history(&auction, 1), []);
    assert_eq!(quantity(&auction, 1), 820);
    assert_eq!(*auction.phase(), Phase::Closed);
}

/// In a later round the opening price is the previous C; who is at 0 adds nothing.
#[test]
fn missing_offers_later() {
    let mut auction = sample_and_1_000();
    assert_eq!(auction.open(30_000), Ok(()));
    assert_eq!(auction.offer(2, &[30_000], &[100]), Ok(()));
    assert_eq!(auction.offer(3, &[], &[]), Ok(()));
    assert_eq!(close(&mut auction), Ok(1_820 + 200 - 950));
    assert_eq!(history(&auction, 2), [(30_000, 100)]);
    assert_eq!(history(&auction, 4), [(40_000, 0)]);
    assert_eq!(auction.open(29_000), Ok(()));
    assert_eq!(auction.offer(3, &[29_999], &[0]), Ok(()));
    assert_eq!(close(&mut auction), Ok(1_820 - 955));
    assert_eq!(history(&auction, 2), [(30_000, 100), (30_000, 0)]);
    assert_eq!(history(&auction, 3), [(29_999, 0)]);
    assert_eq!(history(&auction, 4), [(40_000, 0)]);
}

/// The sample's settings and an existing plant: the excess of the first round, down to C, and
/// the phase after it.
fn closed_at(c: u32, plant: u32) -> (i64, Phase) {
    let mut auction = sample_set_up();
    let registered = auction.register(1, 1, EXISTING, 0, 0, &[plant]);
    assert_eq!(registered, Ok(()));
    assert_eq!(auction.open(c), Ok(()));
    let excess = close(&mut auction).expect("a round is open");
    (excess, auction.phase().clone())
}

/// Closed at an excess of 999 and less, open from 1,000 on; at the floor closed whatever the
/// excess. Demand is 951 at 29,999, 950 at 30,000, 1,199 at 10,050, and 1,200 at the floor.
#[test]
fn when_closed() {
    for (excess, phase) in [
        (-1, Phase::Closed),
        (0, Phase::Closed),
        (1, Phase::Closed),
        (998, Phase::Closed),
        (999, Phase::Closed),
        (1_000, Phase::Between),
        (1_001, Phase::Between),
        (1_999, Phase::Between),
        (1_000_000, Phase::Between),
    ] {
        for (c, demand) in [(29_999, 951), (30_000, 950), (10_050, 1_199)] {
            let plant = u32::try_from(demand + excess).expect("a level");
            assert_eq!(closed_at(c, plant), (excess, phase.clone()), "C {c}");
        }
        let plant = u32::try_from(1_200 + excess).expect("a level");
        assert_eq!(closed_at(10_000, plant), (excess, Phase::Closed));
    }
    let plenty = 1_000_000_000;
    let (excess, phase) = closed_at(10_001, plenty);
    assert_eq!((excess, phase), (999_998_800, Phase::Between));
    let (excess, phase) = closed_at(10_000, plenty);
    assert_eq!((excess, phase), (999_998_800, Phase::Closed));
}

/// Between rounds at 1,000, and closed one thousandth further down, where demand is one higher.
#[test]
fn closed_in_a_later_round() {
    let mut auction = sample_set_up();
    let registered = auction.register(1, 1, EXISTING, 0, 0, &[1_950]);
    assert_eq!(registered, Ok(()));
    assert_eq!(auction.open(30_000), Ok(()));
    assert_eq!(close(&mut auction), Ok(1_000));
    assert_eq!(auction.settle(1, &mut [0; 192]), Err(2));
    assert_eq!(auction.open(29_999), Ok(()));
    assert_eq!(close(&mut auction), Ok(999));
    assert_eq!(*auction.phase(), Phase::Closed);
    assert_eq!(auction.open(29_998), Err(2));
}

/// With an excess from 0 to 999 the last C is covered, so it is the closing price, and every
/// admissible choice covers; demand there is 950.
#[test]
fn closing_price_after_an_excess() {
    for plant in [850, 851, 1_849, 1_900] {
        let mut auction = sample_set_up();
        for answer in [
            auction.register(1, 1, EXISTING, 0, 0, &[plant]),
            auction.register(2, 2, NEW, 0, 0, &[100, 200]),
            auction.open(30_000),
            auction.offer(2, &[30_000], &[100]),
        ] {
            assert_eq!(answer, Ok(()));
        }
        let excess = i64::from(plant) + 100 - 950;
        assert_eq!(close(&mut auction), Ok(excess));
        assert_eq!(*auction.phase() == Phase::Closed, excess <= 999);
        if excess <= 999 {
            let settlement = auction.settle(2, &mut [0; 192]).expect("two choices");
            assert_eq!((settlement.price, settlement.demand), (30_000, 950));
            assert_eq!((settlement.choices, settlement.covering), (2, 2));
            assert_eq!(settlement.total, u64::from(plant) + 100);
        }
    }
}

/// A refused offer may be corrected; an accepted one stands until its round is closed.
#[test]
fn one_offer_a_round() {
    let mut auction = sample_and_1_000();
    assert_eq!(auction.open(30_000), Ok(()));
    assert_eq!(auction.offer(2, &[30_000], &[50]), Err(7));
    assert_eq!(auction.offer(2, &[29_999], &[100]), Err(6));
    assert_eq!(auction.offer(2, &[30_000], &[100]), Ok(()));
    assert_eq!(auction.offer(2, &[30_000], &[0]), Err(8));
    for developer in [3, 4] {
        assert_eq!(auction.offer(developer, &[], &[]), Ok(()));
    }
    assert_eq!(
        quantity(&auction, 2),
        200,
        "offers apply when the round is closed"
    );
    assert_eq!(close(&mut auction), Ok(2_170 - 950));
    assert_eq!(quantity(&auction, 2), 100);
    assert_eq!(auction.open(29_000), Ok(()));
    assert_eq!(
        auction.offer(2, &[29_000], &[100]),
        Err(7),
        "it is there already"
    );
    assert_eq!(auction.offer(2, &[29_000], &[0]), Ok(()));
}

/// Each round opens at the previous C and ends below it: A less the floor rounds at most.
#[test]
fn most_rounds() {
    let mut auction = Auction::new();
    assert_eq!(auction.set_up(6, 2, 1, 3, 12), Ok(()));
    assert_eq!(auction.register(1, 1, EXISTING, 0, 0, &[1_100]), Ok(()));
    for c in (3..12).rev() {
        assert_eq!(auction.open(c + 1), Err(5));
        assert_eq!(auction.open(2), Err(5));
        assert_eq!(auction.open(c), Ok(()));
        assert!(close(&mut auction).is_ok_and(|excess| excess > 1_000));
    }
    assert_eq!(*auction.phase(), Phase::Closed);
}

/// Eight levels and 0 allow eight withdrawals, in one offer or over rounds.
#[test]
fn longest_history() {
    let levels: Vec<u32> = (1..=8).map(|level| 200 * level).collect();
    let falls: Vec<u32> = (0..8).rev().map(|level| 200 * level).collect();
    let prices: Vec<u32> = (0..8).map(|step| 39_999 - step).collect();
    let mut auction = sample_set_up();
    assert_eq!(auction.register(1, 1, NEW, 0, 0, &levels), Ok(()));
    assert_eq!(auction.register(2, 2, EXISTING, 0, 0, &[2_000]), Ok(()));
    let mut slowly = auction.clone();
    assert_eq!(auction.open(39_992), Ok(()));
    assert_eq!(auction.offer(1, &prices, &falls), Ok(()));
    assert_eq!(close(&mut auction), Ok(2_000 - 901));
    for (&price, &level) in prices.iter().zip(&falls) {
        assert_eq!(slowly.open(price), Ok(()));
        assert_eq!(slowly.offer(1, &[price], &[level]), Ok(()));
        assert!(slowly.close().is_ok());
    }
    assert_eq!(history(&auction, 1).len(), 8);
    assert_eq!(history(&slowly, 1), history(&auction, 1));
}
