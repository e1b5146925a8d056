//! Settling by calls: the closing price, open levels, the award with its ties, developers of
//! awarded levels, limits and buffers. The paper's plausible errors among them.

use super::{close, sample_closed, sample_opened, sample_registered, sample_set_up};
use independent::model::auction::{Auction, EXISTING, NEW};
use independent::model::settling::{number_of_choices, Award, Settlement};

/// A developer's fall: project, number, study value, start day, levels, new level.
type Fall<'a> = (u8, u8, u32, u32, &'a [u32], u32);

/// A closed auction in which an existing plant on project 32 stays and all falls are at
/// 30,000, where 950 are demanded.
fn closed_after(existing: u32, falls: &[Fall]) -> Auction {
    let mut auction = sample_set_up();
    let mut answers = vec![auction.register(32, 32, EXISTING, 0, 0, &[existing])];
    for &(project, developer, study, day, levels, _) in falls {
        answers.push(auction.register(project, developer, NEW, study, day, levels));
    }
    answers.push(auction.open(30_000));
    for &(_, developer, _, _, levels, to) in falls {
        let steps = usize::from(levels.last() != Some(&to));
        answers.push(auction.offer(developer, &[30_000][..steps], &[to][..steps]));
    }
    answers.push(close(&mut auction).map(|excess| assert!(excess <= 0)));
    assert_eq!(answers, vec![Ok(()); answers.len()]);
    auction
}

/// The same auction, settled.
fn fallen(existing: u32, falls: &[Fall]) -> (Auction, Settlement) {
    let auction = closed_after(existing, falls);
    let settled = auction.settle(65_536, &mut [0; 192]);
    let settlement = settled.expect("choices within the limit");
    assert_eq!(settlement.price, 30_000);
    (auction, settlement)
}

/// The awards as (project, developer, quantity).
fn awards(settlement: &Settlement) -> Vec<(u8, u8, u64)> {
    let tuple = |award: &Award| (award.project, award.developer, award.quantity);
    settlement.awards.iter().map(tuple).collect()
}

/// The round ended at 25,000, but 26,000 is the lowest price that the highs cover.
#[test]
fn closing_price_above_c() {
    let auction = sample_closed();
    assert!(auction.covered(26_000) && !auction.covered(25_999));
    assert_eq!(auction.closing_price(), 26_000);
    assert_eq!(auction.closing_price_by_walk(), 26_000);
}

/// Without offers the closing price is A, where the withdrawals were made.
#[test]
fn closing_price_at_a() {
    let mut auction = sample_opened();
    assert!(auction.close().is_ok());
    assert_eq!(auction.closing_price(), 40_000);
    assert_eq!(auction.closing_price_by_walk(), 40_000);
    assert_eq!(auction.settle(5, &mut [0; 192]), Err(10));
    // 0, 100 or 200 of project 2, and 0 or 150 of project 3, beside the 820.
    let settlement = auction.settle(6, &mut [0; 192]).expect("six choices");
    assert_eq!((settlement.choices, settlement.covering), (6, 5));
    assert_eq!((settlement.demand, settlement.total), (900, 920));
}

/// In the sample 1,170 would keep both plants that leave at 26,000; 1,020 keeps one.
#[test]
fn not_all_that_leave() {
    let auction = sample_closed();
    let open = auction.open_levels(26_000);
    assert_eq!(open[&1], [820]);
    assert_eq!(open[&2], [100, 200]);
    assert_eq!(open[&3], [0, 150]);
    let settlement = auction.settle(4, &mut [0; 192]).expect("four choices");
    assert_eq!(settlement.total, 1_020);
}

/// Withdrawals above P count in high and low, those at P in low alone, those below in none.
#[test]
fn highs_and_lows() {
    let mut auction = sample_registered();
    assert_eq!(auction.open(25_000), Ok(()));
    assert_eq!(auction.offer(2, &[30_000, 26_000], &[100, 0]), Ok(()));
    assert!(auction.close().is_ok());
    let developer = &auction.developers()[&2];
    for (p, high, low) in [
        (40_000, 200, 200),
        (30_001, 200, 200),
        (30_000, 200, 100),
        (29_999, 100, 100),
        (26_000, 100, 0),
        (25_999, 0, 0),
    ] {
        assert_eq!((developer.high(p), developer.low(p)), (high, low), "p {p}");
    }
    // A missing offer withdraws at A: high there, low 0.
    let missing = &auction.developers()[&4];
    assert_eq!((missing.high(40_000), missing.low(40_000)), (150, 0));
    assert_eq!(missing.high(39_999), 0);
}

/// A fall over several levels leaves them all open, and 0 if it goes there.
#[test]
fn levels_between() {
    let levels = &[10, 20, 30, 60];
    let (auction, _) = fallen(900, &[(1, 1, 0, 0, levels, 20)]);
    assert_eq!(auction.open_levels(30_000)[&1], [20, 30, 60]);
    let (auction, _) = fallen(900, &[(1, 1, 0, 0, levels, 0)]);
    assert_eq!(auction.open_levels(30_000)[&1], [0, 10, 20, 30, 60]);
    // Above all withdrawals low is high.
    assert_eq!(auction.open_levels(30_001)[&1], [60]);
}

/// A level that several developers have open counts once; none is open below the project's low.
#[test]
fn levels_of_a_project() {
    let falls: &[Fall] = &[
        (1, 1, 0, 0, &[50, 100, 150, 200], 0),
        (1, 2, 0, 0, &[50, 120, 150], 50),
        (1, 3, 0, 0, &[30, 100], 100),
    ];
    let (auction, settlement) = fallen(770, falls);
    assert_eq!(auction.open_levels(30_000)[&1], [100, 120, 150, 200]);
    assert_eq!((settlement.choices, settlement.covering), (4, 1));
    assert_eq!(awards(&settlement), [(1, 1, 200), (32, 32, 770)]);
}

/// Of equal totals, the larger level at the lowest project number where they differ.
#[test]
fn equal_totals() {
    let falls: &[Fall] = &[
        (5, 9, 0, 0, &[50, 100], 0),
        (3, 8, 0, 0, &[50, 100], 0),
        (7, 7, 0, 0, &[50, 100], 0),
    ];
    let (_, settlement) = fallen(750, falls);
    // 200 of 300: (100, 100, 0) before (100, 50, 50), (100, 0, 100), (50, 100, 50), ..
    assert_eq!(
        awards(&settlement),
        [(3, 8, 100), (5, 9, 100), (32, 32, 750)]
    );
    assert_eq!((settlement.choices, settlement.covering), (27, 10));
    assert_eq!(settlement.total, 950);
}

/// The least total decides before the tie rule, and covering before the least total.
#[test]
fn least_total() {
    let falls: &[Fall] = &[
        (1, 1, 0, 0, &[90], 0),
        (2, 2, 0, 0, &[60], 0),
        (3, 3, 0, 0, &[55], 0),
    ];
    // 50 are missing: 55 is the least that covers, and 60 or 90 would stand before it.
    let (_, settlement) = fallen(900, falls);
    assert_eq!(awards(&settlement), [(3, 3, 55), (32, 32, 900)]);
    // 56 are missing, then 61, then 91.
    assert_eq!(fallen(894, falls).1.total, 894 + 60);
    assert_eq!(fallen(889, falls).1.total, 889 + 90);
    assert_eq!(fallen(859, falls).1.total, 859 + 115);
}

/// Highest study value, then earliest start day, then lowest number.
#[test]
fn developers_of_a_level() {
    for (falls, developer) in [
        ([(400, 10), (500, 20), (499, 0)], 2),
        ([(500, 10), (500, 9), (499, 0)], 2),
        ([(500, 10), (500, 11), (500, 9)], 3),
        ([(500, 10), (500, 10), (500, 10)], 1),
        ([(0, 0), (0, 0), (u32::MAX, u32::MAX)], 3),
    ] {
        let falls: Vec<Fall> = std::iter::zip(1.., falls)
            .map(|(number, (study, day))| (4, number, study, day, &[100][..], 0))
            .collect();
        let (_, settlement) = fallen(860, &falls);
        assert_eq!(awards(&settlement), [(4, developer, 100), (32, 32, 860)]);
    }
}

/// A level goes to none to whom it is not open: not declared, above its high, below its low.
#[test]
fn developers_without_the_level() {
    let falls: &[Fall] = &[
        (4, 1, 900, 0, &[90, 101], 0),
        (4, 2, 100, 0, &[100], 0),
        (4, 3, 50, 0, &[100], 0),
    ];
    let (_, settlement) = fallen(850, falls);
    assert_eq!(awards(&settlement), [(4, 2, 100), (32, 32, 850)]);
    let mut auction = sample_set_up();
    for answer in [
        auction.register(1, 1, EXISTING, 0, 0, &[850]),
        auction.register(2, 2, NEW, 900, 0, &[100]),
        auction.register(2, 3, NEW, 0, 0, &[100]),
        auction.open(29_000),
        auction.offer(2, &[31_000], &[0]),
        auction.offer(3, &[30_000], &[0]),
        auction.close().map(|_| ()),
    ] {
        assert_eq!(answer, Ok(()));
    }
    let settlement = auction.settle(2, &mut [0; 192]).expect("two choices");
    assert_eq!(settlement.price, 30_000);
    assert_eq!(awards(&settlement), [(1, 1, 850), (2, 3, 100)]);
}

/// A project awarded 0 has no record; its place in the buffer is the next one's.
#[test]
fn projects_at_0() {
    let (auction, settlement) = fallen(950, &[(1, 1, 0, 0, &[100], 0)]);
    assert_eq!((settlement.choices, settlement.covering), (2, 2));
    assert_eq!(awards(&settlement), [(32, 32, 950)]);
    let mut buffer = [0xEE; 7];
    assert_eq!(auction.settle(2, &mut buffer), Ok(settlement));
    assert_eq!(buffer, [32, 32, 0, 0, 0x03, 0xB6, 0xEE]);
}

/// Sixteen projects with two open levels each make 65,536 choices; a seventeenth is too many.
#[test]
fn limits() {
    let falls: Vec<Fall> = (1..=17).map(|n| (n, n, 0, 0, &[100][..], 0)).collect();
    let (auction, settlement) = fallen(150, &falls[..16]);
    assert_eq!(settlement.choices, 65_536);
    assert_eq!(settlement.total, 950);
    for (limit, accepted) in [
        (0, false),
        (65_535, false),
        (65_536, true),
        (65_537, true),
        (u64::MAX, true),
    ] {
        let settled = auction.settle(limit, &mut [0; 192]);
        assert_eq!(settled, accepted.then(|| settlement.clone()).ok_or(10));
    }
    let seventeen = closed_after(150, &falls);
    let eight = &[1, 2, 3, 4, 5, 6, 7, 100];
    let most: Vec<Fall> = (1..=31).map(|n| (n, n, 0, 0, &eight[..], 0)).collect();
    let most = closed_after(150, &most);
    for (auction, choices) in [(seventeen, 131_072), (most, u64::MAX)] {
        assert_eq!(number_of_choices(&auction.open_levels(30_000)), choices);
        for limit in [0, 65_536, 65_537, u64::MAX] {
            assert_eq!(auction.settle(limit, &mut [0; 192]), Err(10));
        }
    }
}

/// A short buffer stays as it is; in a longer one the bytes behind the records do.
#[test]
fn buffers() {
    let auction = sample_closed();
    for length in 0..=24 {
        let mut buffer = vec![0xEE; length];
        let settled = auction.settle(4, &mut buffer);
        let written = if length < 12 { 0 } else { 12 };
        assert_eq!(settled.err(), (length < 12).then_some(11));
        assert!(buffer[..written].starts_with(&[1, 1, 0, 0][..written.min(4)]));
        assert!(buffer[written..].iter().all(|&byte| byte == 0xEE));
    }
}
