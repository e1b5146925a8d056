//! Agents and participation (document 02, request 10) by calls: which agent a registration has, who is
//! small, when participation is sufficient, and what existing plants are paid.

use super::{close, sample_closed, sample_opened, sample_set_up};
use independent::generators::records::fixed;
use independent::model::auction::{Auction, EXISTING, HIGHEST_LEVEL, NEW};
use independent::model::direct::printed;
use independent::model::replay::replay;
use independent::model::settling::{Award, Settlement};

/// A plant: developer, which is also its project, kind, agent and level.
type Plant = (u8, u8, u8, u32);

/// The sample's settings with these plants: D is 1,000, so that 150 are 15 per cent.
fn registered(plants: &[Plant]) -> Auction {
    let mut auction = sample_set_up();
    for &(number, kind, agent, level) in plants {
        let registered = auction.register_for(number, number, kind, agent, 0, 0, &[level]);
        registered.expect("a sound registration");
    }
    auction
}

/// A round down to C in which new plants leave at this price, settled.
fn settled(mut auction: Auction, c: u32, leave_at: u32) -> Settlement {
    auction.open(c).expect("A is covered");
    let developers = auction.developers().values();
    let new: Vec<u8> = developers
        .filter(|d| d.kind == NEW)
        .map(|d| d.number)
        .collect();
    for developer in new {
        let offered = auction.offer(developer, &[leave_at], &[0]);
        offered.expect("a sound offer");
    }
    assert!(close(&mut auction).is_ok_and(|excess| excess < 1_000));
    let settled = auction.settle(65_536, &mut [0; 192]);
    settled.expect("choices within the limit")
}

/// The mark and the price paid where new plants leave at 26,000; 22,000 is CE × 11 / 10.
fn marked(plants: &[Plant]) -> (bool, u64) {
    let settlement = settled(registered(plants), 25_000, 26_000);
    assert_eq!(settlement.price, 26_000);
    (settlement.insufficient, settlement.paid)
}

const SUFFICIENT: (bool, u64) = (false, 26_000);
const INSUFFICIENT: (bool, u64) = (true, 22_000);

#[test]
fn agent_of_a_registration() {
    let (mut own, mut named, mut other) = (sample_set_up(), sample_set_up(), sample_set_up());
    assert_eq!(own.register(3, 7, NEW, 5, 6, &[8]), Ok(()));
    assert_eq!(named.register_for(3, 7, NEW, 7, 5, 6, &[8]), Ok(()));
    assert_eq!(other.register_for(3, 7, NEW, 32, 5, 6, &[8]), Ok(()));
    assert_eq!(own.developers()[&7].agent, 7);
    assert_eq!(other.developers()[&7].agent, 32);
    assert!(own == named && own != other);
}

/// 3 for the agent as for the other numbers: after 2 and before 4.
#[test]
fn agents_refused() {
    for agent in [0, 33, 34, 255] {
        let mut auction = registered(&[(1, EXISTING, 1, 820)]);
        let before = auction.clone();
        for (kind, levels) in [(NEW, &[5][..]), (3, &[5]), (NEW, &[5, 5]), (NEW, &[])] {
            let answer = auction.register_for(2, 2, kind, agent, 0, 0, levels);
            assert_eq!(answer, Err(3), "agent {agent}");
        }
        assert_eq!(auction.register_for(1, 2, NEW, agent, 0, 0, &[5]), Err(3));
        assert_eq!(auction, before);
        for mut auction in [Auction::new(), sample_opened(), sample_closed()] {
            assert_eq!(auction.register_for(9, 9, NEW, agent, 0, 0, &[5]), Err(2));
        }
    }
    for agent in [1, 32] {
        let mut auction = sample_set_up();
        assert_eq!(
            auction.register_for(2, 2, NEW, agent, 0, 0, &[5, 5]),
            Err(4)
        );
        assert_eq!(auction.register_for(2, 33, NEW, agent, 0, 0, &[5]), Err(3));
        assert_eq!(auction.register_for(0, 2, NEW, agent, 0, 0, &[5]), Err(3));
        assert_eq!(auction.register_for(2, 2, NEW, agent, 0, 0, &[5]), Ok(()));
        assert_eq!(auction.register_for(3, 2, NEW, agent, 0, 0, &[5]), Err(3));
    }
}

/// Strictly below 15 per cent, by the sum over the agent's existing plants alone.
#[test]
fn small() {
    for (plants, is_small) in [
        (&[][..], true),
        (&[(1, EXISTING, 9, 149)], true),
        (&[(1, EXISTING, 9, 150)], false),
        (&[(1, EXISTING, 9, 151)], false),
        (&[(1, EXISTING, 9, 100), (2, EXISTING, 9, 49)], true),
        (&[(1, EXISTING, 9, 100), (2, EXISTING, 9, 50)], false),
        (&[(9, EXISTING, 1, 820)], true),
        (&[(1, NEW, 9, 820)], true),
        (&[(1, NEW, 9, 820), (9, EXISTING, 9, 149)], true),
        (&[(1, NEW, 9, 820), (9, EXISTING, 9, 150)], false),
    ] {
        let auction = registered(plants);
        assert_eq!(auction.is_small(9), is_small, "{plants:?}");
        assert!(auction.is_small(30));
    }
    let mut greatest = Auction::new();
    let set_up = greatest.set_up(2, 99_999_999_999, 1, 100_000_000_000, 4);
    assert_eq!(set_up, Ok(()));
    for number in 1..=15 {
        assert!(greatest.is_small(9));
        let answer = greatest.register_for(number, number, EXISTING, 9, 0, 0, &[HIGHEST_LEVEL]);
        assert_eq!(answer, Ok(()));
    }
    assert!(!greatest.is_small(9));
}

/// The highest of several levels, before and after all of it is withdrawn.
#[test]
fn small_by_highest_levels() {
    let mut auction = registered(&[(1, EXISTING, 1, 900)]);
    let plant = auction.register_for(2, 2, EXISTING, 9, 0, 0, &[10, 150]);
    assert_eq!(plant, Ok(()));
    assert_eq!(auction.lodge(2, &[39_000], &[0]), Ok(()));
    assert!(!auction.is_small(9));
    assert_eq!(auction.open(30_000), Ok(()));
    assert_eq!(close(&mut auction), Ok(900 - 950));
    assert_eq!(auction.developers()[&2].quantity, 0);
    assert!(!auction.is_small(9));
}

/// At least half of the new award; what existing plants get is no part of it.
#[test]
fn sufficient() {
    let plants = [
        (1, EXISTING, 1, 700),
        (2, EXISTING, 2, 100),
        (3, NEW, 1, 100),
        (4, NEW, 1, 101),
        (5, NEW, 5, 100),
        (6, NEW, 2, 60),
        (7, NEW, 7, 40),
    ];
    let auction = registered(&plants);
    let awards = |developers: &[u8]| -> Vec<Award> {
        let award = |&developer: &u8| {
            let quantity = auction.developers()[&developer].quantity;
            Award {
                project: developer,
                developer,
                quantity,
            }
        };
        developers.iter().map(award).collect()
    };
    for (developers, sufficient) in [
        (&[][..], true),
        (&[1, 2], true),
        (&[1, 2, 5], true),
        (&[3], false),
        (&[1, 2, 3], false),
        (&[3, 5], true),
        (&[1, 2, 3, 5], true),
        (&[4, 5], false),
        (&[4, 5, 7], true),
        (&[3, 6], false),
        (&[3, 6, 7], true),
        (&[2, 4, 6, 7], false),
        (&[3, 4, 5, 6], false),
    ] {
        let awards = awards(developers);
        assert_eq!(
            auction.participation_is_sufficient(&awards),
            sufficient,
            "{developers:?}"
        );
    }
}

/// Whole settlings: 150 and 149 of 1,000, several plants of the agent, an agent without plants.
#[test]
fn marks() {
    for (plants, expected) in [
        (&[(1, EXISTING, 1, 820), (2, NEW, 2, 200)][..], SUFFICIENT),
        (&[(1, EXISTING, 1, 820), (2, NEW, 1, 200)], INSUFFICIENT),
        (&[(1, EXISTING, 2, 820), (2, NEW, 2, 200)], INSUFFICIENT),
        (&[(1, EXISTING, 9, 820), (2, NEW, 9, 200)], INSUFFICIENT),
        (
            &[
                (1, EXISTING, 1, 670),
                (5, EXISTING, 7, 150),
                (3, NEW, 7, 200),
            ],
            INSUFFICIENT,
        ),
        (
            &[
                (1, EXISTING, 1, 671),
                (5, EXISTING, 7, 149),
                (3, NEW, 7, 200),
            ],
            SUFFICIENT,
        ),
        (
            &[
                (1, EXISTING, 7, 700),
                (5, EXISTING, 7, 100),
                (3, NEW, 7, 200),
            ],
            INSUFFICIENT,
        ),
        // Half and half; both are needed.
        (
            &[(1, EXISTING, 1, 770), (2, NEW, 1, 100), (3, NEW, 3, 100)],
            SUFFICIENT,
        ),
        (
            &[(1, EXISTING, 1, 770), (2, NEW, 1, 101), (3, NEW, 3, 100)],
            INSUFFICIENT,
        ),
    ] {
        assert_eq!(marked(plants), expected, "{plants:?}");
    }
}

/// With no new award it is sufficient, whoever made offers.
#[test]
fn no_new_award() {
    let plants = [(1, EXISTING, 1, 975), (2, NEW, 1, 100)];
    let settlement = settled(registered(&plants), 25_000, 39_000);
    assert_eq!(settlement.awards.len(), 1);
    assert_eq!((settlement.insufficient, settlement.paid), (false, 25_000));
}

/// A level goes to one developer of the project, and its agent counts.
#[test]
fn agent_of_the_awarded_developer() {
    for (studies, expected) in [([500, 400], SUFFICIENT), ([400, 500], INSUFFICIENT)] {
        let mut auction = registered(&[(1, EXISTING, 1, 820)]);
        for (developer, agent, study) in [(2, 20, studies[0]), (3, 1, studies[1])] {
            let answer = auction.register_for(2, developer, NEW, agent, study, 0, &[200]);
            assert_eq!(answer, Ok(()));
        }
        let settlement = settled(auction, 25_000, 26_000);
        assert_eq!((settlement.insufficient, settlement.paid), expected);
    }
}

/// The lower of P and CE × 11 / 10; P where participation is sufficient.
#[test]
fn paid() {
    for (price, paid) in [
        (39_999, 22_000),
        (22_001, 22_000),
        (22_000, 22_000),
        (21_999, 21_999),
        (20_000, 20_000),
    ] {
        for (agent, insufficient, paid) in [(1, true, paid), (2, false, price)] {
            let plants = [(1, EXISTING, 1, 820), (2, NEW, agent, 300)];
            let settlement = settled(registered(&plants), 20_000, price as u32);
            assert_eq!(settlement.price, price);
            assert_eq!(
                (settlement.insufficient, settlement.paid),
                (insufficient, paid)
            );
        }
    }
}

/// CE × 11 / 10 rounded down, for each rest.
#[test]
fn rounded_down() {
    for (ce, most) in [
        (2, 2),
        (4, 4),
        (6, 6),
        (8, 8),
        (10, 11),
        (12, 13),
        (18, 19),
        (499_998, 549_997),
        (500_000, 550_000),
    ] {
        let mut auction = Auction::new();
        assert_eq!(auction.set_up(ce, 1_000, 900, 1_200, 2 * ce), Ok(()));
        assert_eq!(auction.most_paid(), most);
        assert_eq!(auction.paid_to_existing(most + 1, true), most);
        assert_eq!(auction.paid_to_existing(most, true), most);
        assert_eq!(auction.paid_to_existing(most - 1, true), most - 1);
        assert_eq!(auction.paid_to_existing(most + 1, false), most + 1);
    }
}

/// Mark and price paid of the fixed records that settle, in their order, worked out by hand.
#[test]
fn fixed_records() {
    let mut groups = fixed::groups().into_iter();
    let group = groups.find(|(name, _)| *name == "participation");
    let (_, records) = group.expect("a group of fixed records");
    let ends: Vec<(bool, u64)> = records.iter().filter_map(|record| end(record)).collect();
    let rounded = [2, 4, 6, 8, 11, 13, 15, 17, 19, 22].map(|most| (true, most));
    let expected = [
        &[
            INSUFFICIENT,
            (false, 19_000),
            (false, 25_000),
            SUFFICIENT,
            INSUFFICIENT,
            (false, 17_550),
            SUFFICIENT,
            INSUFFICIENT,
        ][..],
        // 149,999, 150,000 and 150,001 of 1,000,000; 149, 150, 150 and 151 of 1,000.
        &[SUFFICIENT, INSUFFICIENT, INSUFFICIENT],
        &[SUFFICIENT, INSUFFICIENT, INSUFFICIENT, INSUFFICIENT],
        // 99, 100 and 101 beside 100.
        &[INSUFFICIENT, (false, 25_200), (false, 25_000)],
        &[SUFFICIENT, INSUFFICIENT],
        &[INSUFFICIENT, INSUFFICIENT, (true, 21_999)],
        &rounded,
        &[(false, 37_001), INSUFFICIENT],
    ];
    assert_eq!(ends, expected.concat());
}

/// The mark and the price paid at the end of the record's last reply, if it settles.
fn end(record: &[u8]) -> Option<(bool, u64)> {
    let replies = String::from_utf8(replay(record)).expect("digits");
    let last = replies
        .lines()
        .last()
        .filter(|last| last.starts_with("0600"))?;
    let (mark, paid) = last[last.len() - 10..].split_at(2);
    Some((mark == "01", u64::from_str_radix(paid, 16).expect("digits")))
}

/// A line of direct calls with an agent behind the levels, which is answered as a frame 08.
#[test]
fn direct_calls() {
    let lines = "1, 20000, 20000000, 18000000, 24000000, 40000\n2, 1, 1, 1, 8, 32\n\
                 2, 2, 2, 2, 8, 33\n2, 2, 2, 3, 8, 0\n2, 2, 2, 3, 8, 1\n2, 2, 2, 2, 8\n";
    assert_eq!(printed(lines), "1 0\n8 0\n8 3\n8 3\n8 4\n2 0\n");
}
