//! Demand and its remainder beside document 01's formulas and marked cases.

use independent::generators::random::Random;
use independent::generators::sample::MARKED_CASES;
use independent::model::demand::{
    demand, demand_by_scan, demand_remainder, demand_remainder_by_scan,
};
use independent::model::demand::{Curve, HIGHEST_CE, HIGHEST_M2};
use independent::BEYOND_BOUNDS;

#[test]
fn marked_cases() {
    for ([ce, d, m1, m2, p], quantity, remainder) in MARKED_CASES {
        assert_eq!(demand(ce, d, m1, m2, p), Ok(quantity), "p {p}");
        assert_eq!(demand_by_scan(ce, d, m1, m2, p), Ok(quantity), "p {p}");
        assert_eq!(demand_remainder(ce, d, m1, m2, p), Ok(remainder), "p {p}");
    }
}

/// Calls `visit` with all D, M1, M2 in order, M2 at most `widest`.
fn margins_up_to(widest: u64, mut visit: impl FnMut(u64, u64, u64)) {
    for m2 in 3..=widest {
        for d in 2..m2 {
            (1..d).for_each(|m1| visit(d, m1, m2));
        }
    }
}

#[test]
fn bisection_is_the_scan() {
    let mut settings = 0;
    for ce in [2, 4, 6, 10, 14, 22, 30] {
        margins_up_to(16, |d, m1, m2| {
            settings += 1;
            // One price beyond each end, so that both refuse alike.
            for p in ce / 2 - 1..=2 * ce + 1 {
                assert_eq!(
                    demand(ce, d, m1, m2, p),
                    demand_by_scan(ce, d, m1, m2, p),
                    "CE {ce}, D {d}, M1 {m1}, M2 {m2}, p {p}"
                );
                assert_eq!(
                    demand_remainder(ce, d, m1, m2, p),
                    demand_remainder_by_scan(ce, d, m1, m2, p),
                    "CE {ce}, D {d}, M1 {m1}, M2 {m2}, p {p}"
                );
            }
        });
    }
    assert_eq!(settings, 7 * 560);
}

/// Document 01's formulas: what the whole part of (D - M1)(p - CE)/CE leaves, and what rounding
/// 2(M2 - D)(CE - p)/CE up adds. From 0 to CE - 1; 0 exactly where the curve prices Dem(p) at p.
#[test]
fn remainder_by_formulas() {
    let mut random = Random::new(4);
    let mut zeros = 0;
    for _ in 0..100_000 {
        let ce = 2 * random.of_any_size(1, HIGHEST_CE / 2);
        let m2 = random.of_any_size(3, HIGHEST_M2);
        let d = m2 - random.of_any_size(1, m2 - 2);
        let m1 = d - random.of_any_size(1, d - 1);
        let p = random.between(ce / 2, 2 * ce);
        let remainder = demand_remainder(ce, d, m1, m2, p).expect("within the bounds");
        let expected = if p >= ce {
            (d - m1) * (p - ce) % ce
        } else {
            (2 * (m2 - d) * (ce - p)).next_multiple_of(ce) - 2 * (m2 - d) * (ce - p)
        };
        assert_eq!(
            remainder, expected,
            "CE {ce}, D {d}, M1 {m1}, M2 {m2}, p {p}"
        );
        assert!(remainder < ce);
        let curve = Curve::within_bounds(ce, d, m1, m2, p).expect("within the bounds");
        let demanded = curve.demand(p, Curve::least_by_bisection);
        let whole = curve.price(demanded.into(), 1).is(p.into());
        assert_eq!(
            remainder == 0,
            whole,
            "CE {ce}, D {d}, M1 {m1}, M2 {m2}, p {p}"
        );
        zeros += u64::from(remainder == 0);
    }
    assert!((1_000..99_000).contains(&zeros), "{zeros} remainders of 0");
}

/// What bisection rests on.
#[test]
fn curve_does_not_rise() {
    margins_up_to(12, |d, m1, m2| {
        let curve = Curve::within_bounds(6, d, m1, m2, 6).expect("within the bounds");
        for p in 3..=12 {
            for parts in [1, 6] {
                let quantities = 0..=(i128::from(m2) + 2) * parts;
                let cheap = quantities.map(|q| curve.price(q, parts).at_most(p));
                assert!(cheap.is_sorted(), "D {d}, M1 {m1}, M2 {m2}, p {p}");
            }
        }
    });
}

#[test]
fn corners_of_the_curve() {
    let highest = HIGHEST_M2;
    for (d, m1, m2) in [
        (1_000, 900, 1_200),
        (2, 1, 3),
        (2, 1, highest),
        (highest - 1, 1, highest),
        (highest - 1, highest - 2, highest),
    ] {
        for ce in [2, 20_000, HIGHEST_CE] {
            assert_eq!(demand(ce, d, m1, m2, 2 * ce), Ok(m1));
            assert_eq!(demand(ce, d, m1, m2, ce), Ok(d));
            assert_eq!(demand(ce, d, m1, m2, ce / 2), Ok(m2));
            for p in [2 * ce, ce, ce / 2] {
                assert_eq!(demand_remainder(ce, d, m1, m2, p), Ok(0));
            }
        }
    }
}

#[test]
fn beyond_each_bound() {
    for (ce, d, m1, m2, p) in [
        (0, 1_000, 900, 1_200, 0),
        (1, 1_000, 900, 1_200, 1),
        (3, 1_000, 900, 1_200, 3),
        (HIGHEST_CE + 2, 1_000, 900, 1_200, HIGHEST_CE),
        (20_000, 1_000, 0, 1_200, 20_000),
        (20_000, 1_000, 1_000, 1_200, 20_000),
        (20_000, 1_200, 900, 1_200, 20_000),
        (20_000, 1_000, 900, HIGHEST_M2 + 1, 20_000),
        (20_000, 1_000, 900, 1_200, 9_999),
        (20_000, 1_000, 900, 1_200, 40_001),
        (u64::MAX, u64::MAX, u64::MAX, u64::MAX, u64::MAX),
        (u64::MAX - 1, u64::MAX - 1, 1, u64::MAX, u64::MAX),
    ] {
        assert_eq!(demand(ce, d, m1, m2, p), Err(BEYOND_BOUNDS));
        assert_eq!(demand_by_scan(ce, d, m1, m2, p), Err(BEYOND_BOUNDS));
        assert_eq!(demand_remainder(ce, d, m1, m2, p), Err(BEYOND_BOUNDS));
    }
}
