//! Demand and its remainder, read off the price curve of numeral 3.8.
//! Prices on the curve stay fractions and are compared by cross-multiplying, so nothing is
//! rounded: demand is the least whole quantity that the curve prices at p or less, and exact
//! demand the least of all quantities.

use crate::{Answer, BEYOND_BOUNDS};

/// Dem(p), with the least quantity found by bisection; for settings of any size.
pub fn demand(ce: u64, d: u64, m1: u64, m2: u64, p: u64) -> Answer {
    let curve = Curve::within_bounds(ce, d, m1, m2, p)?;
    Ok(curve.demand(p, Curve::least_by_bisection))
}

/// Dem(p), with the quantities 0, 1, 2, .. tried one by one; for small settings.
pub fn demand_by_scan(ce: u64, d: u64, m1: u64, m2: u64, p: u64) -> Answer {
    let curve = Curve::within_bounds(ce, d, m1, m2, p)?;
    Ok(curve.demand(p, Curve::least_by_scan))
}

/// The remainder of Dem(p), in CE-ths of a kWh: rounded demand times CE less exact demand times CE
/// (document 02, request 4); for settings of any size.
pub fn demand_remainder(ce: u64, d: u64, m1: u64, m2: u64, p: u64) -> Answer {
    let curve = Curve::within_bounds(ce, d, m1, m2, p)?;
    Ok(curve.remainder(p, Curve::least_by_bisection))
}

/// The remainder, with the quantities tried one by one; for small settings.
pub fn demand_remainder_by_scan(ce: u64, d: u64, m1: u64, m2: u64, p: u64) -> Answer {
    let curve = Curve::within_bounds(ce, d, m1, m2, p)?;
    Ok(curve.remainder(p, Curve::least_by_scan))
}

/// The paper's highest CE.
pub const HIGHEST_CE: u64 = 500_000;

/// The paper's highest M2.
pub const HIGHEST_M2: u64 = 100_000_000_000;

/// The curve's settings, signed and wide enough for every product below.
pub struct Curve {
    ce: i128,
    d: i128,
    m1: i128,
    m2: i128,
}

/// A price on the curve. The denominator is not 0 and may be negative.
pub struct Fraction {
    numerator: i128,
    denominator: i128,
}

/// Finds the least number of parts of a kWh, so many to each, that the curve prices at p or less.
pub type Least = fn(&Curve, parts: i128, p: i128) -> i128;

impl Fraction {
    pub fn is(&self, price: i128) -> bool {
        self.numerator == price * self.denominator
    }

    pub fn at_most(&self, price: i128) -> bool {
        let product = price * self.denominator;
        // Multiplying by a negative denominator turns the order round.
        if self.denominator < 0 {
            self.numerator >= product
        } else {
            self.numerator <= product
        }
    }
}

impl Curve {
    /// Every bound is tested before anything is multiplied that it keeps small.
    pub fn within_bounds(ce: u64, d: u64, m1: u64, m2: u64, p: u64) -> Result<Curve, u8> {
        let cost = (2..=HIGHEST_CE).contains(&ce) && ce.is_multiple_of(2);
        let margins = 0 < m1 && m1 < d && d < m2 && m2 <= HIGHEST_M2;
        if cost && margins && ce / 2 <= p && p <= 2 * ce {
            Ok(Curve {
                ce: ce.into(),
                d: d.into(),
                m1: m1.into(),
                m2: m2.into(),
            })
        } else {
            Err(BEYOND_BOUNDS)
        }
    }

    /// p(q) of numeral 3.8, for the quantity q / parts.
    pub fn price(&self, q: i128, parts: i128) -> Fraction {
        let ce = self.ce;
        let [d, m1, m2] = [self.d, self.m1, self.m2].map(|quantity| quantity * parts);
        let (numerator, denominator) = if q < m1 {
            (2 * ce, 1)
        } else if q <= d {
            (ce * (q + m1 - 2 * d), m1 - d)
        } else if q <= m2 {
            (ce * (q + d - 2 * m2), 2 * (d - m2))
        } else {
            (ce, 2)
        };
        Fraction {
            numerator,
            denominator,
        }
    }

    pub fn demand(&self, p: u64, least: Least) -> u64 {
        let quantity = self.least_quantity(1, p.into(), least);
        u64::try_from(quantity).expect("a quantity from 0 to M2")
    }

    /// Exact demand is a whole number of CE-ths: the curve prices it at p itself.
    fn remainder(&self, p: u64, least: Least) -> u64 {
        let p = i128::from(p);
        let rounded = self.least_quantity(1, p, least);
        let exact = self.least_quantity(self.ce, p, least);
        assert!(
            self.price(exact, self.ce).is(p),
            "{exact} CE-ths are rounded"
        );
        let remainder = rounded * self.ce - exact;
        u64::try_from(remainder).expect("rounded demand is not below exact demand")
    }

    /// The least quantity, in parts of a kWh, that the curve prices at p or less. The paper's
    /// exception comes first: at 2 × CE every quantity from 0 on would do.
    fn least_quantity(&self, parts: i128, p: i128, least: Least) -> i128 {
        if p == 2 * self.ce {
            self.m1 * parts
        } else {
            least(self, parts, p)
        }
    }

    /// The scan ends at M2, which the curve prices at the floor.
    fn least_by_scan(&self, parts: i128, p: i128) -> i128 {
        let mut q = 0;
        while !self.price(q, parts).at_most(p) {
            q += 1;
        }
        q
    }

    /// The curve does not rise with q, so the quantities priced at most p are all those from the
    /// least one on. M2 is one of them; `low` stays at or below the least one.
    pub fn least_by_bisection(&self, parts: i128, p: i128) -> i128 {
        let (mut low, mut high) = (0, self.m2 * parts);
        while low < high {
            let middle = (low + high) / 2;
            if self.price(middle, parts).at_most(p) {
                high = middle;
            } else {
                low = middle + 1;
            }
        }
        low
    }
}
