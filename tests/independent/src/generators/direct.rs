//! Auctions in direct calls, from a seed: with refused calls between the others, and settlings with
//! limits and lent buffers of many lengths.

use crate::generators::random::Random;
use crate::model::auction::{Auction, Developer, Phase, EXISTING, MOST_LEVELS, NEW, NUMBERS};
use crate::model::direct::{make, FALLS, LEVELS, PRICES};

/// A line, and whether its call is accepted.
pub struct Line {
    pub text: String,
    pub accepted: bool,
}

/// The lines of an auction that is closed and settled, most often.
pub fn auction(seed: u64) -> Vec<Line> {
    let mut script = Script {
        random: Random::new(seed),
        auction: Auction::new(),
        lines: Vec::new(),
    };
    script.book();
    script.round(false);
    script.round(true);
    script.settlings();
    script.lines
}

/// The lines so far, and the auction after them.
struct Script {
    random: Random,
    auction: Auction,
    lines: Vec<Line>,
}

impl Script {
    fn write(&mut self, numbers: &[u64]) {
        let printed = make(&mut self.auction, numbers);
        let numbers: Vec<String> = numbers.iter().map(u64::to_string).collect();
        self.lines.push(Line {
            text: numbers.join(", ") + "\n",
            accepted: printed.split_whitespace().nth(1) == Some("0"),
        });
    }

    /// Writes a call, now and then behind others, most of which are refused.
    fn call(&mut self, numbers: &[u64]) {
        while self.random.chance(20) {
            self.disturb();
        }
        self.write(numbers);
    }

    /// A call out of turn or with lists of any lengths, unless it would open or close a round.
    fn disturb(&mut self) {
        let random = &mut self.random;
        let [developer, agent] = [(); 2].map(|()| random.between(0, 34));
        let no_agent = random.one_of(&[0, 33, 255]);
        let [n, m] = [(); 2].map(|()| random.between(0, PRICES.len() as u64));
        let levels = random.between(0, LEVELS.len() as u64);
        let bytes = random.between(0, 200);
        let numbers: &[u64] = match (random.between(1, 7), self.auction.phase()) {
            (1, _) => &[1, 20_000, n, 2, 4, 40_000],
            (2, Phase::Ready) => &[2, developer, developer, 3, levels],
            (2, _) => &[2, 1, developer, 2, levels],
            (3, _) => &[3, 9_999],
            (4, _) => &[4, developer, n, m],
            (5, _) => &[2, developer, developer, 3, levels, agent],
            (6, _) => &[2, developer, developer, 2, levels, no_agent],
            _ => &[6, n, bytes],
        };
        self.write(numbers);
    }

    /// Settings and registrations, most with eight levels, of which offers can fall.
    fn book(&mut self) {
        let mut projects: Vec<u8> = NUMBERS.collect();
        self.random.shuffle(&mut projects);
        let mut developers = projects.clone();
        self.random.shuffle(&mut developers);
        let most = self.random.one_of(&[3, 6, 6, 12, 32]);
        let count = self.random.between(1, most) as usize;
        let supply: u64 = LEVELS[7].into();
        let m1 = self.random.between(1, supply * count as u64 / 2);
        let d = m1 + self.random.of_any_size(1, supply * count as u64 / 2);
        let m2 = d + self.random.of_any_size(1, d);
        self.call(&[1, 20_000, d, m1, m2, 40_000]);
        for (project, developer) in projects.into_iter().zip(developers).take(count) {
            let any = self.random.between(1, MOST_LEVELS as u64);
            let levels = self.random.one_of(&[8, 8, 8, any]);
            let kind = self.random.one_of(&[EXISTING, NEW, NEW]);
            let agent = self.random.between(1, most);
            let [project, developer, kind] = [project, developer, kind].map(u64::from);
            let numbers = [2, project, developer, kind, levels, agent];
            let named = self.random.chance(50);
            self.call(if named { &numbers } else { &numbers[..5] });
        }
    }

    /// A round, if one may be opened; the last down to the floor.
    fn round(&mut self, last: bool) {
        let c = if last {
            10_000
        } else {
            self.random.between(30_000, 38_000)
        };
        self.call(&[3, c]);
        let Phase::Round(round) = self.auction.phase().clone() else {
            return;
        };
        let prices = PRICES.iter().map(|&price| u64::from(price));
        let passed = prices.filter(|price| round.passes().contains(price));
        let most = passed.count().min(8) as u64;
        let developers = self.auction.developers().values();
        let mut offering: Vec<Developer> = developers.filter(|d| d.kind == NEW).cloned().collect();
        self.random.shuffle(&mut offering);
        for developer in offering {
            let falls = round.opening > PRICES[0].into() && developer.quantity > FALLS[0].into();
            let steps = if falls {
                self.random.between(0, most)
            } else {
                0
            };
            if self.random.chance(20) {
                self.offer_unequal(developer.number);
            }
            if self.random.chance(90) {
                self.call(&[4, developer.number.into(), steps, steps]);
            }
        }
        self.call(&[5]);
    }

    /// An offer with more prices than levels, or fewer.
    fn offer_unequal(&mut self, developer: u8) {
        let more = self.random.between(1, PRICES.len() as u64);
        let fewer = self.random.between(0, more - 1);
        let [n, m] = self.random.one_of(&[[more, fewer], [fewer, more]]);
        self.call(&[4, developer.into(), n, m]);
    }

    fn settlings(&mut self) {
        for _ in 0..3 {
            let exact = 6 * self.random.between(0, 32);
            let bytes = self
                .random
                .one_of(&[192, 200, exact, exact.saturating_sub(1)]);
            let limit = self.random.one_of(&[1, 100, 65_536, u64::MAX]);
            self.call(&[6, limit, bytes]);
        }
        self.call(&[6, 65_536, 200]);
    }
}
