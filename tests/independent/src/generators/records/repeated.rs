//! Auctions settled again and again: some rounds in which every offer has no step, so that existing
//! plants alone withdraw, or nobody; behind the last closing, settlings with limits around the number
//! of choices, and refused calls between them; in nearly half of the records malformed lines too, until the
//! replies are long.

use super::books::book;
use super::late::late_book;
use super::lodgings::lodged_prices;
use super::{choices, Writer};
use crate::model::auction::{Phase, NEW};
use crate::model::replay::{lines, replay, Call, KEPT_BYTES};

/// The record of a seed.
pub fn repeated_record(seed: u64) -> Vec<u8> {
    let mut writer = Writer::new(seed);
    writer.calm_auction();
    writer.disturbed = 35;
    writer.settled_again();
    if writer.random.chance(45) {
        writer.long_replies();
    }
    if writer.random.chance(60) {
        writer.settled_again();
    }
    writer.finish()
}

/// About how many choices the settlings of a record may look at.
const BUDGET: u32 = 4_000;

/// Malformed lines that stand among blank ones, some with the second character of a closing or a
/// settling.
const MALFORMED: &[&[u8]] = &[b"0", b"05 ", b"06", b"6", b"FF0C", b"0600"];

impl Writer {
    fn calm_auction(&mut self) {
        let book = self.random.one_of(&[book, late_book, late_book])(&mut self.random);
        self.make(&book.set_up);
        for registration in &book.registrations {
            self.make(registration);
        }
        (0..self.random.between(0, 6)).for_each(|_| self.lodging());
        for _ in 0..self.random.between(2, 6) {
            if self.random.chance(30) {
                self.round(false);
            } else if *self.auction.phase() != Phase::Closed {
                let c = self.calm_price();
                self.calm_round(c as u32);
            }
        }
        self.round(true);
    }

    /// Often the highest price of a lodged step to come.
    fn calm_price(&mut self) -> u64 {
        let passes = self.auction.settings().floor()..self.auction.opening_price();
        let lodged = lodged_prices(&self.auction, &passes);
        match lodged.into_iter().max() {
            Some(highest) if self.random.chance(70) => highest,
            _ => self.closing_price_of_round(false),
        }
    }

    /// A round in which all new developers stay.
    pub(super) fn calm_round(&mut self, c: u32) {
        self.make(&Call::Open { c });
        let developers = self.auction.developers().clone().into_values();
        for developer in developers.filter(|developer| developer.kind == NEW) {
            self.make(&Call::Offer {
                developer: developer.number,
                prices: Vec::new(),
                levels: Vec::new(),
            });
        }
        self.make(&Call::Close);
    }

    /// Settlings, each perhaps behind an earlier line of the record, which is now refused or a
    /// settling too.
    fn settled_again(&mut self) {
        let exact = choices(&self.auction);
        let limits = [0, exact - 1, exact, exact, exact + 1, u32::MAX];
        for _ in 0..(BUDGET / exact).clamp(2, 24) {
            if self.random.chance(50) {
                let earlier = lines(&self.record);
                let line = earlier[self.random.index(earlier.len())].to_vec();
                self.write(&line);
            }
            let limit = self.random.one_of(&limits);
            self.make(&Call::Settle { limit });
        }
    }

    /// Malformed lines until the replies are about as long as the engine keeps them, or longer.
    fn long_replies(&mut self) {
        let about = self.random.between(0, 8);
        let more = self.random.between(0, 4_000);
        let wanted = KEPT_BYTES - 4 + self.random.one_of(&[about, more]) as usize;
        let missing = wanted.saturating_sub(replay(&self.record).len());
        for _ in 0..missing.div_ceil("FF0C\n".len()) {
            let line = MALFORMED.get(self.random.index(100));
            self.write(line.copied().unwrap_or(b""));
        }
    }
}
