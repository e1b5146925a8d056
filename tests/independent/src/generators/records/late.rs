//! Auctions stopped between rounds, in which two rivals may decide the price (document 02, request
//! 11): demand goes from below what is left to above it in the prices to come, some developers are at
//! 0, some have partners in their project, and lodged steps lie ahead.

use super::books::{register, some_levels, supply, Book};
use super::Writer;
use crate::generators::random::Random;
use crate::model::auction::{Phase, EXISTING, NEW, NUMBERS};
use crate::model::replay::Call;

/// The record of a seed, of an auction between rounds.
pub fn late_record(seed: u64) -> Vec<u8> {
    let mut writer = Writer::new(seed);
    writer.late_auction();
    writer.finish()
}

/// How often a round is tried before all stay in a short one.
const TRIES: u64 = 6;

impl Writer {
    fn late_auction(&mut self) {
        let book = late_book(&mut self.random);
        self.make(&book.set_up);
        for registration in &book.registrations {
            self.make(registration);
        }
        (0..self.random.between(0, 4)).for_each(|_| self.lodging());
        (0..self.random.one_of(&[1, 1, 2, 3])).for_each(|_| self.round_before_others());
    }

    /// A round behind which another may be opened: one that would end the auction is not made.
    fn round_before_others(&mut self) {
        let (record, auction) = (self.record.clone(), self.auction.clone());
        for _ in 0..TRIES {
            self.round(false);
            if *self.auction.phase() == Phase::Between {
                return;
            }
            (self.record, self.auction) = (record.clone(), auction.clone());
        }
        // A round of one price, in which all stay.
        let c = self.auction.opening_price() - 1;
        self.calm_round(c as u32);
        if *self.auction.phase() != Phase::Between {
            (self.record, self.auction) = (record, auction);
        }
    }
}

/// Some existing plants, and new projects of one developer or several, whose levels are alike.
pub(super) fn late_book(random: &mut Random) -> Book {
    let unit = random.one_of(&[1_000, 1_000, 1_001, 7_000, 250_000, 20_000_000]);
    let scale: Vec<u32> = (1..=random.one_of(&[3, 8, 20]))
        .map(|multiple| multiple * unit)
        .collect();
    let mut numbers: Vec<u8> = NUMBERS.collect();
    random.shuffle(&mut numbers);
    let (existing, mut new) = numbers.split_at(random.between(1, 3) as usize);
    let mut registrations: Vec<Call> = existing
        .iter()
        .map(|&number| {
            let levels = some_levels(random, &scale);
            register(random, number, number, EXISTING, levels)
        })
        .collect();
    for _ in 0..random.one_of(&[2, 2, 3, 4, 7]) {
        let members = random.one_of(&[1, 1, 1, 2, 2, 3]);
        let project = new[0];
        for &developer in &new[..members] {
            let levels = some_levels(random, &scale);
            registrations.push(register(random, project, developer, NEW, levels));
        }
        new = &new[members..];
    }
    random.shuffle(&mut registrations);
    Book {
        set_up: late_settings(random, supply(&registrations)),
        registrations,
    }
}

/// Settings under which such a supply covers A, which is 2 × CE, but often not the floor, where Dem is
/// M2.
fn late_settings(random: &mut Random, supply: u64) -> Call {
    let any = random.of_any_size(5, 250_000);
    let ce = 2 * random.one_of(&[8, 20, 100, 10_000, 10_000, 250_000, any]);
    let d = random.between(supply / 4 + 1, supply);
    let m1 = d - random.between(1, d - d / 2);
    let m2 = d + random.between(1, supply);
    Call::SetUp {
        ce,
        d,
        m1: m1.max(1),
        m2,
        a: 2 * ce,
    }
}
