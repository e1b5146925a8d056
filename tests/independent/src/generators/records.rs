//! Records from a seed, to run this implementation and the engine on: the same seed gives the
//! same record. Most are auctions that settle, with refused calls and damaged lines between
//! their calls; each line is also made here, so that the next one can fit the auction.

mod agents;
mod aimed;
mod books;
mod cancellations;
mod counted;
mod crowded;
pub(crate) mod damage;
pub mod edges;
pub mod fixed;
mod late;
mod lodgings;
mod long;
pub(crate) mod offers;
pub(crate) mod refused;
mod repeated;
pub mod timed;

use crate::generators::random::Random;
use crate::model::auction::{Auction, Phase};
use crate::model::replay::{make, read_call, write_call, Call};
use crate::model::settling::number_of_choices;
use crate::parts::in_parts;
pub use agents::with_agent;
pub use aimed::DECISIVE;
use books::Book;
pub use counted::{largest_book, LARGEST_BOOKS};
pub use crowded::{easy_book, hard_book};
pub use late::late_record;
pub use long::long_record;
pub use repeated::repeated_record;
use std::ops::Range;

/// Makes records of one sort.
pub type Records = fn() -> Vec<Vec<u8>>;

/// The records of the seeds.
pub fn records_of(seeds: Range<u64>) -> Vec<Vec<u8>> {
    let seeds: Vec<u64> = seeds.collect();
    let records = |seeds: &[u64]| seeds.iter().copied().map(record).collect::<Vec<_>>();
    in_parts(&seeds, records).concat()
}

/// The record of a seed.
pub fn record(seed: u64) -> Vec<u8> {
    let mut writer = Writer::new(seed);
    match writer.random.between(1, 100) {
        1..=74 => writer.auction(books::book),
        75..=84 => writer.auction(agents::even_book),
        85..=88 => writer.auction(books::long_book),
        89..=90 => writer.counted_auction(),
        91..=95 => writer.any_calls(),
        _ => {
            writer.auction(books::book);
            damage::record(&mut writer.random, &mut writer.record);
        }
    }
    writer.finish()
}

/// A record as it grows, and the auction after its lines.
struct Writer {
    random: Random,
    auction: Auction,
    record: Vec<u8>,
    /// How many of a hundred lines have a refused one before them.
    disturbed: u64,
    /// Whether some offers are taken back.
    cancelling: bool,
}

impl Writer {
    fn new(seed: u64) -> Writer {
        let mut random = Random::new(seed);
        Writer {
            disturbed: random.one_of(&[0, 0, 5, 20, 50]),
            cancelling: random.chance(50),
            random,
            auction: Auction::new(),
            record: Vec::new(),
        }
    }

    fn write(&mut self, line: &[u8]) {
        match read_call(line) {
            // It changes nothing, and many take long.
            Some(Call::Settle { .. }) | None => (),
            // Refused or not, the auction is then as the record leaves it.
            Some(call) => drop(make(&mut self.auction, &call)),
        }
        self.record.extend_from_slice(line);
        self.record.push(b'\n');
    }

    /// Writes a call of a sound auction, perhaps behind lines that are refused.
    fn make(&mut self, call: &Call) {
        while self.random.chance(self.disturbed) {
            self.disturb();
        }
        self.write(&write_call(call));
    }

    /// Writes a line that is refused, or none.
    fn disturb(&mut self) {
        let call = refused::call(&mut self.random, &self.auction);
        let mut line = write_call(&call);
        if self.random.chance(30) {
            line = damage::line(&mut self.random, &line);
        }
        let mut auction = self.auction.clone();
        let accepted = read_call(&line).is_some_and(|call| make(&mut auction, &call).is_ok());
        if !accepted {
            self.write(&line);
        }
    }

    /// Any calls in any order, as they come.
    fn any_calls(&mut self) {
        for _ in 0..self.random.between(1, 40) {
            let call = refused::call(&mut self.random, &self.auction);
            self.write(&write_call(&call));
        }
    }

    fn auction(&mut self, book: fn(&mut Random) -> Book) {
        let book = book(&mut self.random);
        let lodging = self.random.chance(65);
        self.make(&book.set_up);
        for registration in &book.registrations {
            self.early_opening();
            self.make(registration);
            if lodging && self.random.chance(15) {
                self.lodging();
            }
        }
        if lodging {
            (0..self.random.between(1, 6)).for_each(|_| self.lodging());
        }
        let rounds = self.random.one_of(&[1, 2, 3, 3, 4, 6]);
        for left in (0..rounds).rev() {
            self.round(left == 0);
        }
        self.settlings();
    }

    /// An opening before all are registered, while A is not covered.
    fn early_opening(&mut self) {
        let settings = *self.auction.settings();
        if self.random.chance(5) && !self.auction.covered(settings.a) {
            let c = settings.floor() as u32;
            self.make(&Call::Open { c });
        }
    }

    /// A round, unless the auction is closed. The last one ends at the floor.
    fn round(&mut self, last: bool) {
        if *self.auction.phase() == Phase::Closed {
            return;
        }
        let c = self.closing_price_of_round(last);
        self.make(&Call::Open { c: c as u32 });
        self.offers(last);
        if self.random.chance(15) {
            self.aim();
        }
        self.make(&Call::Close);
    }

    /// The floor in the last round; now and then a price of a lodged step or the next above it.
    fn closing_price_of_round(&mut self, last: bool) -> u64 {
        let (floor, opening_price) = (
            self.auction.settings().floor(),
            self.auction.opening_price(),
        );
        let lodged = lodgings::lodged_prices(&self.auction, &(floor..opening_price - 1));
        if last {
            floor
        } else if !lodged.is_empty() && self.random.chance(20) {
            self.random.one_of(&lodged) + self.random.between(0, 1)
        } else {
            let fall = opening_price - floor;
            opening_price - self.random.of_any_size(1, fall.div_ceil(2))
        }
    }

    /// Settlings with limits around the number of choices and around 65,536.
    fn settlings(&mut self) {
        let exact = choices(&self.auction);
        let limits = [exact, exact, exact + 1, 65_536, 65_537, u32::MAX];
        let near = [0, exact - 1, exact + 1, 65_535];
        for _ in 0..self.random.between(0, 2) {
            let limit = self.random.one_of(&near);
            self.make(&Call::Settle { limit });
        }
        let limit = self.random.one_of(&limits);
        self.make(&Call::Settle { limit });
    }

    /// The record, now and then without its last 0A or with a blank line at its end.
    fn finish(mut self) -> Vec<u8> {
        while self.random.chance(self.disturbed) {
            self.disturb();
        }
        match self.random.between(1, 10) {
            1..=3 => drop(self.record.pop()),
            4 => self.record.push(b'\n'),
            _ => (),
        }
        self.record
    }
}

/// The number of choices when the auction is closed, or the next but highest limit if that is
/// less; 1 before.
fn choices(auction: &Auction) -> u32 {
    let choices = match auction.phase() {
        Phase::Closed => number_of_choices(&auction.open_levels(auction.closing_price())),
        _ => 1,
    };
    u32::try_from(choices).unwrap_or(u32::MAX).min(u32::MAX - 1)
}
