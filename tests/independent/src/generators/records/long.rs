//! Long records: one auction of many short rounds, so that most calls are small ones.

use super::Writer;
use crate::model::auction::{EXISTING, NEW, NUMBERS};
use crate::model::replay::Call;

/// The record of a seed cut to just so many bytes: registrations, openings, offers, of which some are
/// taken back, closings, and about one refused line for two of them.
pub fn long_record(seed: u64, length: usize) -> Vec<u8> {
    let mut writer = Writer::new(seed);
    writer.disturbed = 35;
    writer.cancelling = true;
    writer.many_rounds(length);
    writer.record.truncate(length);
    writer.record
}

/// The existing plants alone leave an excess of more than 1,000 at the highest demand, so only
/// the floor ends the auction.
const EXISTING_PLANTS: u8 = 8;

impl Writer {
    /// Rounds of a few thousandths each, until the record is long enough.
    fn many_rounds(&mut self, length: usize) {
        let (ce, a) = (500_000, 1_000_000);
        let (d, m1, m2) = (1_000, 900, 1_200);
        self.make(&Call::SetUp { ce, d, m1, m2, a });
        for number in NUMBERS {
            self.make(&registration(number));
        }
        while self.record.len() < length {
            let fall = self.random.between(1, 20);
            let c = self.auction.opening_price() - fall;
            self.make(&Call::Open { c: c as u32 });
            self.offers(false);
            self.make(&Call::Close);
        }
    }
}

/// A plant on a project of its own number.
fn registration(number: u8) -> Call {
    let existing = number <= EXISTING_PLANTS;
    Call::Register {
        project: number,
        developer: number,
        kind: if existing { EXISTING } else { NEW },
        agent: None,
        study: 0,
        day: 0,
        levels: if existing {
            vec![300]
        } else {
            (1..=8).map(|multiple| multiple * 10).collect()
        },
    }
}
