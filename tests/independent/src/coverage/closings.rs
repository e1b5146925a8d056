//! How many rounds closed with each of the excesses at which the closing rule decides, and how
//! many of them in books of large levels.

use crate::generators::records::DECISIVE;
use crate::model::replay::{lines, read_call, Call};
use std::collections::BTreeMap;

/// The least of the large levels.
const LARGE_LEVEL: u32 = 1_000_000;

/// Closings by their excess.
#[derive(Default)]
pub struct Closings {
    all: BTreeMap<i64, u64>,
    /// Those behind an accepted registration of a large level.
    large: BTreeMap<i64, u64>,
}

impl Closings {
    /// Counts the accepted closings of a record by the replies to its lines.
    pub fn count(&mut self, record: &[u8], replies: &[u8]) {
        let mut large = false;
        for (line, reply) in std::iter::zip(lines(record), lines(replies)) {
            large |= registers_large_level(line, reply);
            if let Some(excess) = answered_excess(reply) {
                *self.all.entry(excess).or_default() += 1;
                *self.large.entry(excess).or_default() += u64::from(large);
            }
        }
    }

    /// With the closings counted elsewhere.
    pub fn join(&mut self, other: Closings) {
        super::add(&mut self.all, other.all);
        super::add(&mut self.large, other.large);
    }

    /// How many closed with the excess, and how many of them in books of large levels.
    pub fn with(&self, excess: i64) -> (u64, u64) {
        let [all, large] = [&self.all, &self.large].map(|closings| closings.get(&excess));
        (all.copied().unwrap_or(0), large.copied().unwrap_or(0))
    }

    /// One line, if any round closed so.
    pub fn print(&self) {
        let counts = DECISIVE.map(|excess| (excess, self.with(excess)));
        if counts.iter().any(|(_, (all, _))| *all > 0) {
            let counts = counts.map(|(excess, (all, large))| format!("{excess}: {all} ({large})"));
            let counts = counts.join(", ");
            println!("  closings by excess (with levels of 10^6 and up): {counts}");
        }
    }
}

fn registers_large_level(line: &[u8], reply: &[u8]) -> bool {
    let Some(Call::Register { levels, .. }) = read_call(line) else {
        return false;
    };
    reply.ends_with(b"00") && levels.last().is_some_and(|&highest| highest >= LARGE_LEVEL)
}

/// The excess in the reply to an accepted closing.
fn answered_excess(reply: &[u8]) -> Option<i64> {
    let digits = reply.strip_prefix(b"0500")?.get(..16)?;
    let digits = std::str::from_utf8(digits).ok()?;
    let number = u64::from_str_radix(digits, 16).ok()?;
    Some(number.cast_signed())
}
