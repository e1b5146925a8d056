//! Closings with an excess at which the closing rule decides (document 02, request 1): once the
//! offers of a round stand, the margins are moved so far that it closes with that excess.

use super::Writer;
use crate::model::auction::{Auction, Closing, Settings};
use crate::model::replay::{auction_after, lines, write_call, Call};

/// Around 0 and around 1,000.
pub const DECISIVE: [i64; 6] = [-1, 0, 1, 999, 1_000, 1_001];

impl Writer {
    /// Moves the margins so that the open round closes with one of the decisive excesses, unless
    /// none is open or the auction would then be another one by now.
    pub(super) fn aim(&mut self) {
        let aimed = self.random.one_of(&DECISIVE);
        let Ok(Closing { excess, .. }) = self.auction.clone().close() else {
            return;
        };
        let settings = self.auction.settings();
        let Some(moved) = moved(settings, excess - aimed) else {
            return;
        };
        let record = with_settings(&self.record, settings, &moved);
        let auction = auction_after(&record);
        if same_but_settings(&auction, &self.auction) {
            (self.record, self.auction) = (record, auction);
        }
    }
}

/// D, M1 and M2 so much higher: then each price's demand is so much higher too. None if one of
/// them would be below 0.
fn moved(settings: &Settings, by: i64) -> Option<Settings> {
    Some(Settings {
        d: settings.d.checked_add_signed(by)?,
        m1: settings.m1.checked_add_signed(by)?,
        m2: settings.m2.checked_add_signed(by)?,
        ..*settings
    })
}

/// The record with other settings in its accepted set-up, the first line that sets up these.
fn with_settings(record: &[u8], settings: &Settings, others: &Settings) -> Vec<u8> {
    let [set_up, other] = [settings, others]
        .map(|&Settings { ce, d, m1, m2, a }| write_call(&Call::SetUp { ce, d, m1, m2, a }));
    let mut lines = lines(record);
    let accepted = lines.iter_mut().find(|line| **line == set_up);
    *accepted.expect("the set-up") = &other;
    lines
        .iter()
        .flat_map(|line| [line, &b"\n"[..]].concat())
        .collect()
}

fn same_but_settings(one: &Auction, other: &Auction) -> bool {
    one.phase() == other.phase()
        && one.developers() == other.developers()
        && one.last_c() == other.last_c()
}
