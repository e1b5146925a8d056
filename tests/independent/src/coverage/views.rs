//! What pairs of sessions with one view for a developer show.

use super::features::{Feature, Kind};
use crate::generators::hall::runs::NO_DEVELOPERS;
use crate::generators::sessions::pairs::Pair;
use crate::model::hall::Seat;
use crate::model::replay::{kind_of, Call};
use crate::model::sessions::views::Shown;
use crate::model::sessions::Asked;

/// A pair, with what becomes of the lines that only one of its sessions has.
pub struct Viewed {
    pub pair: Pair,
    pub differing: Vec<Asked>,
}

impl Viewed {
    pub fn new(pair: Pair) -> Viewed {
        Viewed {
            differing: pair.differing(),
            pair,
        }
    }

    fn view(&self) -> impl Iterator<Item = &Shown> {
        self.pair.sessions[0].view()
    }
}

pub const VIEWS: &[Kind<Viewed>] = &[
    ("developer", |_| true, DEVELOPERS),
    ("its view", |_| true, SHOWN),
    ("lines of others that differ", |_| true, DIFFERING),
];

const DEVELOPERS: &[Feature<Viewed>] = &[
    ("registered", |pair| is_registered(pair)),
    ("not registered", |pair| !is_registered(pair)),
    ("0, 33 or 255", |pair| {
        NO_DEVELOPERS.contains(&pair.pair.developer)
    }),
];

fn is_registered(pair: &Viewed) -> bool {
    pair.view()
        .any(|shown| matches!(shown, Shown::MadeFor(Call::Register { .. })))
}

/// Whether the developer asks this kind.
fn own(pair: &Viewed, kind: u8) -> bool {
    pair.view()
        .any(|shown| matches!(shown, Shown::Own(call) if kind_of(call) == kind))
}

const SHOWN: &[Feature<Viewed>] = &[
    ("offers", |pair| own(pair, 4)),
    ("cancellations", |pair| own(pair, 9)),
    ("settlings", |pair| own(pair, 6)),
    ("calls of the auctioneer", |pair| {
        own(pair, 5) || own(pair, 3) || own(pair, 2)
    }),
    ("lodged lists", |pair| {
        pair.view()
            .any(|shown| matches!(shown, Shown::MadeFor(Call::Lodge { .. })))
    }),
    ("one closing", |pair| closings(pair) == 1),
    ("several closings", |pair| closings(pair) > 1),
];

/// Changes of the published phase to between rounds or closed.
fn closings(pair: &Viewed) -> usize {
    let published = pair
        .view()
        .filter(|shown| matches!(shown, Shown::Published(published) if published.phase > 2));
    published.count()
}

fn permitted(pair: &Viewed, kind: u8) -> bool {
    let mut differing = pair.differing.iter();
    differing.any(|asked| matches!(asked, Asked::Permitted(_, call) if kind_of(call) == kind))
}

const DIFFERING: &[Feature<Viewed>] = &[
    ("offers", |pair| permitted(pair, 4)),
    ("cancellations", |pair| permitted(pair, 9)),
    ("lodgings", |pair| permitted(pair, 7)),
    ("registrations", |pair| {
        permitted(pair, 2) || permitted(pair, 8)
    }),
    ("set-up", |pair| permitted(pair, 1)),
    ("settlings", |pair| permitted(pair, 6)),
    ("malformed", |pair| {
        pair.differing.contains(&Asked::Malformed)
    }),
    ("refused by 20", |pair| {
        pair.differing
            .iter()
            .any(|asked| matches!(asked, Asked::Barred(..)))
    }),
    ("of another developer's seat", |pair| {
        let mut differing = pair.differing.iter();
        differing.any(|asked| {
            matches!(
                asked,
                Asked::Barred(Seat::Developer(_), _) | Asked::Permitted(Seat::Developer(_), _)
            )
        })
    }),
];
