//! What the inputs of the comparisons reach: features of records, calls and runs, how many show each,
//! and what of that is too rare.

mod buffers;
mod cancellations;
mod closings;
mod curves;
mod cut;
mod features;
mod games;
mod goals;
mod hall;
mod lodgings;
mod looks;
mod moves;
mod orders;
mod pairs;
mod participation;
mod record_lines;
mod remainders;
mod sealed;
mod searches;
mod settled;
mod settlings;
mod views;

pub use buffers::Buffer;
pub(crate) use buffers::BUFFERS;
pub use cancellations::{Cancellations, CANCELLATIONS};
pub use closings::Closings;
pub use curves::{Redrawn, CURVES, LONGEST_CURVE};
pub(crate) use cut::Cut;
pub use features::{Features, Kind};
pub use games::{Asked, QUESTIONS};
pub use goals::{goals, reached, session_goals, session_reached, Goal};
pub use hall::SEATS;
pub use lodgings::{Lodgings, LODGINGS};
pub(crate) use looks::SESSION_LINES;
pub use looks::{Answered, Line, Looked, RECORD_LOOKS, SESSION_LOOKS};
pub(crate) use moves::{Moves, MOVES};
pub(crate) use orders::Orders;
pub use orders::PASSAGES;
pub use pairs::PAIRS;
pub use participation::{Participation, PARTICIPATION};
pub(crate) use record_lines::{RecordLine, RECORD_LINES};
pub use remainders::Remainders;
pub use sealed::{Opened, SEALED};
pub(crate) use searches::SEARCHES;
pub use settled::{Settled, SETTLED};
pub(crate) use settlings::{Settlings, SETTLINGS};
use std::collections::BTreeMap;
pub use views::{Viewed, VIEWS};

/// Adds the counts of another map.
pub(crate) fn add<K: Ord>(counts: &mut BTreeMap<K, u64>, others: BTreeMap<K, u64>) {
    for (key, count) in others {
        *counts.entry(key).or_default() += count;
    }
}
