//! Runs the engine's replay call on records in two orders of arrival (document 02, request 12): within
//! an open round, the lines that ask offers and cancellations are shuffled, but each developer's own
//! keep their order. Every line, those behind the round too, has to get the reply that it got in the
//! first order, and the one that the independent implementation gives; every byte of the lent buffers,
//! and of their surroundings, is compared.
//! One line a group of records: how many are in another order, their replies by kind and answer, and
//! `ok` or the first difference; below it what these records show, as in `replay_beside`, what was
//! moved in them and what was compared behind. The exit status is 0 only if no group differs.

#[path = "../comparisons/engine.rs"]
mod engine;
#[path = "../comparisons/replaying.rs"]
mod replaying;

use independent::comparisons::report::{inputs, verdict, Group};
use independent::generators::records::{fixed, long_record, records_of, Records};
use independent::generators::sample;
use independent::generators::shuffling::Order;
use independent::model::replay::replay;
use replaying::{compare_lent, engines_replies};
use std::process::ExitCode;

fn main() -> ExitCode {
    let groups = GROUPS.map(|(name, records)| Group::of(name, &records(), compare).report());
    verdict(&groups)
}

const GROUPS: [(&str, Records); 4] = [
    ("sample and examples", sample::records),
    ("fixed records", fixed::records),
    ("generated", || records_of(0..inputs(6_000))),
    ("many short rounds", many_short_rounds),
];

fn many_short_rounds() -> Vec<Vec<u8>> {
    let records = (0..inputs(100)).map(|seed| long_record(seed, 16 << 10));
    records.collect()
}

/// Compares the engine's replies to a record in another order with those to the first, in a buffer of
/// just their length, and with the independent implementation's, in a longer one.
fn compare(group: &mut Group, record: &[u8]) {
    let order = Order::of(record);
    let shuffled = order.put(record);
    let independent = replay(&shuffled);
    group.count_order(&order, &independent);
    if order.moved().is_empty() {
        return;
    }
    group.count(&shuffled, &independent);
    let length = independent.len();
    let first = order.put(&engines_replies(record, length));
    compare_lent(group, &shuffled, ("first order", &first), length);
    let independent = ("independent", &independent[..]);
    compare_lent(group, &shuffled, independent, length + 100);
}
