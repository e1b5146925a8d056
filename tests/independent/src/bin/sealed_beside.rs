//! Runs the engine's sealed auction (document 02, request 13) beside the independent
//! implementation: auctions with stated awards, and random ones, with refused ones among them. Every
//! number of the lent buffers, and of their surroundings, is compared.
//! One line a group of auctions, with `ok` or the first difference; below it, what the auctions and
//! the refusals show. The exit status is 0 only if no group differs and nothing of that is too rare
//! among the random auctions.

#[path = "../comparisons/engine.rs"]
mod engine;

use independent::comparisons::report::{few, verdict, Compared};
use independent::coverage::{Opened, SEALED};
use independent::generators::lent::{difference, lend};
use independent::generators::sealed::{generated, stated};
use independent::model::sealed::{write_awards, Awards};
use std::process::ExitCode;

/// Random auctions.
const RANDOM: u64 = 400_000;

/// The fewest that show each feature among them.
const FEWEST: u64 = 500;

fn main() -> ExitCode {
    let stated = stated_auctions().report();
    let random = Compared::generated(SEALED, RANDOM, |auctions, seed| {
        compare(auctions, &Opened::new(generated::auction(seed)));
    });
    let agrees = random.report();
    verdict(&[stated, agrees, few() || random.holds_enough(FEWEST)])
}

/// Compares answer and memory of a call.
fn compare(auctions: &mut Compared<Opened>, opened: &Opened) {
    auctions.count(opened);
    let (auction, buffer) = (&opened.auction, opened.buffer);
    let engine = lend(buffer, |buffer| engine::sealed_auction(auction, buffer));
    if let Some(why) = difference(buffer, &engine, &written(opened, opened.awards())) {
        auctions.differ(|| format!("differs: {auction:?}, {why}"));
    }
}

/// What a call with these awards gives, before the buffer is looked at.
fn written(opened: &Opened, awards: Awards) -> (u64, Vec<u64>) {
    lend(opened.buffer, |buffer| write_awards(awards, buffer))
}

/// Both implementations are held to awards that are written out, so that an error which they have
/// in common shows.
fn stated_auctions() -> Compared<Opened> {
    let mut auctions = Compared::new("stated auctions", SEALED);
    for (auction, buffer, stated) in stated::auctions() {
        let opened = Opened::new((auction, buffer));
        let why = format!("independent {:?}, stated {stated:?}", opened.awards());
        if written(&opened, opened.awards()) != written(&opened, stated) {
            auctions.differ(|| format!("differs: {:?}, {why}", opened.auction));
        }
        compare(&mut auctions, &opened);
    }
    auctions
}
