//! Tests of the independent implementation: what document 01 writes out, and what its rules imply
//! on generated records.

mod agents;
mod awards;
mod calibration;
mod cancelling;
mod causes;
mod checks;
mod curve;
mod demand;
mod figures;
mod fixed;
mod forcing;
mod frames;
mod hall;
mod lodging;
mod participation;
mod parts;
mod properties;
mod random;
mod rounds;
mod sample;
mod sealed;
mod searching;
mod sessions;
mod settling;
mod shares;
mod shuffling;
mod strategies;
mod trace;
mod version;
mod writing;

use independent::generators::records::records_of;
use independent::model::auction::{Auction, EXISTING, NEW};
use independent::model::replay::{lines, make, read_call, Accepted, Call};
use independent::model::settling::Settlement;
use independent::MALFORMED_LINE;
use std::sync::LazyLock;

/// The records of the seeds from 0 on, made once for all tests.
static RECORDS: LazyLock<Vec<Vec<u8>>> = LazyLock::new(|| records_of(0..20_000));

/// The accepted settlings of some records, each with its auction.
static SETTLINGS: LazyLock<Vec<(Auction, Settlement)>> = LazyLock::new(|| {
    let mut settlings = Vec::new();
    let mut keep = |step: Step| {
        if let Ok(Accepted::Settled(settlement)) = step.answer {
            settlings.push((step.after.clone(), settlement.clone()));
        }
    };
    for record in &RECORDS[..3_000] {
        each_step(record, &mut keep);
    }
    assert!(settlings.len() > 3_000, "{} settlings", settlings.len());
    settlings
});

/// An auction with the settings of the sample record and no registrations.
fn sample_set_up() -> Auction {
    let mut auction = Auction::new();
    let accepted = auction.set_up(20_000, 1_000, 900, 1_200, 40_000);
    accepted.expect("the sample's set-up");
    auction
}

/// The auction of the sample record with all registered: an existing plant of 820, developers 2
/// and 3 on project 2, and developer 4 on project 3.
fn sample_registered() -> Auction {
    let mut auction = sample_set_up();
    for answer in [
        auction.register(1, 1, EXISTING, 0, 0, &[820]),
        auction.register(2, 2, NEW, 400, 10, &[100, 200]),
        auction.register(2, 3, NEW, 500, 20, &[200]),
        auction.register(3, 4, NEW, 0, 0, &[150]),
    ] {
        answer.expect("a registration of the sample");
    }
    auction
}

/// The auction of the sample record with its round open at C 25,000.
fn sample_opened() -> Auction {
    let mut auction = sample_registered();
    auction.open(25_000).expect("the sample's opening");
    auction
}

/// The auction of the sample record, closed.
fn sample_closed() -> Auction {
    let mut auction = sample_opened();
    for answer in [
        auction.offer(2, &[26_000], &[100]),
        auction.offer(3, &[26_000], &[0]),
        auction.offer(4, &[26_000], &[0]),
    ] {
        answer.expect("an offer of the sample");
    }
    auction.close().expect("the sample's closing");
    auction
}

/// Closes the round; the excess of its answer.
fn close(auction: &mut Auction) -> Result<i64, u8> {
    auction.close().map(|closing| closing.excess)
}

/// One line of a record: its call unless it is malformed, the answer, and the auctions before
/// and after it.
struct Step<'a> {
    call: Option<&'a Call>,
    answer: &'a Result<Accepted, u8>,
    before: &'a Auction,
    after: &'a Auction,
}

/// Calls `visit` for each line of the record in turn; gives the auction after the last.
fn each_step(record: &[u8], mut visit: impl FnMut(Step)) -> Auction {
    let mut auction = Auction::new();
    for line in lines(record) {
        let before = auction.clone();
        let call = read_call(line);
        let answer = match &call {
            Some(call) => make(&mut auction, call),
            None => Err(MALFORMED_LINE),
        };
        visit(Step {
            call: call.as_ref(),
            answer: &answer,
            before: &before,
            after: &auction,
        });
    }
    auction
}

/// All admissible choices as lists of levels by rising project, listed project by project.
fn choices(auction: &Auction, p: u64) -> Vec<Vec<u64>> {
    let mut choices = vec![Vec::new()];
    for levels in auction.open_levels(p).values() {
        let longer = |choice: &Vec<u64>| {
            let longer = levels.iter().map(|&level| [&choice[..], &[level]].concat());
            longer.collect::<Vec<_>>()
        };
        choices = choices.iter().flat_map(longer).collect();
    }
    choices
}
