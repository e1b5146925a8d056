//! Runs the engine's four calls over a record, its state, a preview, the supply curve and a settlement,
//! beside the independent implementation: behind every line of the sample, of fixed records, the longest
//! curve and the most choices among them, and of random ones, with any limits and lent buffers of any
//! length, of which every number and byte, and of their surroundings, is compared.
//! One line a group, with `ok` or the first difference; below it what its calls show. The exit status is 0
//! only if nothing differs and nothing of that is too rare in the random records.

#[path = "../comparisons/engine.rs"]
mod engine;
#[path = "../comparisons/looking.rs"]
mod looking;

use independent::comparisons::report::{few, verdict, Compared};
use independent::coverage::{Answered, Looked, RECORD_LOOKS};
use independent::generators::looks::{limit, over_record, Look, Place};
use independent::generators::random::Random;
use independent::generators::records::{edges, fixed, late_record, long_record, record};
use independent::generators::sample;
use independent::model::auction::Phase;
use independent::model::figures::{
    hall_after, record_curve, record_preview, record_settlement, record_state,
};
use independent::model::replay::{lines, read_call, Call};
use std::process::ExitCode;

/// Random records.
const RANDOM: u64 = 2_000;

/// The fewest calls that show each feature.
const FEWEST: u64 = 200;

fn main() -> ExitCode {
    // Each group is reported when it is done: where few inputs are enough, the first that differs is the last.
    let stated = stated().report();
    let fixed = fixed_records().report();
    let random = Compared::new("random records", RECORD_LOOKS).with(RANDOM, compare_record);
    verdict(&[
        stated,
        fixed,
        random.report(),
        few() || random.holds_enough(FEWEST),
    ])
}

/// Records worked out by hand, and behind their last lines long ones and those of the largest books.
fn fixed_records() -> Compared<Looked> {
    let mut calls = Compared::new("fixed records", RECORD_LOOKS);
    let random = &mut Random::new(1);
    for record in fixed::records() {
        calls.add("records", 1);
        compare_lines(&mut calls, random, &record);
    }
    let mut long = vec![long_record(0, 64 << 10), long_record(1, 300 << 10)];
    if !few() {
        long.extend(edges::largest_books());
    }
    for record in long {
        calls.add("records", 1);
        let at = Place::new(hall_after(&record));
        compare(&mut calls, random, &record, &at, false);
    }
    calls
}

fn compare_record(calls: &mut Compared<Looked>, seed: u64) {
    let record = if seed.is_multiple_of(5) {
        late_record(seed)
    } else {
        record(seed)
    };
    calls.add("records", 1);
    compare_lines(calls, &mut Random::new(!seed), &record);
}

/// The four calls before the first line and behind each.
fn compare_lines(calls: &mut Compared<Looked>, random: &mut Random, record: &[u8]) {
    let mut at = Place::default();
    compare(calls, random, b"", &at, false);
    let mut end = 0;
    for line in lines(record) {
        end += line.len();
        let mut refused_closing = false;
        match read_call(line) {
            // It changes nothing, and many take long.
            Some(Call::Settle { .. }) | None => (),
            Some(call) => refused_closing = at.hall.ask(&call).is_err() && call == Call::Close,
        }
        // With its 0A, if it has one, or without.
        let with = (end + 1).min(record.len());
        let part = random.one_of(&[with, with, end]);
        // The empty rest behind a blank line's 0A is no line.
        let part = if line.is_empty() { with } else { part };
        compare(calls, random, &record[..part], &at, refused_closing);
        end += 1;
    }
}

fn compare(
    calls: &mut Compared<Looked>,
    random: &mut Random,
    record: &[u8],
    at: &Place,
    refused_closing: bool,
) {
    // More often where there is more to see.
    let times = match at.hall.auction.phase() {
        Phase::Closed => 3,
        _ => 1,
    };
    for _ in 0..times {
        let limit = limit(random, at);
        for look in [
            Look::State,
            Look::Preview,
            Look::Curve,
            Look::Settlement { limit },
        ] {
            let (question, telling) = over_record(random, look, at);
            let answered = Answered::new(question, telling, at);
            let answered = answered.behind_refused_closing(refused_closing);
            looking::compare(calls, record, answered);
        }
    }
}

/// Both implementations are held to what is written out of the sample record, so that an error which they
/// have in common shows.
fn stated() -> Compared<Looked> {
    let mut calls = Compared::new("sample record", RECORD_LOOKS);
    calls.add("records", 1);
    compare_lines(&mut calls, &mut Random::new(0), sample::RECORD.as_bytes());
    let frames = lines(sample::RECORD.as_bytes());
    for stated in sample::FIGURES {
        let record = frames[..stated.behind].join(&b'\n');
        let mut numbers = [0; 16];
        let mut awards = [0; 16];
        let number = match stated.look {
            "state" => record_state(&record, &mut numbers),
            "preview" => record_preview(&record, &mut numbers),
            "curve" => record_curve(&record, &mut numbers),
            _ => record_settlement(&record, 100, &mut numbers, &mut awards),
        };
        let told = &numbers[..stated.figures.len()];
        if (number, told) != (stated.number, stated.figures) || !awards.starts_with(stated.awards) {
            calls.differ(|| {
                let sample::Figures { look, behind, .. } = stated;
                format!("differs: {look} behind {behind} lines: independent {number} {told:?}")
            });
        }
    }
    calls
}
