//! Runs the engine's replay call beside the independent implementation.
//! Each record is replayed into buffers that are too short, by one byte and by half, exact, longer, and
//! around the length that always fits; every byte of them, and of their surroundings, is compared. Each well-formed line is also written
//! again by the engine, which has to give the same bytes, with their 0A. A record is also replayed
//! by the engine without its cancelled offers, and without all that was refused; each has to give
//! the rest of its replies, and whole buffers.
//! One line a group of records: their replies by kind and answer, and `ok` or the first
//! difference; below it, how many lines were written again, how many rounds closed where the
//! closing rule decides, how many closings and settlings had a remainder, what lodged lists and
//! cancellations did, who participated, what settlings stand behind and between, how long the buffers
//! were, who moved by closings, and how much was cut. The exit status is 0 only if no group differs, and
//! nothing of settlings, buffers and moves is too rare among the records settled again.

#[path = "../comparisons/engine.rs"]
mod engine;
#[path = "../comparisons/replaying.rs"]
mod replaying;

use independent::comparisons::report::{few, inputs, verdict, Group};
use independent::coverage::Buffer;
use independent::generators::cutting::{cancelled, refused, without};
use independent::generators::random::Random;
use independent::generators::records::{edges, fixed, records_of, repeated_record, Records};
use independent::generators::sample;
use independent::model::replay::{fields, lines, read_call, replay, Call};
use independent::parts::in_parts;
use replaying::{compare_lent, engines_replies};
use std::collections::BTreeSet;
use std::process::ExitCode;

fn main() -> ExitCode {
    // Each group is reported when it is done, where all inputs are compared also behind one that differs.
    let stated = STATED.map(|group| group().report());
    let fixed = fixed::groups().map(|(name, records)| Group::of(name, &records, compare).report());
    let sizes = if few() { &[][..] } else { &SIZES };
    let compared = COMPARED.iter().chain(sizes);
    let compared: Vec<bool> = compared
        .map(|(name, records)| Group::of(name, &records(), compare).report())
        .collect();
    let again = Group::of("settled again", &settled_again(), compare);
    let again = [again.report(), few() || again.holds_enough(FEWEST)];
    verdict(stated.iter().chain(&fixed).chain(&compared).chain(&again))
}

/// The fewest settlings, buffers and closings that show each feature among the records settled again.
const FEWEST: u64 = 150;

const STATED: [fn() -> Group; 5] = [
    sample_record,
    twelve_numbers,
    lodged_lists,
    cancelled_offers,
    agents,
];

const COMPARED: [(&str, Records); 4] = [
    ("edges of lines", edges::lines),
    ("damaged samples", edges::damaged_samples),
    // The seeds whose shares the tests of the independent implementation look at.
    ("generated", || records_of(0..inputs(20_000))),
    ("few different bytes", || {
        (0..inputs(5_000)).map(few_different_bytes).collect()
    }),
];

const SIZES: [(&str, Records); 4] = [
    ("sizes of records", edges::record_sizes),
    ("sizes of replies", edges::reply_sizes),
    ("sizes of kept replies", edges::kept_sizes),
    ("largest books", edges::largest_books),
];

/// Compares the engine with the independent implementation's replies to the same record.
fn compare(group: &mut Group, record: &[u8]) {
    let independent = replay(record);
    group.count(record, &independent);
    group.count_repeated(record, &independent);
    for buffer in Buffer::all(record, &independent) {
        group.count_buffer(&buffer);
        let expected = ("independent", &independent[..]);
        compare_lent(group, record, expected, buffer.length());
    }
    for line in lines(record) {
        if let Some(call) = read_call(line) {
            write_again(group, line, &call);
        }
    }
    let (cancelled, refused) = (cancelled(record), refused(&independent));
    group.count_cut(&independent, cancelled.len(), refused.len());
    compare_cut(group, record, &independent, &cancelled);
    compare_cut(group, record, &independent, &refused);
}

/// The engine's replies to a record without the lines at the places, beside the rest of those to the
/// whole: its cancelled offers (document 02, request 7), or all that was refused (request 8).
fn compare_cut(group: &mut Group, record: &[u8], replies: &[u8], places: &BTreeSet<usize>) {
    if !places.is_empty() {
        let rest = without(&engines_replies(record, replies.len()), places);
        let cut = without(record, places);
        for length in [rest.len(), rest.len() + 100] {
            compare_lent(group, &cut, ("rest of the whole", &rest), length);
        }
    }
}

/// A line's call, written by the engine (document 02, request 2).
fn write_again(group: &mut Group, line: &[u8], call: &Call) {
    group.count_written();
    let frame = [line, b"\n"].concat();
    let mut buffer = vec![0; frame.len()];
    let number = engine::write(&fields(call), &mut buffer);
    if (number, &buffer) != (frame.len() as u64, &frame) {
        let frames = [("engine", &buffer[..]), ("line", &frame)];
        group.differ(&format!("a line written again: {number:#X}"), line, frames);
    }
}

/// Holds both implementations to replies that are written out, so that an error which they have
/// in common shows.
fn compare_stated(group: &mut Group, record: &str, stated: &str) {
    let (record, stated) = (record.as_bytes(), stated.as_bytes());
    let independent = replay(record);
    if independent != stated {
        let replies = [("independent", &independent[..]), ("stated", stated)];
        group.differ("not as stated", record, replies);
    }
    compare(group, record);
}

/// The paper's sample, with buffers of every length up to its reply's.
fn sample_record() -> Group {
    let mut group = Group::new("sample record");
    compare_stated(&mut group, sample::RECORD, sample::REPLY);
    let (record, reply) = (sample::RECORD.as_bytes(), sample::REPLY.as_bytes());
    for length in 0..reply.len() {
        compare_lent(&mut group, record, ("stated", reply), length);
    }
    group
}

/// The example of each number. Number 11 is the engine's answer to a buffer that is too short.
fn twelve_numbers() -> Group {
    let mut group = Group::new("the twelve numbers");
    for example in sample::EXAMPLES {
        let (record, stated) = sample::example(example);
        compare_stated(&mut group, &record, &stated);
    }
    group
}

/// Records with lodged lists (document 02, request 5).
fn lodged_lists() -> Group {
    stated("lodged lists", &sample::LODGED)
}

/// Records with cancellations (document 02, request 7).
fn cancelled_offers() -> Group {
    stated("cancelled offers", &sample::CANCELLED)
}

/// Records with agents (document 02, request 10).
fn agents() -> Group {
    stated("agents", &sample::PARTICIPATION)
}

/// Records, each with the replies that are stated.
fn stated(name: &'static str, records: &[(&str, &str)]) -> Group {
    let mut group = Group::new(name);
    for (record, stated) in records {
        compare_stated(&mut group, record, stated);
    }
    group
}

/// Auctions settled again and again, nearly half with long replies.
fn settled_again() -> Vec<Vec<u8>> {
    let seeds: Vec<u64> = (0..inputs(500)).collect();
    let records = |seeds: &[u64]| {
        seeds
            .iter()
            .copied()
            .map(repeated_record)
            .collect::<Vec<_>>()
    };
    in_parts(&seeds, records).concat()
}

/// A record of many blank and short lines that are frames or nearly so.
fn few_different_bytes(seed: u64) -> Vec<u8> {
    let mut random = Random::new(seed);
    let some: &[u8] = random.one_of(&[b"05\n", b"0\n", b"0123456\n", b"0A\n\r", b"056F\n\x00\xFF"]);
    let length = random.of_any_size(0, 2_000);
    (0..length).map(|_| random.one_of(some)).collect()
}
