//! Runs the program `trace`, whose path is the argument, and compares what it prints with the
//! independent implementation, byte for byte.
//! One line a group of records, as for `replay`, with `ok` or the first difference; below it, what
//! their words were, how the searches of those that settle went, and what their closings did to the
//! supply curve. The exit status is 0 only if no group differs.

use independent::comparisons::program::{run, AT_ONCE};
use independent::comparisons::report::{few, inputs, verdict, Group};
use independent::generators::records::{edges, fixed, records_of, Records};
use independent::generators::sample;
use independent::generators::shuffling::Order;
use independent::model::replay::{lines, PROGRAM_BYTES};
use independent::model::trace::traced_with_settlement;
use std::process::{Command, ExitCode, Output};

fn main() -> ExitCode {
    let Some(program) = std::env::args_os().nth(1) else {
        eprintln!("trace_program: the program's path is missing");
        return ExitCode::FAILURE;
    };
    let edges = if few() { &[][..] } else { &EDGES };
    let groups = GROUPS.iter().chain(edges).map(|&(name, records, piece)| {
        let group = Group::of(name, &records(), |group, record| {
            match run(Command::new(&program), record, piece) {
                Ok(output) => compare(group, record, &output),
                Err(error) => group.differ(&error.to_string(), record, [("", b""); 2]),
            }
        });
        group.report()
    });
    verdict(&groups.collect::<Vec<_>>())
}

/// Groups of records, and the bytes of standard input that arrive at once.
const GROUPS: [(&str, Records, usize); 3] = [
    ("sample and examples", sample::records, AT_ONCE),
    // The first half of the seeds whose shares the tests of the independent implementation look at.
    ("generated", || records_of(0..inputs(10_000)), AT_ONCE),
    // No reply says the supply curve, which document 02's request 12 takes into the equality.
    ("generated, in another order", in_another_order, AT_ONCE),
];

/// Such groups that are left out where few inputs are enough.
const EDGES: [(&str, Records, usize); 6] = [
    ("fixed records", fixed::records, AT_ONCE),
    ("edges of lines", edges::lines, AT_ONCE),
    ("sizes of records", edges::record_sizes, AT_ONCE),
    ("sizes of replies", edges::reply_sizes, AT_ONCE),
    ("largest books", edges::largest_books, AT_ONCE),
    ("sizes of records, in pieces", edges::record_sizes, 5_000),
];

fn in_another_order() -> Vec<Vec<u8>> {
    let records = records_of(0..inputs(2_000));
    let put = records.iter().map(|record| Order::of(record).put(record));
    put.collect()
}

fn compare(group: &mut Group, record: &[u8], output: &Output) {
    let (expected, settlement) = traced_with_settlement(record);
    count(group, record, &expected);
    if record.len() <= PROGRAM_BYTES {
        group.count_curves(record);
    }
    if let Some(settlement) = settlement {
        group.count_search(&settlement);
    }
    // Which exit status it has is left free; a signal is none.
    if output.stdout != expected || output.status.code().is_none() {
        let why = format!("the program ended with {}", output.status);
        let printed = [("program", &output.stdout[..]), ("independent", &expected)];
        group.differ(&why, record, printed);
    }
}

/// Counts the replies, which begin with a digit or a capital, and the words by their names; the
/// excess by its sign, the remainder by whether it is 0, the marks, previews by what they say.
fn count(group: &mut Group, record: &[u8], text: &[u8]) {
    let (below, replies): (Vec<&[u8]>, Vec<&[u8]>) = lines(text)
        .into_iter()
        .partition(|line| line[0].is_ascii_lowercase());
    group.count(record, &replies.join(&b'\n'));
    for line in below {
        let line = String::from_utf8_lossy(line);
        let (name, numbers) = line.split_once(' ').expect("a name and numbers");
        group.count_word(match (name, numbers) {
            ("excess", "0") => "excess 0",
            ("excess", number) if number.starts_with('-') => "excess below 0",
            ("excess", _) => "excess above 0",
            ("remainder", "0") => "remainder 0",
            ("remainder", _) => "remainder above 0",
            ("short", "0") => "short 0",
            ("short", _) => "short 1",
            ("insufficient", "0") => "insufficient 0",
            ("insufficient", _) => "insufficient 1",
            ("preview", "2 0 0 0") => "preview refused",
            ("preview", numbers) if numbers.ends_with(" 1") => "preview closed",
            ("preview", _) => "preview open",
            _ => name,
        });
    }
}
