//! Runs the program `replay`, whose path is the argument, and compares what it prints with the
//! independent implementation, byte for byte.
//! One line a group of records: what was printed by kind and answer, and `ok` or the first
//! difference. The exit status is 0 only if no group differs.

use independent::comparisons::program::{run, AT_ONCE};
use independent::comparisons::report::{few, inputs, verdict, Group};
use independent::generators::records::{edges, records_of, Records};
use independent::generators::sample;
use independent::model::replay::printed;
use std::process::{Command, ExitCode, Output};

fn main() -> ExitCode {
    let Some(program) = std::env::args_os().nth(1) else {
        eprintln!("replay_program: the program's path is missing");
        return ExitCode::FAILURE;
    };
    let edges = if few() { &[][..] } else { &EDGES };
    let groups = GROUPS.iter().chain(edges).map(|&(name, records, piece)| {
        let group = Group::of(name, &records(), |group, record| {
            match run(Command::new(&program), record, piece) {
                Ok(output) => compare(group, record, &output),
                Err(error) => group.differ(&error.to_string(), record, [("", b""); 2]),
            }
        });
        group.report()
    });
    verdict(&groups.collect::<Vec<_>>())
}

/// Groups of records, and the bytes of standard input that arrive at once.
const GROUPS: [(&str, Records, usize); 2] = [
    ("sample and examples", sample::records, AT_ONCE),
    ("generated", || records_of(0..inputs(500)), AT_ONCE),
];

/// Such groups that are left out where few inputs are enough.
const EDGES: [(&str, Records, usize); 4] = [
    ("edges of lines", edges::lines, AT_ONCE),
    ("sizes of records", edges::record_sizes, AT_ONCE),
    ("sizes of replies", edges::reply_sizes, AT_ONCE),
    ("sizes of records, in pieces", edges::record_sizes, 5_000),
];

fn compare(group: &mut Group, record: &[u8], output: &Output) {
    let expected = printed(record);
    group.count(record, &expected);
    // Which exit status it has is left free; a signal is none.
    if output.stdout != expected || output.status.code().is_none() {
        let why = format!("the program ended with {}", output.status);
        let replies = [("program", &output.stdout[..]), ("independent", &expected)];
        group.differ(&why, record, replies);
    }
}
