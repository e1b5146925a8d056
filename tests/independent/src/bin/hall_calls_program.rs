//! Runs the engine's program `hall_calls`, whose path is the argument, on runs through seats (document
//! 02, request 14), stated and random ones, and compares every line that it prints with the
//! independent implementation: the answers of all calls, the lent buffers and the readings. Then on
//! pairs of runs with one view for a developer: in the lines of the program itself, the developer's
//! answers and readings have to be equal event by event, and no other call may change its reading.
//! One line a group, with `ok` or the first difference; below it, what the runs and the pairs show. The
//! exit status is 0 only if nothing differs and nothing of that is too rare.

use independent::comparisons::hall::{difference, groups, input, pair_difference, parts};
use independent::comparisons::program;
use independent::comparisons::report::{few, verdict, Compared};
use independent::coverage::{PAIRS, SEATS};
use independent::generators::hall::pairs::{pair, Pair};
use independent::generators::hall::runs::run;
use independent::generators::hall::stated;
use independent::model::hall::lines::{events, Event, Line};
use independent::model::hall::views::Shown;
use std::ffi::OsStr;
use std::iter::zip;
use std::process::ExitCode;

/// Batches, and the runs and the pairs of runs in each.
const BATCHES: u64 = 200;
const RUNS: u64 = 18;
const PAIRS_OF_RUNS: u64 = 7;

/// The fewest lines that show each feature, and the fewest pairs.
const FEWEST_LINES: u64 = 500;
const FEWEST_PAIRS: u64 = 200;

fn main() -> ExitCode {
    let Some(program) = std::env::args_os().nth(1) else {
        eprintln!("hall_calls_program: the program's path is missing");
        return ExitCode::FAILURE;
    };
    // Each group is reported when it is done: where few inputs are enough, the first that differs is the last.
    let stated = stated_runs(&program).report();
    let runs = Compared::new("runs through seats", SEATS).counting("lines");
    let runs = runs.with(BATCHES, |lines, batch| {
        compare_runs(lines, &program, batch);
    });
    let runs_agree = runs.report();
    let pairs = Compared::new("runs of one view", PAIRS).counting("pairs");
    let pairs = pairs.with(BATCHES, |pairs, batch| {
        compare_pairs(pairs, &program, batch);
    });
    verdict(&[
        stated,
        runs_agree,
        pairs.report(),
        few() || runs.holds_enough(FEWEST_LINES),
        few() || pairs.holds_enough(FEWEST_PAIRS),
    ])
}

/// Both implementations are held to what is written out, so that an error which they have in common
/// shows.
fn stated_runs(program: &OsStr) -> Compared<Event> {
    let mut lines = Compared::new("stated runs", SEATS).counting("lines");
    for stated in stated::runs() {
        let read = stated
            .iter()
            .map(|(line, _)| Line::read(line).expect("a line"));
        let run = events(read.collect());
        for (event, (line, stated)) in zip(&run, stated) {
            lines.count(event);
            let printed = event.printed();
            if printed != stated {
                lines.differ(|| format!("differs: {line}, independent {printed}, stated {stated}"));
            }
        }
        compare(&mut lines, program, &[&run], |_| None);
    }
    lines
}

fn compare_runs(lines: &mut Compared<Event>, program: &OsStr, batch: u64) {
    let seeds = batch * RUNS..(batch + 1) * RUNS;
    let runs: Vec<Vec<Event>> = seeds.map(|seed| events(run(seed))).collect();
    runs.iter().flatten().for_each(|event| lines.count(event));
    lines.add("runs", runs.len());
    let runs: Vec<&[Event]> = runs.iter().map(|run| &run[..]).collect();
    compare(lines, program, &runs, |_| None);
}

fn compare_pairs(pairs: &mut Compared<Pair>, program: &OsStr, batch: u64) {
    let seeds = batch * PAIRS_OF_RUNS..(batch + 1) * PAIRS_OF_RUNS;
    let compared: Vec<Pair> = seeds.filter_map(pair).collect();
    for pair in &compared {
        pairs.count(pair);
        pairs.add("events", pair.view().count());
        let own = pair.view().filter(|shown| matches!(shown, Shown::Own(_)));
        pairs.add("own calls", own.count());
        pairs.add("calls that differ", pair.differing.len());
        pairs.add("edits with another view", pair.other_views as usize);
    }
    let runs = compared.iter().flat_map(|pair| &pair.runs);
    let runs: Vec<&[Event]> = runs.map(|run| &run.events[..]).collect();
    compare(pairs, program, &runs, |printed| {
        let both = printed.chunks(2).map(|two| [&two[0][..], &two[1][..]]);
        let mut pairs = zip(&compared, both);
        let difference = pairs.find_map(|(pair, printed)| pair_difference(pair, printed));
        difference.map(|text| text())
    });
}

/// Compares what the program prints for the runs with the independent implementation, and then by
/// the function.
fn compare<T>(
    compared: &mut Compared<T>,
    program: &OsStr,
    runs: &[&[Event]],
    further: impl Fn(&[Vec<String>]) -> Option<String>,
) {
    let mut printed = Vec::new();
    for runs in groups(runs) {
        printed.extend(parts(runs, &program::printed(program, &input(runs))));
    }
    let mut both = zip(runs, &printed);
    let differing = both.find_map(|(run, printed)| difference(run, printed));
    let differing = differing.map(|text| text());
    if let Some(why) = differing.or_else(|| further(&printed)) {
        compared.differ(|| why);
    }
}
