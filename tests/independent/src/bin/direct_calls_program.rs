//! Runs the engine's program `direct_calls`, whose path is the argument, on random auctions and
//! compares what it prints with the independent implementation: the answers of all calls and, for
//! each settling, every byte of the lent buffer. Each auction is run a second time without its
//! refused calls, which has to give the same answers and buffers (document 02, request 8).
//! One line with what was seen, and `ok` or the first difference; the exit status is 0 only if
//! nothing differs.

use independent::comparisons::program;
use independent::comparisons::report::{few, inputs};
use independent::generators::direct::{auction, Line};
use independent::model::direct::printed;
use independent::parts::in_parts;
use std::ffi::OsStr;
use std::process::ExitCode;

const AUCTIONS: u64 = 1_000;

fn main() -> ExitCode {
    let Some(program) = std::env::args_os().nth(1) else {
        eprintln!("direct_calls_program: the program's path is missing");
        return ExitCode::FAILURE;
    };
    let seeds: Vec<u64> = (0..inputs(AUCTIONS)).collect();
    let parts = in_parts(&seeds, |seeds| {
        let mut seen = Seen::default();
        seeds.iter().for_each(|&seed| seen.compare(&program, seed));
        seen
    });
    let mut seen = Seen::default();
    parts.into_iter().for_each(|part| seen.join(part));
    seen.report()
}

#[derive(Default)]
struct Seen {
    auctions: u64,
    /// Auctions with an accepted settling.
    settled: u64,
    /// Accepted settlings, and those of several award records.
    settlings: u64,
    several_records: u64,
    accepted: u64,
    refused: u64,
    /// Registrations with an agent, accepted and refused by 3 (document 02, request 10).
    for_agents: u64,
    agents_refused: u64,
    /// Offers refused by 6 with lists of unequal length, and settlings refused by 10 and by 11.
    unequal_lists: u64,
    over_limit: u64,
    short_buffers: u64,
    difference: Option<String>,
}

impl Seen {
    fn compare(&mut self, program: &OsStr, seed: u64) {
        let lines = auction(seed);
        let all: String = lines.iter().map(|line| &line.text[..]).collect();
        let accepted = lines.iter().filter(|line| line.accepted);
        let accepted: String = accepted.map(|line| &line.text[..]).collect();
        let expected = printed(&all);
        self.count(&lines, &expected);
        let whole = self.run(program, &all, &expected);
        let lines = whole.lines().zip(&lines);
        let rest = lines.filter(|(_, line)| line.accepted);
        let rest: String = rest.map(|(printed, _)| format!("{printed}\n")).collect();
        self.run(program, &accepted, &rest);
    }

    /// What the program prints, which has to be as expected.
    fn run(&mut self, program: &OsStr, input: &str, expected: &str) -> String {
        let printed = program::printed(program, input);
        if printed != expected {
            self.difference.get_or_insert_with(|| {
                format!("differs:\n{input}program:\n{printed}\nexpected:\n{expected}")
            });
        }
        printed
    }

    fn count(&mut self, lines: &[Line], printed: &str) {
        let accepted = lines.iter().filter(|line| line.accepted).count() as u64;
        self.auctions += 1;
        self.accepted += accepted;
        self.refused += lines.len() as u64 - accepted;
        let starting = |start: &str| {
            let lines = printed.lines();
            lines.filter(|line| line.starts_with(start)).count() as u64
        };
        self.for_agents += starting("8 0");
        self.agents_refused += starting("8 3");
        let answers = printed.lines().zip(lines);
        let unequal = answers.filter(|(answer, line)| *answer == "4 6" && unequal(&line.text));
        self.unequal_lists += unequal.count() as u64;
        self.over_limit += starting("6 10 ");
        self.short_buffers += starting("6 11 ");
        let settlings = printed.lines().filter(|line| line.starts_with("6 0 "));
        let records: Vec<u64> = settlings.map(records).collect();
        self.settled += u64::from(!records.is_empty());
        self.settlings += records.len() as u64;
        self.several_records += records.iter().filter(|&&count| count > 1).count() as u64;
    }

    /// With what was seen elsewhere.
    fn join(&mut self, other: Seen) {
        self.auctions += other.auctions;
        self.settled += other.settled;
        self.settlings += other.settlings;
        self.several_records += other.several_records;
        self.accepted += other.accepted;
        self.refused += other.refused;
        self.for_agents += other.for_agents;
        self.agents_refused += other.agents_refused;
        self.unequal_lists += other.unequal_lists;
        self.over_limit += other.over_limit;
        self.short_buffers += other.short_buffers;
        self.difference = self.difference.take().or(other.difference);
    }

    fn report(&self) -> ExitCode {
        println!(
            "direct calls: {} auctions, {} settle, each also without its refused calls; {} calls \
             accepted, {} refused; {} registrations with an agent accepted, {} refused by 3; {} \
             offers of unequal lists refused by 6; {} settlings accepted, {} with several records, \
             {} refused by 10, {} by 11: {}",
            self.auctions,
            self.settled,
            self.accepted,
            self.refused,
            self.for_agents,
            self.agents_refused,
            self.unequal_lists,
            self.settlings,
            self.several_records,
            self.over_limit,
            self.short_buffers,
            self.difference.as_deref().unwrap_or("ok")
        );
        // Too few would show nothing.
        let enough = self.settled >= AUCTIONS / 2
            && self.refused >= AUCTIONS
            && self.for_agents >= AUCTIONS
            && self.agents_refused >= AUCTIONS / 5
            && [self.unequal_lists, self.over_limit, self.short_buffers]
                .iter()
                .all(|&count| count >= AUCTIONS / 10);
        if self.difference.is_none() && (few() || enough) {
            ExitCode::SUCCESS
        } else {
            ExitCode::FAILURE
        }
    }
}

/// Whether the line of an offer, whose last two numbers are the lengths of its lists, has unequal ones.
fn unequal(line: &str) -> bool {
    let mut lengths = line.trim_end().rsplit(", ");
    lengths.next() != lengths.next()
}

/// The number of award records in the line of an accepted settling.
fn records(line: &str) -> u64 {
    let number = line
        .split(' ')
        .nth(7)
        .and_then(|number| number.parse().ok());
    number.expect("the number of records")
}
