//! Times the engine through its C interface beside the independent implementation.
//! Two lines a row of the table: with a buffer of exactly the length of what is written, and with an
//! ample one, as most hosts lend it. Each has the best of several runs of either, in nanoseconds a line
//! of a record or a call, their ratio, and the most that it may be.
//! With the argument `check` it also names the rows whose ratio is above that, and then fails.

#[path = "../comparisons/engine.rs"]
mod engine;

use independent::generators::games::stated;
use independent::generators::looks::Look;
use independent::generators::records::{
    easy_book, hard_book, largest_book, long_record, timed, LARGEST_BOOKS,
};
use independent::generators::sample;
use independent::generators::sessions::through_seats;
use independent::model::figures::record_preview;
use independent::model::forcing::who_can_force;
use independent::model::replay::{lines, replay, replay_into};
use independent::model::sealed::{sealed_auction, Offer, Sealed};
use independent::model::sessions::{replies, session_replay};
use std::env;
use std::hint::black_box;
use std::process::ExitCode;
use std::time::{Duration, Instant};

/// A row of what is printed.
struct Row {
    name: &'static str,
    timed: Timed,
    /// How often a run makes it: few of what takes long, so that a run ends before other work on the
    /// machine stops it.
    times: usize,
    /// The most that engine / independent may be, with an exact and with an ample buffer.
    most: [f64; 2],
}

enum Timed {
    /// A replay of a record, for each line of it.
    Lines(fn() -> Vec<u8>),
    /// A replay of a record that ends with a long settling.
    Replay(fn() -> Vec<u8>),
    /// A preview behind a record in whose round it is made, for each line of it.
    Preview(fn() -> Vec<u8>),
    /// A replay of a record's calls through seats, for each line.
    Session(fn() -> Vec<u8>),
    /// A question who can force the price in a game of 10 prices.
    Game,
    /// A sealed auction of 16 offers that stand in the list from the last turn to the first.
    SealedAuction,
}

use Timed::{Game, Lines, Preview, Replay, SealedAuction, Session};

/// The most of every ratio that has no other bound.
const HALF: [f64; 2] = [0.5, 0.5];

#[rustfmt::skip]
const ROWS: &[Row] = &[
    row("sample record", Lines(|| sample::RECORD.into()), 200, HALF),
    row("64 KiB of small calls", Lines(|| long_record(0, 64 << 10)), 1, [0.35, 0.35]),
    row("preview behind 64 KiB of small calls", Preview(|| long_record(0, 64 << 10)), 1, HALF),
    row("64 KiB of small calls through seats", Session(|| long_record(0, 64 << 10)), 1, HALF),
    row("malformed lines", Lines(timed::malformed), 5, HALF),
    row("refused set-ups", Lines(timed::refused_set_ups), 5, HALF),
    row("refused registrations", Lines(timed::refused_registrations), 5, HALF),
    row("refused registrations for an agent", Lines(timed::refused_registrations_for), 5, HALF),
    row("refused openings", Lines(timed::refused_openings), 5, HALF),
    row("refused offers", Lines(timed::refused_offers), 5, HALF),
    row("refused closings", Lines(timed::refused_closings), 5, HALF),
    row("refused settlings", Lines(timed::refused_settlings), 1, HALF),
    row("refused lodgings", Lines(timed::refused_lodgings), 5, HALF),
    row("refused cancellations", Lines(timed::refused_cancellations), 5, HALF),
    row("calls out of phase", Lines(timed::refused_by_phase), 5, HALF),
    row("a set-up alone", Lines(timed::set_up), 1_000, HALF),
    row("registrations", Lines(timed::registrations), 50, HALF),
    row("registrations for an agent", Lines(timed::registrations_for), 50, HALF),
    row("openings and closings, 3 developers", Lines(timed::openings_and_closings), 5, HALF),
    row("openings and closings, 32 developers", Lines(timed::openings_and_closings_of_all), 2, HALF),
    row("offers of 1 step and cancellations", Lines(|| timed::offers_and_cancellations(1)), 5, HALF),
    row("offers of 8 steps and cancellations", Lines(|| timed::offers_and_cancellations(8)), 5, HALF),
    row("lodgings", Lines(timed::lodgings), 5, HALF),
    row("settlings of the sample", Lines(timed::settlings), 1, HALF),
    row("a first settling, in 5 lines", Lines(timed::first_settling), 200, HALF),
    row("65,536 choices in 32 projects", Replay(|| largest_book(0, LARGEST_BOOKS[0])), 1, [0.5, 0.27]),
    row("65,536 choices, lows nearly cover", Replay(easy_book), 1, [0.016, 0.016]),
    row("65,536 choices, largest projects last", Replay(hard_book), 1, [0.031, 0.016]),
    row("game of 10 prices", Game, 5, [0.096, 0.096]),
    row("sealed auction of 16 offers", SealedAuction, 1_000, HALF),
];

const fn row(name: &'static str, timed: Timed, times: usize, most: [f64; 2]) -> Row {
    Row {
        name,
        timed,
        times,
        most,
    }
}

/// A call with a lent buffer: the engine's or the independent implementation's.
type Call<'a, T = u8> = &'a dyn Fn(&mut [T]) -> u64;

/// What a call is made of, and how many of it.
type Parts = (&'static str, usize);

const CALL: Parts = ("call", 1);

const RUNS: usize = 25;

/// Bytes of the ample buffer.
const AMPLE: usize = 1 << 20;

fn main() -> ExitCode {
    let check = match &env::args().skip(1).collect::<Vec<_>>()[..] {
        [] => false,
        [argument] if argument == "check" => true,
        _ => {
            eprintln!("bench: the argument is `check`, or there is none");
            return ExitCode::FAILURE;
        }
    };
    println!(
        "row | buffer | engine | independent | engine / independent | at most; best of {RUNS} runs"
    );
    let above: Vec<String> = ROWS.iter().flat_map(Row::time).collect();
    if !check || above.is_empty() {
        return ExitCode::SUCCESS;
    }
    println!("above the bound:");
    println!("{}", above.join("\n"));
    ExitCode::FAILURE
}

impl Row {
    /// Prints a line a buffer, and gives those whose ratio is above its bound.
    fn time(&self) -> Vec<String> {
        match self.timed {
            Lines(record) => {
                let record = record();
                self.time_replay(&record, ("line", lines(&record).len()))
            }
            Replay(record) => self.time_replay(&record(), CALL),
            Preview(record) => self.time_preview(&timed::in_a_round(&record())),
            Session(record) => self.time_session(&through_seats(&record())),
            Game => self.time_game(),
            SealedAuction => self.time_sealed(),
        }
    }

    fn time_replay(&self, record: &[u8], parts: Parts) -> Vec<String> {
        let calls: [Call; 2] = [&|lent| engine::replay(black_box(record), lent), &|lent| {
            replay_into(black_box(record), lent)
        }];
        self.time_calls(calls, replay(record).len(), parts)
    }

    fn time_preview(&self, record: &[u8]) -> Vec<String> {
        let calls: [Call<u64>; 2] = [
            &|lent| engine::look(black_box(record), &Look::Preview, lent, &mut []),
            &|lent| record_preview(black_box(record), lent),
        ];
        self.time_calls(calls, 3, ("line", lines(record).len()))
    }

    fn time_session(&self, session: &[u8]) -> Vec<String> {
        let calls: [Call; 2] = [
            &|lent| engine::look_through(black_box(session), [0, 0], &Look::Replies, &mut [], lent),
            &|lent| session_replay(black_box(session), lent),
        ];
        self.time_calls(
            calls,
            replies(session).len(),
            ("line", lines(session).len()),
        )
    }

    fn time_game(&self) -> Vec<String> {
        let record = stated::written(&stated::between_rounds());
        let (first, second, prices) = (3, 2, stated::TEN);
        let calls: [Call; 2] = [
            &|lent| engine::who_can_force(black_box(&record), first, second, prices, lent),
            &|lent| who_can_force(black_box(&record), first, second, prices, lent),
        ];
        self.time_calls(calls, 1, CALL)
    }

    fn time_sealed(&self) -> Vec<String> {
        let offers: [Offer; 16] = std::array::from_fn(|place| Offer {
            price: 1_000 - place as u64,
            quantity: 100,
            minimum: 50,
            age: place as u64 / 4,
        });
        let auction = Sealed::new(1_000, 1_230, &offers);
        let calls: [Call<u64>; 2] = [
            &|lent| engine::sealed_auction(black_box(&auction), lent),
            &|lent| sealed_auction(black_box(&auction), lent),
        ];
        self.time_calls(calls, offers.len(), CALL)
    }

    /// Times the calls with a buffer of just this length, then with an ample one.
    fn time_calls<T>(&self, calls: [Call<T>; 2], exact: usize, parts: Parts) -> Vec<String>
    where
        T: Clone + Default + PartialEq,
    {
        let buffers = [("exact", exact), ("1 MiB", AMPLE / size_of::<T>())];
        let timed = buffers.into_iter().zip(self.most);
        let timed = timed.map(|((buffer, length), most)| {
            let mut lent = vec![T::default(); length];
            let answers = calls.map(|call| {
                let mut lent = lent.clone();
                (call(&mut lent), lent)
            });
            assert!(
                answers[0] == answers[1],
                "{}: the answers differ",
                self.name
            );
            let best = best(calls, &mut lent, self.times);
            self.print(buffer, best, parts, most)
        });
        timed.flatten().collect()
    }

    /// Prints a line, and gives it if its ratio is above its bound.
    fn print(&self, buffer: &str, best: [Duration; 2], parts: Parts, most: f64) -> Option<String> {
        let (part, count) = parts;
        let all = (self.times * count) as f64;
        let [engine, independent] = best.map(|time| time.as_nanos() as f64 / all);
        let (name, ratio) = (self.name, engine / independent);
        let line = format!(
            "{name} | {buffer} | {engine:.0} ns a {part} | {independent:.0} ns | {ratio:.3} | {most}"
        );
        println!("{line}");
        (ratio > most).then_some(line)
    }
}

/// The best time of each. They take turns, so that other work on the machine meets both.
fn best<T>(calls: [Call<T>; 2], lent: &mut [T], times: usize) -> [Duration; 2] {
    let mut best = [Duration::MAX; 2];
    for _ in 0..RUNS {
        for (best, call) in best.iter_mut().zip(calls) {
            *best = time(call, lent, times).min(*best);
        }
    }
    best
}

fn time<T>(call: Call<T>, lent: &mut [T], times: usize) -> Duration {
    let start = Instant::now();
    for _ in 0..times {
        black_box(call(black_box(lent)));
    }
    start.elapsed()
}
