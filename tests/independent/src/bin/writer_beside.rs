//! Runs the engine's writer of frames beside the independent implementation: random calls, each
//! with a lent buffer of which every byte, and of its surroundings, is compared. Each frame that
//! was written is read back by both: by the independent implementation as the call that was
//! written, and by the engine in records, whose replies are those of the calls.
//! One line a kind of call: how often each behaviour was reached, and `ok` or the first
//! difference; then the line of the records. The exit status is 0 only if nothing differs.

#[path = "../comparisons/engine.rs"]
mod engine;

use independent::comparisons::report::{inputs, verdict, Group};
use independent::generators::calls::{behaviour, buffer, call, kinds};
use independent::generators::lent::{difference, lend, MARGIN};
use independent::generators::random::Random;
use independent::generators::sample;
use independent::model::auction::Auction;
use independent::model::replay::{
    fields, kind_of, lines, make, read_call, reply_of, write_frame, Call, Fields,
};
use std::collections::BTreeMap;
use std::process::ExitCode;

/// Calls of each kind.
const CALLS: u64 = 20_000;

/// Most frames of a record that is read back, behind lines of the sample.
const FRAMES: u64 = 20;

/// Frames that the engine wrote, each with the call that it reads back to.
type Written = Vec<(Call, Vec<u8>)>;

fn main() -> ExitCode {
    let mut random = Random::new(2);
    let mut written = Written::new();
    let mut agree: Vec<bool> = kinds()
        .map(|kind| compared(&mut random, kind, &mut written).report())
        .collect();
    agree.push(read_back(&mut random, written).report());
    verdict(&agree)
}

/// Calls of one kind: how often each behaviour was reached, and the first difference.
struct Calls {
    kind: u8,
    behaviours: BTreeMap<String, u64>,
    difference: Option<String>,
}

fn compared(random: &mut Random, kind: u8, written: &mut Written) -> Calls {
    let mut calls = Calls {
        kind,
        behaviours: BTreeMap::new(),
        difference: None,
    };
    for _ in 0..inputs(CALLS) {
        let asked = call(random, kind);
        let length = buffer(random, &asked);
        let reached = behaviour(&asked, length);
        *calls.behaviours.entry(reached).or_default() += 1;
        calls.compare(&asked, length, written);
    }
    calls
}

impl Calls {
    /// Compares answer and memory of a call with a buffer of so many bytes, and keeps its frame.
    fn compare(&mut self, asked: &Fields, length: usize, written: &mut Written) {
        let engine = lend(length, |buffer| engine::write(asked, buffer));
        let expected = lend(length, |buffer| write_frame(asked, buffer));
        if let Some(difference) = difference(length, &engine, &expected) {
            self.differ(asked, difference);
        } else if engine.0 <= length as u64 {
            let frame = &engine.1[MARGIN..][..engine.0 as usize];
            match frame.strip_suffix(b"\n").and_then(read_call) {
                Some(call) if fields(&call) == *asked => written.push((call, frame.to_vec())),
                other => self.differ(asked, format!("the frame reads back as {other:?}")),
            }
        }
    }

    fn differ(&mut self, asked: &Fields, why: String) {
        self.difference
            .get_or_insert_with(|| format!("differs: {asked:X?}, {why}"));
    }

    /// Prints the line of these calls; true if nothing differed.
    fn report(&self) -> bool {
        let calls: u64 = self.behaviours.values().sum();
        let reached = self.behaviours.iter();
        let reached: Vec<String> = reached.map(|(name, n)| format!("{name} {n}")).collect();
        let verdict = self.difference.as_deref().unwrap_or("ok");
        let (kind, reached) = (self.kind, reached.join("; "));
        println!("kind {kind:02X}: {calls} calls ({reached}): {verdict}");
        self.difference.is_none()
    }
}

/// All frames in records, behind some lines of the sample, so that they meet each phase.
fn read_back(random: &mut Random, mut written: Written) -> Group {
    let mut group = Group::new("records of written frames");
    random.shuffle(&mut written);
    let mut rest = &written[..];
    while !rest.is_empty() {
        let count = random.between(1, FRAMES) as usize;
        let (some, behind) = rest.split_at(count.min(rest.len()));
        rest = behind;
        let lines = lines(sample::RECORD.as_bytes());
        let start = random.between(0, lines.len() as u64) as usize;
        let sample = lines[..start].iter().map(|line| {
            let call = read_call(line).expect("a frame of the sample");
            (call, [line, &b"\n"[..]].concat())
        });
        compare_record(&mut group, &[&sample.collect::<Written>(), some].concat());
    }
    group
}

/// The engine's replies to a record of frames, beside those to the calls.
fn compare_record(group: &mut Group, written: &[(Call, Vec<u8>)]) {
    let mut auction = Auction::new();
    let mut replies = Vec::new();
    let mut record = Vec::new();
    for (call, frame) in written {
        record.extend_from_slice(frame);
        replies.extend(reply_of(kind_of(call), &make(&mut auction, call)));
    }
    group.count(&record, &replies);
    let mut buffer = vec![0; replies.len()];
    let number = engine::replay(&record, &mut buffer);
    if (number, &buffer) != (replies.len() as u64, &replies) {
        let replies = [("engine", &buffer[..]), ("the calls", &replies)];
        group.differ("frames do not read back to their calls", &record, replies);
    }
}
