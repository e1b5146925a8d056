//! The calibration set: records and sessions for other programs, chosen from those that are made here so
//! that each goal is reached by some, and what is said of each of them.

use crate::coverage::{goals, reached, session_goals, session_reached, Goal};
use crate::generators::records::{
    edges, fixed, late_record, long_record, records_of, repeated_record,
};
use crate::generators::sample;
use crate::generators::sessions::session;
use crate::model::replay::{lines, replay, PROGRAM_BYTES};
use crate::model::sessions;
use crate::parts::in_parts;
use std::collections::{BTreeMap, BTreeSet};
use std::fmt::Write;

/// Records, or sessions: where they stand, what they have to reach, and what they are chosen from.
pub struct Sort {
    /// The folder, and the ending of its files.
    pub folder: &'static str,
    pub ending: &'static str,
    /// The folder of the replies.
    pub replies: &'static str,
    pub goals: fn() -> Vec<Goal>,
    pub reached: fn(&[u8]) -> BTreeSet<Goal>,
    pub replay: fn(&[u8]) -> Vec<u8>,
    candidates: fn() -> Vec<Vec<u8>>,
    /// How many of the set should reach each goal, where there are so many.
    wanted: usize,
}

pub const RECORDS: Sort = Sort {
    folder: "records",
    ending: "record",
    replies: "replies",
    goals,
    reached,
    replay,
    candidates: records,
    wanted: 5,
};

pub const SESSIONS: Sort = Sort {
    folder: "sessions",
    ending: "session",
    replies: "session_replies",
    goals: session_goals,
    reached: session_reached,
    replay: sessions::replies,
    candidates: || {
        let seeds = (0..2_000).map(session);
        let stated = [sample::SESSION.as_bytes().to_vec()];
        stated.into_iter().chain(seeds).collect()
    },
    wanted: 2,
};

/// The stated and the fixed records, those at the edges, and generated ones.
fn records() -> Vec<Vec<u8>> {
    let seeds: Vec<u64> = (0..400).collect();
    let generated = |seeds: &[u64]| {
        let records = seeds
            .iter()
            .flat_map(|&seed| [repeated_record(seed), late_record(seed)]);
        records.collect::<Vec<_>>()
    };
    [
        sample::records(),
        fixed::records(),
        edges::lines(),
        edges::damaged_samples(),
        vec![long_record(0, PROGRAM_BYTES), vec![b'0'; PROGRAM_BYTES]],
        edges::reply_sizes(),
        edges::largest_books(),
        records_of(0..10_000),
        in_parts(&seeds, generated).concat(),
    ]
    .concat()
}

/// One of the set: the name of its files, and what it reaches.
pub struct Case {
    pub name: String,
    pub input: Vec<u8>,
    pub reached: BTreeSet<Goal>,
}

impl Sort {
    /// Those that the set has: for each goal, the rarest first, the shortest that reach it, until enough
    /// of those chosen do. Numbered by the order of the goals.
    pub fn choose(&self) -> Vec<Case> {
        let candidates = self.candidates();
        let goals = (self.goals)();
        let reach = |goal: Goal| {
            let candidates = candidates.iter();
            candidates.filter(move |(_, reached)| reached.contains(&goal))
        };
        let mut rarest = goals.clone();
        rarest.sort_by_cached_key(|&goal| reach(goal).count());
        let mut chosen: BTreeMap<&Vec<u8>, Goal> = BTreeMap::new();
        for goal in rarest {
            let (there, others): (Vec<_>, Vec<_>) =
                reach(goal).partition(|(input, _)| chosen.contains_key(input));
            let missing = self.wanted.saturating_sub(there.len());
            let added = others.into_iter().take(missing);
            chosen.extend(added.map(|(input, _)| (input, goal)));
        }
        let place = |goal: &Goal| goals.iter().position(|other| other == goal);
        let mut chosen: Vec<(&Vec<u8>, Goal)> = chosen.into_iter().collect();
        chosen.sort_by_key(|(input, goal)| (place(goal), input.len(), *input));
        let case =
            |(number, (input, goal)): (usize, (&Vec<u8>, Goal))| self.case(number, input, &goal);
        (1..).zip(chosen).map(case).collect()
    }

    /// The one with this number, chosen for the goal.
    pub fn case(&self, number: usize, input: &[u8], goal: &Goal) -> Case {
        Case {
            name: format!("{number:03}-{}", goal.slug()),
            input: input.to_vec(),
            reached: (self.reached)(input),
        }
    }

    /// Each once, the shortest first, with what it reaches. Input and replies fit the program `replay`.
    fn candidates(&self) -> Vec<(Vec<u8>, BTreeSet<Goal>)> {
        let mut inputs = (self.candidates)();
        inputs.sort_by(|one, other| (one.len(), one).cmp(&(other.len(), other)));
        inputs.dedup();
        let fits = |input: &&Vec<u8>| {
            input.len() <= PROGRAM_BYTES && (self.replay)(input).len() <= PROGRAM_BYTES
        };
        let with_reached = |inputs: &[Vec<u8>]| {
            let inputs = inputs.iter().filter(fits);
            let reached = inputs.map(|input| (input.clone(), (self.reached)(input)));
            reached.collect::<Vec<_>>()
        };
        // In small parts: the longest stand together at the end.
        let parts = inputs.chunks(64);
        parts
            .flat_map(|part| in_parts(part, with_reached).concat())
            .collect()
    }

    /// What is wrong with names, numbers and what is reached.
    pub fn faults(&self, cases: &[Case]) -> Vec<String> {
        let mut faults = Vec::new();
        for (number, case) in (1..).zip(cases) {
            let named = |goal: &Goal| case.name == format!("{number:03}-{}", goal.slug());
            if !case.reached.iter().any(named) {
                let folder = self.folder;
                faults.push(format!("{folder}/{}: it does not reach that", case.name));
            }
        }
        for goal in (self.goals)() {
            if !cases.iter().any(|case| case.reached.contains(&goal)) {
                let Goal { topic, feature } = goal;
                faults.push(format!("{}: none reaches {topic}: {feature}", self.folder));
            }
        }
        faults
    }

    /// The tables of the page: by goal, and by case.
    pub fn tables(&self, cases: &[Case]) -> String {
        let mut text = format!(
            "\n| What the {} reach | | How many | Shortest |\n|---|---|---|---|\n",
            self.folder
        );
        for goal in (self.goals)() {
            let mut reaching: Vec<&Case> = cases
                .iter()
                .filter(|case| case.reached.contains(&goal))
                .collect();
            reaching.sort_by_key(|case| (case.input.len(), &case.name));
            let shortest = reaching.iter().take(3).map(|case| &case.name[..3]);
            let shortest = shortest.collect::<Vec<_>>().join(", ");
            let Goal { topic, feature } = goal;
            let count = reaching.len();
            let _ = writeln!(text, "| {topic} | {feature} | {count} | {shortest} |");
        }
        let _ = write!(
            text,
            "\n| File in {}/ | Lines | Goals |\n|---|---|---|\n",
            self.folder
        );
        for case in cases {
            let (lines, reached) = (lines(&case.input).len(), case.reached.len());
            let _ = writeln!(text, "| {} | {lines} | {reached} |", case.name);
        }
        text
    }

    /// Every goal of every case, a row each, below its heads.
    pub fn list(&self, cases: &[Case]) -> String {
        let mut text = format!("{},topic,feature\n", self.ending);
        for case in cases {
            for Goal { topic, feature } in &case.reached {
                let _ = writeln!(
                    text,
                    "{},{},{}",
                    &case.name[..3],
                    cell(topic),
                    cell(feature)
                );
            }
        }
        text
    }
}

fn cell(text: &str) -> String {
    if text.contains(',') {
        format!("\"{text}\"")
    } else {
        text.to_owned()
    }
}
