//! What a program printed for runs through seats, beside what has to be printed, and for the two runs
//! of a pair beside each other.

use crate::generators::hall::pairs::{Pair, Seen};
use crate::model::hall::lines::Event;
use crate::model::hall::views::Shown;
use crate::model::replay::PROGRAM_BYTES;
use std::iter::zip;

/// The lines that a program is given for the runs.
pub fn input(runs: &[&[Event]]) -> String {
    let lines = runs.iter().copied().flatten();
    lines.map(|event| format!("{}\n", event.line)).collect()
}

/// Groups of runs that a program takes at once: it reads no more than `replay` does.
pub fn groups<'a, 'b>(runs: &'b [&'a [Event]]) -> Vec<&'b [&'a [Event]]> {
    let (mut groups, mut start, mut length) = (Vec::new(), 0, 0);
    for (place, run) in runs.iter().enumerate() {
        let more = input(&[run]).len();
        assert!(more <= PROGRAM_BYTES, "a run of {more} bytes");
        if length + more > PROGRAM_BYTES {
            groups.push(&runs[start..place]);
            (start, length) = (place, 0);
        }
        length += more;
    }
    groups.push(&runs[start..]);
    groups
}

/// What was printed for each of the runs; the last one gets all that is left.
pub fn parts(runs: &[&[Event]], printed: &str) -> Vec<Vec<String>> {
    let mut left: Vec<String> = printed.lines().map(String::from).collect();
    let mut parts = Vec::new();
    for (place, run) in runs.iter().enumerate() {
        let last = place + 1 == runs.len();
        let end = if last { left.len() } else { run.len() };
        let rest = left.split_off(end.min(left.len()));
        parts.push(left);
        left = rest;
    }
    parts
}

/// The first line of a run that is not printed as it has to be; its text, with all lines up to it.
pub fn difference<'a>(
    run: &'a [Event],
    printed: &'a [String],
) -> Option<impl FnOnce() -> String + 'a> {
    let expected: Vec<String> = run.iter().map(Event::printed).collect();
    let differs = |place: &usize| printed.get(*place) != expected.get(*place);
    let place = (0..expected.len().max(printed.len())).find(differs)?;
    Some(move || {
        let lines = run.iter().take(place + 1);
        let lines: String = lines.map(|event| format!("  {}\n", event.line)).collect();
        let at = |lines: &[String]| lines.get(place).cloned().unwrap_or("none".into());
        let (printed, expected) = (at(printed), at(&expected));
        format!("differs in the last of\n{lines}program:     {printed}\nindependent: {expected}")
    })
}

/// The first event at which the runs of a pair gave the developer two answers or readings, or a call
/// that shows it nothing changed its reading; its text, with both runs.
pub fn pair_difference<'a>(
    pair: &'a Pair,
    printed: [&'a [String]; 2],
) -> Option<impl FnOnce() -> String + 'a> {
    let [one, other] = &pair.runs;
    let both = given(one, printed[0]).and_then(|one| Ok((one, given(other, printed[1])?)));
    let why = match both {
        Ok((one, other)) if one.len() != other.len() => "two numbers of events".into(),
        Ok((one, other)) => zip(one, other)
            .find(|(one, other)| one != other)
            .map(|(one, other)| format!("{one:?} and {other:?}"))?,
        Err(why) => why,
    };
    let lines = |seen: &Seen| {
        let lines = seen
            .events
            .iter()
            .map(|event| format!("  {}\n", event.line));
        lines.collect::<String>()
    };
    Some(move || {
        let (first, second) = (lines(one), lines(other));
        let developer = pair.developer;
        format!(
            "differs for developer {developer}: {why}\nfirst run:\n{first}second run:\n{second}"
        )
    })
}

/// What a run gave the developer before it and at each of its events: what was printed for its own
/// call, and for its reading behind.
fn given<'a>(run: &Seen, printed: &'a [String]) -> Result<Vec<[&'a str; 2]>, String> {
    let [_fresh, reading, calls @ ..] = printed else {
        return Err("no reading of a fresh hall".into());
    };
    if calls.len() != 2 * run.shown.len() {
        return Err(format!("{} lines", printed.len()));
    }
    let mut last = reading;
    let mut given = vec![["", reading]];
    for (shown, lines) in zip(&run.shown, calls.chunks(2)) {
        let (answer, reading) = (&lines[0], &lines[1]);
        match shown {
            Some(Shown::Own(_)) => given.push([answer, reading]),
            Some(_) => given.push(["", reading]),
            None if reading == last => (),
            None => return Err(format!("{last}, then {reading}, and nothing shown")),
        }
        last = reading;
    }
    Ok(given)
}
