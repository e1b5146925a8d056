//! Runs the engine's calls over a session and the writer of seats beside the independent implementation:
//! random sessions with lines of all seats, of seats without the right, and malformed ones, looked at
//! through any seats, also such as there are none, with any limits, games and lent buffers, of which every
//! number and byte, and of their surroundings, is compared; long ones among them, whose replies have about
//! as many bytes as the engine keeps, or more. Then pairs of sessions with one view for a
//! developer: in what the engine itself gives, the developer's readings behind every line, and the replies
//! to its own lines, have to be equal line by line, and no line that shows it nothing may change its
//! reading.
//! One line a group, with `ok` or the first difference; below it what it shows. The exit status is 0 only
//! if nothing differs and nothing of that is too rare.

#[path = "../comparisons/engine.rs"]
mod engine;
#[path = "../comparisons/looking.rs"]
mod looking;

use independent::comparisons::report::{few, listed, verdict, Compared};
use independent::coverage::{Answered, Line, Looked, Viewed, SESSION_LOOKS, VIEWS};
use independent::generators::looks::{
    forcing, lent, limit, no_seat, over_session, Look, Place, Question,
};
use independent::generators::random::Random;
use independent::generators::records::{edges, long_record, repeated_record};
use independent::generators::sample;
use independent::generators::sessions::pairs::{pair, Seen};
use independent::generators::sessions::{session, through_seats};
use independent::model::figures::limited;
use independent::model::replay::{kind_of, lines, reply_of, Accepted, Call};
use independent::model::sessions::views::Shown;
use independent::model::sessions::{
    answer, asked, plain_record, replies, seat_told, written, Asked,
};
use std::iter::zip;
use std::process::ExitCode;

/// Random sessions, and pairs of sessions.
const SESSIONS: u64 = 20_000;
const PAIRS: u64 = 2_020;

/// The fewest lines and calls that show each feature, and the fewest pairs.
const FEWEST: u64 = 200;
const FEWEST_PAIRS: u64 = 200;

fn main() -> ExitCode {
    // Each group is reported when it is done: where few inputs are enough, the first that differs is the last.
    let stated = stated().report();
    let long = long_sessions().report();
    let random = Compared::new("random sessions", SESSION_LOOKS).counting("lines and calls");
    let random = random.with(SESSIONS, compare_session);
    let random_agrees = random.report();
    let pairs = Compared::new("sessions of one view", VIEWS).counting("pairs");
    let pairs = pairs.with(PAIRS, compare_pair);
    verdict(&[
        stated,
        long,
        random_agrees,
        pairs.report(),
        few() || random.holds_enough(FEWEST),
        few() || pairs.holds_enough(FEWEST_PAIRS),
    ])
}

fn compare_session(calls: &mut Compared<Looked>, seed: u64) {
    let mut random = Random::new(!seed);
    let random = &mut random;
    let session = session(seed);
    calls.add("sessions", 1);
    let replies = read(calls, random, &session);
    compare_text(calls, random, &session, Look::Replies, replies);
    compare_text(
        calls,
        random,
        &session,
        Look::PlainRecord,
        plain_record(&session),
    );
    compare_digits(calls, random);
}

/// The replies to a session, line by line, with looks behind some lines.
fn read(calls: &mut Compared<Looked>, random: &mut Random, session: &[u8]) -> Vec<u8> {
    let mut at = Place::default();
    let mut replies = Vec::new();
    let count = lines(session).len();
    let places = [random.index(count + 1), random.index(count + 1), count];
    let mut end = 0;
    for (place, bytes) in lines(session).into_iter().enumerate() {
        for _ in places.iter().filter(|looked| **looked == place) {
            look(calls, random, &session[..end], &at);
        }
        let asked = asked(bytes);
        let (kind, answer) = told(&mut at, &asked);
        replies.extend(reply_of(kind, &answer));
        let number = answer.err().unwrap_or(0);
        calls.count(&Looked::Line(Line::new(bytes, &asked, kind, number)));
        end = (end + bytes.len() + 1).min(session.len());
    }
    look(calls, random, session, &at);
    replies
}

/// The kind of a line's reply, and its answer. A settling of a closed auction is told once and kept, since
/// many take long.
fn told(at: &mut Place, asked: &Asked) -> (u8, Result<Accepted, u8>) {
    match asked {
        Asked::Permitted(_, call @ Call::Settle { limit }) => {
            let settling = at.settling();
            let answer = limited(&settling, (*limit).into());
            (kind_of(call), answer.cloned().map(Accepted::Settled))
        }
        _ => answer(&mut at.hall, asked),
    }
}

/// Looks at the session here through some seats.
fn look(calls: &mut Compared<Looked>, random: &mut Random, session: &[u8], at: &Place) {
    let limits = [0, 1].map(|_| limit(random, at));
    let forcing = forcing(random, at);
    for look in [
        Look::Reading,
        Look::Reading,
        Look::Preview,
        Look::Curve,
        Look::Settlement { limit: limits[0] },
        Look::Settlement { limit: limits[1] },
        forcing,
    ] {
        let (question, telling) = over_session(random, look, at);
        looking::compare(calls, session, Answered::new(question, telling, at));
    }
}

/// The engine's replies to a session, or its plain record.
fn compare_text(
    calls: &mut Compared<Looked>,
    random: &mut Random,
    session: &[u8],
    look: Look,
    text: Vec<u8>,
) {
    let telling = Ok(written(text));
    let question = lent(random, look, Some([0, 0]), &telling);
    let answered = Answered::new(question, telling, &Place::default());
    looking::compare(calls, session, answered);
}

fn compare_digits(calls: &mut Compared<Looked>, random: &mut Random) {
    let at = Place::default();
    let seat = match random.between(1, 20) {
        1 => [0, 0],
        2 => [1, 0],
        3..=8 => [2, random.between(0, 32)],
        9..=12 => [2, random.between(33, 255)],
        13..=14 => [2, random.of_any_size(256, u64::MAX)],
        _ => no_seat(random, &at.hall),
    };
    let telling = seat_told(seat[0], seat[1]);
    let question = lent(random, Look::Digits, Some(seat), &telling);
    looking::compare(calls, b"", Answered::new(question, telling, &at));
}

/// Both implementations are held to what docs/FORMAT.md writes out, so that an error which they have in
/// common shows.
fn stated() -> Compared<Looked> {
    let mut calls = Compared::new("stated session", SESSION_LOOKS).counting("lines and calls");
    calls.add("sessions", 1);
    let session = sample::SESSION.as_bytes();
    let stated = [
        (Look::Replies, sample::SESSION_REPLIES, replies(session)),
        (
            Look::PlainRecord,
            sample::SESSION_RECORD,
            plain_record(session),
        ),
    ];
    for (look, stated, independent) in stated {
        if stated.as_bytes() != independent {
            let independent = listed(&independent);
            calls.differ(|| format!("differs: {look:?} of the stated session:\n{independent}"));
        }
        compare_text(&mut calls, &mut Random::new(0), session, look, independent);
    }
    read(&mut calls, &mut Random::new(1), session);
    calls
}

/// Records with long replies, through seats: the replies and the plain record into buffers that are empty,
/// half as long, one byte short, exact and longer.
fn long_sessions() -> Compared<Looked> {
    let mut calls = Compared::new("long sessions", SESSION_LOOKS).counting("lines and calls");
    let mut records = edges::kept_sizes();
    if !few() {
        records.extend(edges::reply_sizes());
        records.extend((0..50).map(repeated_record));
        records.push(long_record(0, 300 << 10));
    }
    for record in records {
        calls.add("sessions", 1);
        let session = through_seats(&record);
        for (look, text) in [
            (Look::Replies, replies(&session)),
            (Look::PlainRecord, plain_record(&session)),
        ] {
            let exact = text.len();
            let telling = Ok(written(text));
            for bytes in [0, exact / 2, exact - 1, exact, exact + 1, exact + 100_000] {
                let question = Question {
                    look: look.clone(),
                    seat: Some([0, 0]),
                    numbers: 0,
                    bytes,
                };
                let answered = Answered::new(question, telling.clone(), &Place::default());
                looking::compare(&mut calls, &session, answered);
            }
        }
    }
    calls
}

fn compare_pair(pairs: &mut Compared<Viewed>, seed: u64) {
    let Some(pair) = pair(seed) else {
        return;
    };
    let [one, other] = &pair.sessions;
    let developer = pair.developer;
    let why = match given(one, developer).and_then(|one| Ok((one, given(other, developer)?))) {
        Ok((one, other)) if one.len() != other.len() => Some("two numbers of events".into()),
        Ok((one, other)) => {
            let mut both = zip(one, other);
            let differing = both.find(|(one, other)| one != other);
            differing.map(|(one, other)| format!("{one:?} and {other:?}"))
        }
        Err(why) => Some(why),
    };
    if let Some(why) = why {
        let [one, other] = pair.sessions.each_ref().map(|seen| listed(&seen.session));
        pairs.differ(|| {
            format!("differs for developer {developer}: {why}\nfirst:\n{one}second:\n{other}")
        });
    }
    let pair = Viewed::new(pair);
    pairs.add("lines that differ", pair.differing.len());
    pairs.count(&pair);
}

/// What the engine gives the developer before the session and at each line that shows it something: the
/// reply to its own line, and its reading behind.
fn given(seen: &Seen, developer: u8) -> Result<Vec<(Vec<u8>, Vec<u64>)>, String> {
    let session = &seen.session[..];
    let count = lines(session).len();
    // Longer than the replies to lines that have no awards; each award has 12 bytes.
    let mut replies = vec![0; count * 512];
    let written = engine::look_through(session, [0, 0], &Look::Replies, &mut [], &mut replies);
    let replies = usize::try_from(written)
        .ok()
        .and_then(|written| replies.get(..written));
    let replies = lines(replies.ok_or(format!("{written:#X} bytes of replies"))?);
    if replies.len() != count {
        return Err(format!("{} replies to {count} lines", replies.len()));
    }
    let mut last = reading(b"", developer)?;
    let mut given = vec![(Vec::new(), last.clone())];
    let mut end = 0;
    for ((line, reply), shown) in zip(zip(lines(session), replies), &seen.shown) {
        end = (end + line.len() + 1).min(session.len());
        let reading = reading(&session[..end], developer)?;
        match shown {
            Some(Shown::Own(_)) => given.push((reply.to_vec(), reading.clone())),
            Some(_) => given.push((Vec::new(), reading.clone())),
            None if reading == last => (),
            None => return Err(format!("{last:?}, then {reading:?}, and nothing shown")),
        }
        last = reading;
    }
    Ok(given)
}

/// The numbers of a developer's longest reading: four published values, eight levels and eight steps, each
/// list behind its length, and the mark of an offer.
const READING: usize = 4 + 1 + 8 + 1 + 1 + 2 * 8;

fn reading(session: &[u8], developer: u8) -> Result<Vec<u64>, String> {
    let mut numbers = vec![0; READING];
    let seat = [2, developer.into()];
    let count = engine::look_through(session, seat, &Look::Reading, &mut numbers, &mut []);
    let read = usize::try_from(count).ok();
    let read = read.and_then(|count| numbers.get(..count));
    read.map(<[u64]>::to_vec)
        .ok_or(format!("{count:#X} numbers of a reading"))
}
