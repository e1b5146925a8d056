//! Pairs of sessions with one view for a developer, from a seed: those of two runs through seats, with
//! lines of others between theirs that ask nothing or that their seats may not ask.

use super::{any_seat, line, of_no_seat};
use crate::generators::hall::pairs::runs;
use crate::generators::random::Random;
use crate::generators::records::damage;
use crate::model::hall::views::Run;
use crate::model::hall::{Call, Seat};
use crate::model::replay::{self, causes, fields, lines, write_call};
use crate::model::sessions::views::{shown, Shown};
use crate::model::sessions::{asked, Asked};

pub struct Pair {
    pub developer: u8,
    pub sessions: [Seen; 2],
}

/// A session, with what each line shows the developer.
pub struct Seen {
    pub session: Vec<u8>,
    pub shown: Vec<Option<Shown>>,
}

/// The pair of a seed, if its two sessions differ.
pub fn pair(seed: u64) -> Option<Pair> {
    let mut random = Random::new(seed);
    let random = &mut random;
    let (developer, pair, _) = runs(seed);
    let sessions = pair.map(|run| {
        let session = session(random, developer, &run);
        Seen {
            shown: shown(developer, &session),
            session,
        }
    });
    let pair = Pair {
        developer,
        sessions,
    };
    let [one, other] = &pair.sessions;
    assert!(
        one.view().eq(other.view()),
        "two views for developer {developer}, seed {seed}"
    );
    (one.session != other.session).then_some(pair)
}

impl Seen {
    /// What the developer is shown, in order.
    pub fn view(&self) -> impl Iterator<Item = &Shown> {
        self.shown.iter().flatten()
    }
}

impl Pair {
    /// What becomes of the lines of either session that the other has not, or not so often.
    pub fn differing(&self) -> Vec<Asked> {
        let [one, other] = self.sessions.each_ref().map(|seen| lines(&seen.session));
        let differing = [only(&one, &other), only(&other, &one)].concat();
        differing.into_iter().map(asked).collect()
    }
}

fn only<'a>(one: &[&'a [u8]], other: &[&'a [u8]]) -> Vec<&'a [u8]> {
    let mut left = one.to_vec();
    for taken in other {
        if let Some(place) = left.iter().position(|line| line == taken) {
            left.remove(place);
        }
    }
    left
}

/// The run's calls that a line can ask, and lines of others between them.
fn session(random: &mut Random, developer: u8, run: &Run) -> Vec<u8> {
    let mut session = Vec::new();
    for (seat, call) in run {
        let frame = frame(call);
        while random.chance(10) {
            let frame = frame.as_deref().unwrap_or(b"05");
            add(&mut session, developer, &idle(random, frame));
        }
        if let Some(frame) = frame {
            super::add(&mut session, &line(*seat, &frame));
        }
    }
    session
}

/// The frame of a call that has one.
fn frame(call: &Call) -> Option<Vec<u8>> {
    let call = match call {
        Call::Framed(call) => call.clone(),
        Call::Settle { limit, .. } => replay::Call::Settle {
            limit: u32::try_from(*limit).unwrap_or(u32::MAX),
        },
        _ => return None,
    };
    causes(&fields(&call)).is_empty().then(|| write_call(&call))
}

/// A line of another, or a malformed one of anybody's: it shows the developer nothing.
fn add(session: &mut Vec<u8>, developer: u8, idle: &[u8]) {
    match asked(idle) {
        Asked::Malformed => super::add(session, idle),
        Asked::Barred(seat, _) if seat != Seat::Developer(developer) => super::add(session, idle),
        _ => (),
    }
}

fn idle(random: &mut Random, frame: &[u8]) -> Vec<u8> {
    match random.between(1, 4) {
        1 => of_no_seat(random, frame),
        2 => {
            let frame = damage::line(random, frame);
            line(any_seat(random), &frame)
        }
        _ => line(any_seat(random), frame),
    }
}
