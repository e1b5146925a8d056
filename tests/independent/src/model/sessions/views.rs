//! What the lines of a session show a developer, whatever the lines of others hold (document 02, request
//! 14; docs/DECISIONS.md, Sessions).

use super::{asked, take, Asked};
use crate::model::hall::{Hall, Published, Seat};
use crate::model::replay::{lines, Call};

/// What a line shows a developer.
#[derive(Clone, Debug, PartialEq, Eq)]
pub enum Shown {
    /// A well-formed line of its own seat, whatever that gets, settlings too.
    Own(Call),
    /// An accepted registration of it, or lodging for it.
    MadeFor(Call),
    /// The published values, if the line changed them.
    Published(Published),
}

/// What each line of the session shows the developer, if anything. The view is what is shown, in order.
pub fn shown(developer: u8, session: &[u8]) -> Vec<Option<Shown>> {
    let mut hall = Hall::default();
    let lines = lines(session).into_iter();
    lines
        .map(|line| shown_by(developer, &mut hall, line))
        .collect()
}

pub fn view(developer: u8, session: &[u8]) -> Vec<Shown> {
    shown(developer, session).into_iter().flatten().collect()
}

fn shown_by(developer: u8, hall: &mut Hall, line: &[u8]) -> Option<Shown> {
    let before = hall.published();
    let asked = asked(line);
    let accepted = take(hall, &asked);
    match asked {
        Asked::Barred(seat, call) | Asked::Permitted(seat, call)
            if seat == Seat::Developer(developer) =>
        {
            Some(Shown::Own(call))
        }
        Asked::Permitted(_, call) if accepted && made_for(&call) == Some(developer) => {
            Some(Shown::MadeFor(call))
        }
        _ => {
            let after = hall.published();
            (after != before).then_some(Shown::Published(after))
        }
    }
}

/// The developer for whom others make the call.
fn made_for(call: &Call) -> Option<u8> {
    match call {
        Call::Register { developer, .. } | Call::Lodge { developer, .. } => Some(*developer),
        _ => None,
    }
}
