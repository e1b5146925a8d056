//! What a run shows a developer's seat (document 02, request 14).

use super::{Call, Hall, Published, Seat};
use crate::model::replay;

/// Calls through seats, from a fresh hall.
pub type Run = Vec<(Seat, Call)>;

/// What a call shows a developer.
#[derive(Clone, Debug, PartialEq, Eq)]
pub enum Shown {
    /// A call through its own seat, whatever it is answered.
    Own(Call),
    /// An accepted registration of it, or lodging for it.
    MadeFor(Call),
    /// The published values, if the call changed them.
    Published(Published),
}

/// What each call of the run shows the developer, if anything. The view is what is shown, in order.
pub fn shown(developer: u8, run: &Run) -> Vec<Option<Shown>> {
    let mut hall = Hall::default();
    run.iter()
        .map(|(seat, call)| shown_by(developer, &mut hall, *seat, call))
        .collect()
}

pub fn view(developer: u8, run: &Run) -> Vec<Shown> {
    shown(developer, run).into_iter().flatten().collect()
}

fn shown_by(developer: u8, hall: &mut Hall, seat: Seat, call: &Call) -> Option<Shown> {
    let before = hall.published();
    let accepted = take(hall, seat, call);
    if seat == Seat::Developer(developer) {
        Some(Shown::Own(call.clone()))
    } else if accepted && made_for(call) == Some(developer) {
        Some(Shown::MadeFor(call.clone()))
    } else {
        let after = hall.published();
        (after != before).then_some(Shown::Published(after))
    }
}

/// The developer for whom others make the call.
fn made_for(call: &Call) -> Option<u8> {
    match call {
        Call::Framed(
            replay::Call::Register { developer, .. } | replay::Call::Lodge { developer, .. },
        ) => Some(*developer),
        _ => None,
    }
}

/// Makes the call if it can change the hall; whether it was then accepted. Settlings take long.
pub(crate) fn take(hall: &mut Hall, seat: Seat, call: &Call) -> bool {
    matches!(call, Call::Framed(_)) && hall.make(seat, call).number == 0
}
