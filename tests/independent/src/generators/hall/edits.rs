//! Edits of a run that may leave a developer's view as it is: of what others offer, take back, lodge
//! and register, of the settings, and of calls that change nothing.

use super::idle::idle;
use crate::generators::random::Random;
use crate::generators::records::offers::{other_offer, some_steps};
use crate::model::auction::{Developer, Phase, Round, EXISTING, HIGHEST_LEVEL, NUMBERS};
use crate::model::demand::HIGHEST_M2;
use crate::model::hall::views::{take, Run};
use crate::model::hall::{Call, Hall, Seat};
use crate::model::replay::Call::{Cancel, Lodge, Offer, Register, SetUp};
use std::collections::BTreeSet;

/// Another run for this developer.
pub type Edit = fn(&mut Random, u8, &Run) -> Run;

/// Some stand more than once, as the view differs after many of them.
pub const EDITS: &[Edit] = &[
    idle_added,
    idle_dropped,
    steps_moved,
    offers_taken_back,
    offers_changed,
    offers_changed,
    offers_changed,
    offers_changed,
    order_changed,
    lodgings_changed,
    lodgings_changed,
    registrations_changed,
    demand_moved,
    margin_changed,
];

/// The run with other calls in the place of each, which may go by the hall before it.
fn edited(run: &Run, mut edit: impl FnMut(&Hall, Seat, &Call) -> Run) -> Run {
    let mut hall = Hall::default();
    let mut edited = Vec::new();
    for (seat, call) in run {
        edited.extend(edit(&hall, *seat, call));
        take(&mut hall, *seat, call);
    }
    edited
}

fn idle_added(random: &mut Random, developer: u8, run: &Run) -> Run {
    edited(run, |hall, seat, call| {
        let mut calls = Vec::new();
        while random.chance(15) {
            let idle = idle(random, hall, developer);
            calls.extend(idle.filter(|(seat, _)| *seat != Seat::Developer(developer)));
        }
        calls.push((seat, call.clone()));
        calls
    })
}

fn idle_dropped(random: &mut Random, developer: u8, run: &Run) -> Run {
    edited(run, |hall, seat, call| {
        let idle = !take(&mut hall.clone(), seat, call);
        let drop = idle && seat != Seat::Developer(developer) && random.chance(50);
        Vec::from_iter((!drop).then(|| (seat, call.clone())))
    })
}

/// The round and the developer of an accepted offer of another one.
fn others_offer<'a>(
    hall: &'a Hall,
    developer: u8,
    seat: Seat,
    call: &Call,
) -> Option<(&'a Round, &'a Developer)> {
    let Phase::Round(round) = hall.auction.phase() else {
        return None;
    };
    let Call::Framed(Offer { developer: own, .. }) = call else {
        return None;
    };
    let accepted = take(&mut hall.clone(), seat, call);
    (accepted && *own != developer).then(|| (round, &hall.auction.developers()[own]))
}

/// Other steps down to the same level.
fn steps_moved(random: &mut Random, developer: u8, run: &Run) -> Run {
    edited(run, |hall, seat, call| {
        let offer = others_offer(hall, developer, seat, call);
        let moved = offer.and_then(|(round, own)| down_to_the_same(random, round, own, call));
        vec![(seat, moved.unwrap_or(call.clone()))]
    })
}

fn down_to_the_same(
    random: &mut Random,
    round: &Round,
    own: &Developer,
    call: &Call,
) -> Option<Call> {
    let Call::Framed(Offer { levels, .. }) = call else {
        return None;
    };
    let last = *levels.last()?;
    let between = own
        .levels
        .iter()
        .filter(|level| **level > last.into() && **level < own.quantity);
    let between: Vec<u32> = between.map(|level| *level as u32).collect();
    let prices: BTreeSet<u32> = (0..=random.index(between.len() + 1))
        .map(|_| random.between(round.closing, round.opening - 1) as u32)
        .collect();
    let mut levels = random.some_of(&between, prices.len() - 1);
    levels.insert(0, last);
    levels.reverse();
    Some(Call::Framed(Offer {
        developer: own.number,
        prices: prices.into_iter().rev().collect(),
        levels,
    }))
}

/// Some take an offer back and make it again, or make it behind another one.
fn offers_taken_back(random: &mut Random, developer: u8, run: &Run) -> Run {
    edited(run, |hall, seat, call| {
        let mut calls = vec![(seat, call.clone())];
        if let Some((round, own)) = others_offer(hall, developer, seat, call) {
            let other = Call::Framed(other_offer(random, round, own));
            let cancel = Call::Framed(Cancel {
                developer: own.number,
            });
            let first = random.one_of(&[call, &other]).clone();
            if random.chance(30) {
                calls.splice(0..0, [first, cancel].map(|call| (seat, call)));
            }
        }
        calls
    })
}

/// Some make another offer, or none.
fn offers_changed(random: &mut Random, developer: u8, run: &Run) -> Run {
    edited(run, |hall, seat, call| {
        match others_offer(hall, developer, seat, call) {
            Some((round, own)) if random.chance(10) => {
                let other = Call::Framed(other_offer(random, round, own));
                Vec::from_iter(random.chance(70).then_some((seat, other)))
            }
            _ => vec![(seat, call.clone())],
        }
    })
}

/// Neighbours exchanged that are offers or cancellations of two developers.
fn order_changed(random: &mut Random, _: u8, run: &Run) -> Run {
    let mut run = run.clone();
    for place in 1..run.len() {
        let [one, other] = [place - 1, place].map(|at| (run[at].0, run[at].1.offering()));
        let both = one.1.is_some() && other.1.is_some();
        if both && one.0 != other.0 && random.chance(50) {
            run.swap(place - 1, place);
        }
    }
    run
}

/// Others lodge another list, none, or another one before.
fn lodgings_changed(random: &mut Random, developer: u8, run: &Run) -> Run {
    edited(run, |hall, seat, call| {
        let mut calls = vec![(seat, call.clone())];
        let Call::Framed(Lodge { developer: own, .. }) = call else {
            return calls;
        };
        if *own == developer || !take(&mut hall.clone(), seat, call) {
            return calls;
        }
        let plant = &hall.auction.developers()[own];
        let settings = hall.auction.settings();
        let prices = (0..random.between(0, 4))
            .map(|_| random.between(settings.floor(), settings.a - 1) as u32);
        let prices = prices.collect();
        let (prices, levels) = some_steps(random, plant, prices).into_iter().unzip();
        let other = Call::Framed(Lodge {
            developer: *own,
            prices,
            levels,
        });
        match random.between(1, 4) {
            1 => calls.insert(0, (seat, other)),
            2 => calls = vec![(seat, other)],
            3 => calls.clear(),
            _ => (),
        }
        calls
    })
}

/// Others with another study value, start day or agent.
fn registrations_changed(random: &mut Random, number: u8, run: &Run) -> Run {
    edited(run, |_, seat, call| {
        let mut call = call.clone();
        if let Call::Framed(Register {
            developer,
            agent,
            study,
            day,
            ..
        }) = &mut call
        {
            if *developer != number && random.chance(50) {
                let any = random.between(1, 32) as u8;
                *agent = random.one_of(&[*agent, None, Some(any)]);
                *study = random.one_of(&[*study, 0, 400, u32::MAX]);
                *day = random.one_of(&[*day, 0, 10, u32::MAX]);
            }
        }
        vec![(seat, call)]
    })
}

/// More demand at every price, and an existing plant that meets it.
fn demand_moved(random: &mut Random, developer: u8, run: &Run) -> Run {
    let free = |number: &u8| *number != developer && !is_registered(run, *number);
    let free: Vec<u8> = NUMBERS.filter(free).collect();
    edited(run, |hall, seat, call| {
        let mut calls = vec![(seat, call.clone())];
        let accepted = take(&mut hall.clone(), seat, call);
        if let (true, &Call::Framed(SetUp { ce, d, m1, m2, a })) =
            (accepted && !free.is_empty(), call)
        {
            let most = (HIGHEST_M2 - m2).min(HIGHEST_LEVEL.into());
            let more = random.of_any_size(most.min(1), most);
            let (d, m1, m2) = (d + more, m1 + more, m2 + more);
            let number = random.one_of(&free);
            let plant = Register {
                project: number,
                developer: number,
                kind: EXISTING,
                agent: None,
                study: 0,
                day: 0,
                levels: vec![more as u32],
            };
            let set_up = SetUp { ce, d, m1, m2, a };
            calls = vec![(seat, Call::Framed(set_up)), (seat, Call::Framed(plant))];
        }
        calls
    })
}

/// Whether some call registers the number as a project or a developer.
fn is_registered(run: &Run, number: u8) -> bool {
    run.iter().any(|(_, call)| match call {
        Call::Framed(Register {
            project, developer, ..
        }) => *project == number || *developer == number,
        _ => false,
    })
}

/// Another M2, which makes no difference from CE upwards.
fn margin_changed(random: &mut Random, _: u8, run: &Run) -> Run {
    edited(run, |_, seat, call| {
        let mut call = call.clone();
        if let Call::Framed(SetUp { d, m2, .. }) = &mut call {
            if *d < HIGHEST_M2 {
                *m2 = random.of_any_size(*d + 1, HIGHEST_M2);
            }
        }
        vec![(seat, call)]
    })
}
