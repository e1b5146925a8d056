//! Calls through any seats that leave the hall as it is: refused ones, and those that only look.

use super::runs::NO_DEVELOPERS;
use crate::generators::games;
use crate::generators::random::Random;
use crate::generators::records::refused;
use crate::model::auction::{Auction, Phase};
use crate::model::hall::views::take;
use crate::model::hall::{Call, Hall, Seat};
use crate::model::replay;
use crate::model::replay::Call::{Cancel, Lodge, Offer, Open, Register, Settle};

/// Most numbers of the lists in a line: levels of a registration, the two of an offer, prices of a
/// game.
const MOST_LEVELS: usize = 16;
const MOST_STEPS: usize = 12;
const MOST_PRICES: usize = 12;

/// Such a call; none if the one that was drawn changes the hall.
pub(super) fn idle(random: &mut Random, hall: &Hall, favoured: u8) -> Option<(Seat, Call)> {
    let none = random.one_of(&NO_DEVELOPERS);
    let own = random.one_of(&[favoured, none]);
    let mut call = any_call(random, &hall.auction, own);
    let seat = match random.between(1, 10) {
        1..=4 => any_seat(random, favoured),
        5..=6 if call.offering().is_some() => {
            put_developer(&mut call, own);
            Seat::Developer(own)
        }
        _ => seat_for(random, &call),
    };
    let accepted = take(&mut hall.clone(), seat, &call);
    (!accepted).then_some((seat, call))
}

/// A seat that may make the call.
pub(super) fn seat_for(random: &mut Random, call: &Call) -> Seat {
    match (call, call.offering()) {
        (_, Some(developer)) => Seat::Developer(developer),
        (Call::Settle { .. }, _) => random.one_of(&[Seat::Auctioneer, Seat::Auditor]),
        _ => Seat::Auctioneer,
    }
}

pub(super) fn any_seat(random: &mut Random, favoured: u8) -> Seat {
    let any = random.between(1, 32) as u8;
    let none = random.one_of(&NO_DEVELOPERS);
    let developer = Seat::Developer(random.one_of(&[favoured, any, none]));
    random.one_of(&[Seat::Auctioneer, Seat::Auditor, developer, developer])
}

fn put_developer(call: &mut Call, number: u8) {
    if let Call::Framed(Offer { developer, .. } | Cancel { developer }) = call {
        *developer = number;
    }
}

/// A call as it could stand next, or with causes of refusal planted.
fn any_call(random: &mut Random, auction: &Auction, developer: u8) -> Call {
    // By kind; 0 is one of any kind that a record can hold.
    let kinds: &[u8] = match auction.phase() {
        Phase::Fresh => &[0, 0, 0, 4, 6, 10, 11, 12],
        Phase::Ready => &[0, 0, 0, 0, 0, 0, 3, 4, 6, 10, 11, 12],
        Phase::Round(_) => &[0, 0, 0, 0, 0, 0, 0, 0, 4, 6, 10, 10, 11, 12],
        Phase::Between => &[0, 4, 6, 10, 11, 11, 12, 12, 12, 12, 12, 12],
        Phase::Closed => &[0, 0, 4, 6, 6, 6, 6, 10, 11, 11, 12],
    };
    match random.one_of(kinds) {
        // Often before A is covered.
        3 => Call::Framed(Open {
            c: auction.settings().floor() as u32,
        }),
        4 => Call::Framed(Offer {
            developer,
            prices: Vec::new(),
            levels: Vec::new(),
        }),
        6 => settling(random, auction, None),
        10 => Call::Preview,
        11 => Call::SupplyPoint {
            place: random.one_of(&[0, 1, 2, 5, 20, 255, 256, 300]),
        },
        12 => game(random, auction),
        _ => {
            let call = refused::call(random, auction);
            let mut call = through_seat(random, auction, call);
            make_unequal(random, &mut call);
            call
        }
    }
}

fn game(random: &mut Random, auction: &Auction) -> Call {
    let mut asked = games::about(random, auction);
    asked.prices.truncate(MOST_PRICES);
    Call::WhoCanForce {
        first: asked.first,
        second: asked.second,
        prices: asked.prices,
    }
}

/// A call of a record, with lists as long as a line takes.
pub(super) fn through_seat(random: &mut Random, auction: &Auction, mut call: replay::Call) -> Call {
    match &mut call {
        Settle { limit } => return settling(random, auction, Some(*limit)),
        Register { levels, .. } => levels.truncate(MOST_LEVELS),
        Offer { prices, levels, .. } | Lodge { prices, levels, .. } => {
            prices.truncate(MOST_STEPS);
            levels.truncate(MOST_STEPS);
        }
        _ => (),
    }
    Call::Framed(call)
}

/// With this limit or any, and a buffer for all records or fewer; short where it is refused by 2.
fn settling(random: &mut Random, auction: &Auction, limit: Option<u32>) -> Call {
    let any = random.one_of(&[0, 1, 100, 65_536, 65_536, u64::MAX]);
    let limit = limit.map_or(any, u64::from);
    let mut lent = random.index(13);
    if *auction.phase() == Phase::Closed {
        lent = random.one_of(&[192, 200, 60, 60, lent, 0]);
        if random.chance(40) {
            // For just the records, or one byte less.
            let settlement = auction.settle(limit, &mut [0; 192]);
            let exact = settlement.map_or(6, |settlement| 6 * settlement.awards.len());
            lent = random.one_of(&[exact, exact, exact.saturating_sub(1)]);
        }
    }
    Call::Settle { limit, lent }
}

/// Now and then takes the last price or the last level away, or puts one more behind.
fn make_unequal(random: &mut Random, call: &mut Call) {
    if let Call::Framed(Offer { prices, levels, .. } | Lodge { prices, levels, .. }) = call {
        let list = if random.chance(50) { prices } else { levels };
        match random.between(1, 20) {
            1 => drop(list.pop()),
            2 if list.len() < MOST_STEPS => list.push(0),
            _ => (),
        }
    }
}
