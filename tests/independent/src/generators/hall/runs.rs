//! Runs through seats, from a seed: the calls of a generated record, each through a seat that may make
//! it, and between them calls through any seats that leave the hall as it is.

use super::idle::{any_seat, idle, seat_for, through_seat};
use crate::generators::random::Random;
use crate::generators::records::offers::some_steps;
use crate::generators::records::{late_record, record};
use crate::model::auction::{Auction, Phase};
use crate::model::hall::lines::Line;
use crate::model::hall::views::{take, Run};
use crate::model::hall::{Call, Hall, Seat};
use crate::model::replay::Call::{Cancel, Lodge, Offer, Register};
use crate::model::replay::{self, lines, read_call};

/// Numbers that no developer has.
pub const NO_DEVELOPERS: [u8; 3] = [0, 33, 255];

/// The lines of a run, with readings of any seats between the calls.
pub fn run(seed: u64) -> Vec<Line> {
    let mut random = Random::new(!seed);
    let random = &mut random;
    let (favoured, calls) = calls(random, seed);
    let mut lines = vec![Line::Fresh];
    for (seat, call) in calls {
        if random.chance(10) {
            lines.push(Line::Read(any_seat(random, favoured)));
        }
        lines.push(Line::Call(seat, call));
    }
    lines
}

/// The run of a seed, and the developer whose seat calls most often in it.
pub fn calls(random: &mut Random, seed: u64) -> (u8, Run) {
    let record = if seed.is_multiple_of(3) {
        late_record(seed)
    } else {
        record(seed)
    };
    let calls: Vec<_> = lines(&record).into_iter().filter_map(read_call).collect();
    let favoured = favoured(random, &calls);
    let mut script = Script {
        random,
        favoured,
        hall: Hall::default(),
        run: Vec::new(),
    };
    for call in calls {
        script.disturb();
        script.call(call);
    }
    script.disturb();
    (favoured, script.run)
}

/// One for whom the calls register or lodge, most often.
fn favoured(random: &mut Random, calls: &[replay::Call]) -> u8 {
    let (mut registered, mut lodging) = (Vec::new(), Vec::new());
    for call in calls {
        match call {
            Register { developer, .. } => registered.push(*developer),
            Lodge { developer, .. } => lodging.push(*developer),
            _ => (),
        }
    }
    match random.between(1, 20) {
        1..=3 => random.one_of(&NO_DEVELOPERS),
        4..=6 if !lodging.is_empty() => random.one_of(&lodging),
        7..=20 if !registered.is_empty() => random.one_of(&registered),
        _ => random.between(1, 32) as u8,
    }
}

/// The run so far, and the hall behind it.
struct Script<'a> {
    random: &'a mut Random,
    favoured: u8,
    hall: Hall,
    run: Run,
}

impl Script<'_> {
    /// A call of the record, now and then behind its refusal at another seat. The favoured developer
    /// takes some offers back, and most often makes them again.
    fn call(&mut self, call: replay::Call) {
        let mut call = through_seat(self.random, &self.hall.auction, call);
        if self.random.chance(8) {
            lengthen(self.random, &self.hall.auction, &mut call);
        }
        self.elsewhere(&call, 15);
        let seat = seat_for(self.random, &call);
        self.take(seat, call.clone());
        if call.offering() == Some(self.favoured) && self.random.chance(30) {
            let developer = self.favoured;
            self.take(seat, Call::Framed(Cancel { developer }));
            if self.random.chance(70) {
                self.take(seat, call);
            }
        }
    }

    fn take(&mut self, seat: Seat, call: Call) {
        take(&mut self.hall, seat, &call);
        self.run.push((seat, call));
    }

    /// Calls that leave the hall as it is, more where the record has few.
    fn disturb(&mut self) {
        let percent = match self.hall.auction.phase() {
            Phase::Between => 80,
            Phase::Closed => 75,
            Phase::Fresh => 60,
            Phase::Ready => 30,
            Phase::Round(_) => 25,
        };
        while self.random.chance(percent) {
            if let Some((seat, call)) = idle(self.random, &self.hall, self.favoured) {
                self.run.push((seat, call.clone()));
                self.elsewhere(&call, 40);
            }
        }
    }

    /// With this chance the call at any seat, if that may not make it.
    fn elsewhere(&mut self, call: &Call, percent: u64) {
        let seat = any_seat(self.random, self.favoured);
        if self.random.chance(percent) && !seat.may_make(call) {
            self.run.push((seat, call.clone()));
        }
    }
}

/// Gives an offer as many steps as there can be.
fn lengthen(random: &mut Random, auction: &Auction, call: &mut Call) {
    let Phase::Round(round) = auction.phase() else {
        return;
    };
    if let Call::Framed(Offer {
        developer,
        prices,
        levels,
    }) = call
    {
        if let Some(offering) = auction.developers().get(developer) {
            let any = (0..20).map(|_| random.between(round.closing, round.opening - 1) as u32);
            let any = any.collect();
            (*prices, *levels) = some_steps(random, offering, any).into_iter().unzip();
        }
    }
}
