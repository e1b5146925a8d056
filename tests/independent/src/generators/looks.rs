//! Calls of a C host that look at a record or at a session, from a seed: what they ask of the auction there
//! and through which seat, limits and games, and lent buffers of any length.

use crate::generators::games;
use crate::generators::hall::runs::NO_DEVELOPERS;
use crate::generators::lent::lend;
use crate::generators::random::Random;
use crate::model::auction::Phase;
use crate::model::figures::{self, limited, settling, state, Settling, Telling};
use crate::model::hall::Hall;
use crate::model::sessions::{forced, may_look, may_settle, read, seat_by};
use crate::{BUFFER_TOO_SHORT, NO_RIGHT};
use std::cell::OnceCell;

/// What is looked at.
#[derive(Clone, Debug, PartialEq, Eq)]
pub enum Look {
    State,
    Preview,
    Curve,
    Settlement {
        limit: u64,
    },
    Reading,
    Forcing {
        first: u64,
        second: u64,
        prices: Vec<u64>,
    },
    /// The replies to a session.
    Replies,
    PlainRecord,
    /// The digits of a seat.
    Digits,
}

/// A call, with the kind and number of the seat that it is made through, if any, and the lengths of its
/// buffers of numbers and of bytes.
#[derive(Clone, Debug)]
pub struct Question {
    pub look: Look,
    pub seat: Option<[u64; 2]>,
    pub numbers: usize,
    pub bytes: usize,
}

/// What a call gives: its number, and the memory that its buffers are in.
#[derive(Clone, Debug, PartialEq, Eq)]
pub struct Given {
    pub number: u64,
    pub numbers: Vec<u64>,
    pub bytes: Vec<u8>,
}

impl Question {
    /// What the call gives with its buffers.
    pub fn lend(&self, call: impl FnOnce(&mut [u64], &mut [u8]) -> u64) -> Given {
        let mut memory = Vec::new();
        let (number, numbers) = lend(self.numbers, |numbers| {
            let (number, bytes) = lend(self.bytes, |bytes| call(numbers, bytes));
            memory = bytes;
            number
        });
        Given {
            number,
            numbers,
            bytes: memory,
        }
    }

    /// What the call gives that tells this.
    pub fn expected(&self, telling: &Telling) -> Given {
        self.lend(|numbers, bytes| figures::write(telling, self.short(), numbers, bytes))
    }

    /// The refusal of a buffer too short.
    pub fn short(&self) -> u8 {
        match self.look {
            Look::Digits => crate::FRAME_BUFFER_TOO_SHORT,
            _ => BUFFER_TOO_SHORT,
        }
    }
}

/// The hall behind some lines, with what is asked of it once.
#[derive(Default)]
pub struct Place {
    pub hall: Hall,
    settling: OnceCell<Settling>,
}

impl Place {
    pub fn new(hall: Hall) -> Place {
        Place {
            hall,
            settling: OnceCell::new(),
        }
    }

    /// Of a closed auction, which no line changes, the settling is kept.
    pub fn settling(&self) -> Settling {
        match self.hall.auction.phase() {
            Phase::Closed => self
                .settling
                .get_or_init(|| settling(&self.hall.auction))
                .clone(),
            _ => settling(&self.hall.auction),
        }
    }

    /// What the call tells here. Checks: 20 first.
    pub fn telling(&self, look: &Look, seat: Option<[u64; 2]>) -> Telling {
        if let Some(seat) = seat {
            entitled(look, seat)?;
        }
        let auction = &self.hall.auction;
        match look {
            Look::State => Ok(state(&self.hall)),
            Look::Preview => figures::preview(auction),
            Look::Curve => Ok(figures::curve(auction)),
            Look::Settlement { limit } => {
                let settling = self.settling();
                limited(&settling, *limit).map(figures::settlement)
            }
            Look::Reading => {
                let [kind, number] = seat.unwrap_or_default();
                read(&self.hall, kind, number)
            }
            Look::Forcing {
                first,
                second,
                prices,
            } => forced(auction, *first, *second, prices),
            Look::Replies | Look::PlainRecord | Look::Digits => unreachable!("of no place"),
        }
    }
}

fn entitled(look: &Look, [kind, number]: [u64; 2]) -> Result<(), u8> {
    match look {
        Look::Settlement { .. } => may_settle(kind, number),
        Look::Reading => seat_by(kind, number).map(|_| ()).ok_or(NO_RIGHT),
        _ => may_look(kind, number),
    }
}

/// A call over a record, with what it tells.
pub fn over_record(random: &mut Random, look: Look, at: &Place) -> (Question, Telling) {
    let telling = at.telling(&look, None);
    (lent(random, look, None, &telling), telling)
}

/// A call over a session through some seat, with what it tells.
pub fn over_session(random: &mut Random, look: Look, at: &Place) -> (Question, Telling) {
    let seat = Some(seat(random, &look, &at.hall));
    let telling = at.telling(&look, seat);
    (lent(random, look, seat, &telling), telling)
}

/// A limit beside the number of choices, if they can be told, or beside the numbers that matter.
pub fn limit(random: &mut Random, at: &Place) -> u64 {
    let choices = match at.hall.auction.phase() {
        Phase::Closed => at.settling().map_or(65_537, |answer| answer.choices),
        _ => 1,
    };
    let wide = random.between(0, 100) | 1 << random.between(32, 63);
    let any = random.of_any_size(0, u64::MAX);
    random.one_of(&[
        choices,
        choices,
        choices,
        choices - 1,
        choices - 1,
        choices + 1,
        0,
        1,
        65_535,
        65_536,
        65_537,
        u32::MAX.into(),
        wide,
        wide,
        any,
        u64::MAX,
    ])
}

/// A game about the auction; most are short, as the long ones take long. Most of those that are refused by 2
/// are any.
pub fn forcing(random: &mut Random, at: &Place) -> Look {
    if *at.hall.auction.phase() != Phase::Between && random.chance(90) {
        let count = random.between(0, 3);
        return Look::Forcing {
            first: random.between(0, 33),
            second: random.between(0, 33),
            prices: (0..count).map(|_| random.between(0, 40_000)).collect(),
        };
    }
    let mut asked = games::about(random, &at.hall.auction);
    if asked.prices.len() <= 10 && random.chance(90) {
        asked.prices.truncate(4);
    }
    Look::Forcing {
        first: asked.first,
        second: asked.second,
        prices: asked.prices,
    }
}

/// A seat that has the right, one that may have none, or none at all.
fn seat(random: &mut Random, look: &Look, hall: &Hall) -> [u64; 2] {
    match random.between(1, 20) {
        1..=11 => match look {
            Look::Reading => reader(random, hall),
            Look::Settlement { .. } => [random.between(0, 1), 0],
            _ => [0, 0],
        },
        12..=15 => reader(random, hall),
        16..=17 => {
            let number = reader(random, hall)[1];
            [2, beyond(random, number)]
        }
        _ => no_seat(random, hall),
    }
}

/// A seat that a line can name, of a registered developer most often.
fn reader(random: &mut Random, hall: &Hall) -> [u64; 2] {
    let registered: Vec<u8> = hall.auction.developers().keys().copied().collect();
    let any = random.between(1, 32) as u8;
    let own = match registered[..] {
        [] => any,
        _ => random.one_of(&registered),
    };
    match random.between(1, 10) {
        1 => [0, 0],
        2..=3 => [1, 0],
        4 => [2, any.into()],
        5 => [2, random.one_of(&NO_DEVELOPERS).into()],
        _ => [2, own.into()],
    }
}

/// A developer's number that is no number of two digits, often one that is sound in its last two.
fn beyond(random: &mut Random, number: u64) -> u64 {
    let raised = number | 1 << random.between(8, 63);
    random.one_of(&[raised, raised, raised, 256, 1 << 32, u64::MAX])
}

/// A kind that no seat has, or a number that its kind has not; often what is a seat in fewer digits.
pub fn no_seat(random: &mut Random, hall: &Hall) -> [u64; 2] {
    let [kind, number] = reader(random, hall);
    let raised = kind | 1 << random.between(2, 63);
    let any = random.of_any_size(1, u64::MAX);
    let wide = 1 << random.between(8, 63);
    random.one_of(&[
        [raised, number],
        [raised, number],
        [3, number],
        [any.max(3), number],
        [0, number.max(1)],
        [1, number.max(1)],
        [0, wide],
        [1, wide],
        [0, any],
        [1, any],
    ])
}

/// The call with buffers around the lengths of what it tells; for one that tells nothing, around those of
/// its like.
pub fn lent(
    random: &mut Random,
    look: Look,
    seat: Option<[u64; 2]>,
    telling: &Telling,
) -> Question {
    let [numbers, bytes] = match (telling, &look) {
        (Ok(told), _) => [told.numbers.len(), told.bytes.len()],
        (_, Look::Preview) => [3, 0],
        (_, Look::Curve) => [6, 0],
        (_, Look::Settlement { .. }) => [12, 12],
        (_, Look::Reading) => [8, 0],
        (_, Look::Forcing { .. }) => [0, 1],
        (_, Look::Digits) => [0, 4],
        _ => [5, 0],
    };
    // Those of two buffers are both too short now and then.
    let [numbers, bytes] = match look {
        Look::Settlement { .. } => match random.between(1, 5) {
            1..=2 => [around(random, numbers), bytes],
            3..=4 => [numbers, around(random, bytes)],
            _ => [around(random, numbers), around(random, bytes)],
        },
        Look::Forcing { .. } | Look::Digits | Look::Replies | Look::PlainRecord => {
            [0, around(random, bytes)]
        }
        _ => [around(random, numbers), 0],
    };
    Question {
        look,
        seat,
        numbers,
        bytes,
    }
}

/// Exact, one short, longer, empty, or any shorter length.
fn around(random: &mut Random, exact: usize) -> usize {
    match random.between(1, 10) {
        1..=4 => exact,
        5..=6 => exact.saturating_sub(1),
        7..=8 => exact + random.of_any_size(1, 40) as usize,
        9 => 0,
        _ => random.index(exact + 1),
    }
}
