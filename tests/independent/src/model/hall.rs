//! Seats in the auction hall (document 02, request 14): which calls each seat may make, and what it
//! reads.

pub mod lines;
pub mod views;

use crate::model::auction::{Auction, Phase, Preview, Withdrawal};
use crate::model::replay::{self, kind_of, Accepted};
use crate::model::settling::Settlement;
use crate::NO_RIGHT;

#[derive(Clone, Copy, Debug, PartialEq, Eq)]
pub enum Seat {
    Auctioneer,
    Auditor,
    Developer(u8),
}

/// A call through a seat.
#[derive(Clone, Debug, PartialEq, Eq)]
pub enum Call {
    /// One that a frame can hold, but settling.
    Framed(replay::Call),
    /// With a lent buffer of so many bytes.
    Settle {
        limit: u64,
        lent: usize,
    },
    Preview,
    SupplyPoint {
        place: usize,
    },
    WhoCanForce {
        first: u64,
        second: u64,
        prices: Vec<u64>,
    },
}

// The kinds of calls without a frame.
pub const PREVIEW: u8 = 10;
pub const SUPPLY_POINT: u8 = 11;
pub const WHO_CAN_FORCE: u8 = 12;

impl Call {
    pub fn kind(&self) -> u8 {
        match self {
            Call::Framed(call) => kind_of(call),
            Call::Settle { .. } => 6,
            Call::Preview => PREVIEW,
            Call::SupplyPoint { .. } => SUPPLY_POINT,
            Call::WhoCanForce { .. } => WHO_CAN_FORCE,
        }
    }

    /// The developer whose offer it makes or takes back.
    pub fn offering(&self) -> Option<u8> {
        match self {
            Call::Framed(
                replay::Call::Offer { developer, .. } | replay::Call::Cancel { developer },
            ) => Some(*developer),
            _ => None,
        }
    }

    /// How many numbers stand behind the first of its answer.
    fn numbers(&self) -> usize {
        match self {
            Call::Framed(replay::Call::Close) => 2,
            Call::Framed(_) => 0,
            Call::Settle { .. } => 12,
            Call::Preview => 3,
            Call::SupplyPoint { .. } => 4,
            Call::WhoCanForce { .. } => 2,
        }
    }

    fn lent(&self) -> usize {
        match self {
            Call::Settle { lent, .. } => *lent,
            _ => 0,
        }
    }
}

impl Seat {
    /// "The auctioneer makes every call except offers and cancellations, the auditor reads and
    /// settles, and a developer offers or cancels for itself and reads."
    pub fn may_make(self, call: &Call) -> bool {
        match self {
            Seat::Auctioneer => call.offering().is_none(),
            Seat::Auditor => matches!(call, Call::Settle { .. }),
            Seat::Developer(number) => call.offering() == Some(number),
        }
    }
}

/// The number, 0 if the call is accepted; the other numbers; and the lent buffer behind the call.
#[derive(Clone, Debug, Default, PartialEq, Eq)]
pub struct Answer {
    pub number: u8,
    pub others: Vec<i128>,
    pub lent: Vec<u8>,
}

/// What every seat reads.
#[derive(Clone, Copy, Debug, Default, PartialEq, Eq)]
pub struct Published {
    /// The prices of the open or else the latest round: its opening price, and C.
    pub opening: u64,
    pub closing: u64,
    /// Of the latest closing.
    pub excess: i64,
    pub phase: u8,
}

#[derive(Clone, Debug, Default, PartialEq, Eq)]
pub struct Reading {
    pub published: Published,
    /// A developer's own, as is the offer.
    pub levels: Vec<u64>,
    pub offer: Option<Vec<Withdrawal>>,
}

/// What the bytes of lent buffers are before a call.
const UNTOUCHED: u8 = 238;

/// The auction, with what was announced of its rounds.
#[derive(Clone, Debug, Default, PartialEq, Eq)]
pub struct Hall {
    pub auction: Auction,
    /// Opening price and C of the round opened last.
    prices: (u64, u64),
    /// Of the latest closing.
    excess: i64,
    /// How many closings were accepted.
    closings: u64,
}

impl Hall {
    pub fn make(&mut self, seat: Seat, call: &Call) -> Answer {
        let mut lent = vec![UNTOUCHED; call.lent()];
        let answer = if seat.may_make(call) {
            self.make_here(call, &mut lent)
        } else {
            Err(NO_RIGHT)
        };
        let (number, others) = match answer {
            Ok(others) => (0, others),
            Err(refusal) => (refusal, vec![0; call.numbers()]),
        };
        Answer {
            number,
            others,
            lent,
        }
    }

    /// The number that the call gets where no right is asked.
    pub fn number_without_rights(&self, call: &Call) -> u8 {
        let answer = self.clone().make_here(call, &mut vec![0; call.lent()]);
        answer.err().unwrap_or(0)
    }

    fn make_here(&mut self, call: &Call, lent: &mut [u8]) -> Result<Vec<i128>, u8> {
        match call {
            Call::Framed(call) => self.make_framed(call),
            Call::Settle { limit, .. } => {
                let settlement = self.auction.settle(*limit, lent)?;
                Ok(settled(&settlement))
            }
            Call::Preview => {
                let Preview { closing, closed } = self.auction.preview()?;
                let [excess, closed] = [closing.excess, closed.into()].map(i128::from);
                Ok(vec![excess, closing.remainder.into(), closed])
            }
            Call::SupplyPoint { place } => {
                let curve = self.auction.supply_curve();
                let mut numbers = vec![curve.len() as i128];
                // Past the end it is zero.
                let point = curve.get(*place);
                let point = point.map_or([0; 3], |at| [at.price, at.before, at.after]);
                numbers.extend(point.map(i128::from));
                Ok(numbers)
            }
            Call::WhoCanForce {
                first,
                second,
                prices,
            } => {
                let forced = self.auction.who_can_force(*first, *second, prices)?;
                Ok(vec![forced.outcome.into(), forced.first_move.byte().into()])
            }
        }
    }

    fn make_framed(&mut self, call: &replay::Call) -> Result<Vec<i128>, u8> {
        Ok(match self.ask(call)? {
            Accepted::Closed(closing) => vec![closing.excess.into(), closing.remainder.into()],
            _ => Vec::new(),
        })
    }

    /// Makes a call of a record, whoever asks it.
    pub fn ask(&mut self, call: &replay::Call) -> Result<Accepted, u8> {
        let opening_price = self.auction.opening_price();
        let accepted = replay::make(&mut self.auction, call)?;
        if let replay::Call::Open { c } = call {
            self.prices = (opening_price, (*c).into());
        }
        if let Accepted::Closed(closing) = &accepted {
            self.excess = closing.excess;
            self.closings += 1;
        }
        Ok(accepted)
    }

    /// How many closings were accepted.
    pub fn closings(&self) -> u64 {
        self.closings
    }

    pub fn published(&self) -> Published {
        let (opening, closing) = self.prices;
        Published {
            opening,
            closing,
            excess: self.excess,
            phase: match self.auction.phase() {
                Phase::Fresh => 0,
                Phase::Ready => 1,
                Phase::Round(_) => 2,
                Phase::Between => 3,
                Phase::Closed => 4,
            },
        }
    }

    pub fn reading(&self, seat: Seat) -> Reading {
        let mut reading = Reading {
            published: self.published(),
            ..Reading::default()
        };
        if let Seat::Developer(number) = seat {
            if let Some(registered) = self.auction.developers().get(&number) {
                reading.levels.clone_from(&registered.levels);
            }
            if let Phase::Round(round) = self.auction.phase() {
                reading.offer = round.offers.get(&number).cloned();
            }
        }
        reading
    }
}

/// The numbers of an accepted settling.
fn settled(settlement: &Settlement) -> Vec<i128> {
    [
        settlement.price,
        settlement.demand,
        settlement.remainder,
        settlement.total,
        settlement.choices,
        settlement.covering,
        settlement.kept.len() as u64,
        settlement.second,
        settlement.short.into(),
        settlement.insufficient.into(),
        settlement.paid,
        settlement.awards.len() as u64,
    ]
    .map(i128::from)
    .to_vec()
}
