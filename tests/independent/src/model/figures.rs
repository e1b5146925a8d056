//! What a C host reads of an auction: its state, a preview of closing (document 02, request 6), the
//! supply curve (request 9) and a settlement, each a list of numbers of 64 bits, signed ones in two's
//! complement; and the four calls over a record, which is the auction.

use crate::model::auction::{Auction, Preview};
use crate::model::hall::Hall;
use crate::model::replay::{lines, read_call, Call};
use crate::model::settling::{Award, Settlement, MOST_CHOICES};
use crate::{host_number, require, ABOVE_THE_LIMIT, BUFFER_TOO_SHORT};

/// What an accepted call returns, and what it puts at the start of its lent buffers.
#[derive(Clone, Debug, Default, PartialEq, Eq)]
pub struct Told {
    pub number: u64,
    pub numbers: Vec<u64>,
    pub bytes: Vec<u8>,
}

/// What a call tells before its buffers are looked at, or its refusal.
pub type Telling = Result<Told, u8>;

/// The C call that tells this. Checks: that of a buffer too short, behind all others.
pub fn write(telling: &Telling, short: u8, numbers: &mut [u64], bytes: &mut [u8]) -> u64 {
    host_number(
        telling
            .as_ref()
            .map_err(|refusal| *refusal)
            .and_then(|told| {
                require(told.numbers.len() <= numbers.len(), short)?;
                require(told.bytes.len() <= bytes.len(), short)?;
                numbers[..told.numbers.len()].copy_from_slice(&told.numbers);
                bytes[..told.bytes.len()].copy_from_slice(&told.bytes);
                Ok(told.number)
            }),
    )
}

/// A call that writes numbers alone.
pub fn write_numbers(telling: &Telling, numbers: &mut [u64]) -> u64 {
    write(telling, BUFFER_TOO_SHORT, numbers, &mut [])
}

/// The hall after a record's calls, from a fresh one. Settlings are not made: they change nothing, and
/// many take long.
pub fn hall_after(record: &[u8]) -> Hall {
    let mut hall = Hall::default();
    for call in lines(record).into_iter().filter_map(read_call) {
        if !matches!(call, Call::Settle { .. }) {
            // Refused calls are among them.
            let _ = hall.ask(&call);
        }
    }
    hall
}

/// Phase, opening and closing price of the open or else the latest round, excess of the latest accepted
/// closing, number of accepted closings.
pub fn state(hall: &Hall) -> Told {
    let published = hall.published();
    Told {
        numbers: vec![
            published.phase.into(),
            published.opening,
            published.closing,
            published.excess.cast_unsigned(),
            hall.closings(),
        ],
        ..Told::default()
    }
}

/// Excess, remainder, and 1 if the auction would then be closed, else 0. Checks: those of closing.
pub fn preview(auction: &Auction) -> Telling {
    let Preview { closing, closed } = auction.preview()?;
    Ok(Told {
        numbers: vec![
            closing.excess.cast_unsigned(),
            closing.remainder,
            closed.into(),
        ],
        ..Told::default()
    })
}

/// Returns how many points there are; of each, falling: price, supply before, supply after.
pub fn curve(auction: &Auction) -> Told {
    let points = auction.supply_curve();
    Told {
        number: points.len() as u64,
        numbers: points
            .into_iter()
            .flat_map(|point| [point.price, point.before, point.after])
            .collect(),
        ..Told::default()
    }
}

/// Price, demand, remainder, total, choices, covering, kept, second price, short, insufficient, price
/// paid, number of award records; and the records, by rising project.
pub fn settlement(settlement: &Settlement) -> Told {
    Told {
        number: 0,
        numbers: vec![
            settlement.price,
            settlement.demand,
            settlement.remainder,
            settlement.total,
            settlement.choices,
            settlement.covering,
            settlement.kept.len() as u64,
            settlement.second,
            settlement.short.into(),
            settlement.insufficient.into(),
            settlement.paid,
            settlement.awards.len() as u64,
        ],
        bytes: settlement.awards.iter().flat_map(Award::record).collect(),
    }
}

/// The bytes of the most award records.
const ALL_RECORDS: usize = 192;

/// What a settling tells. Checks: 2, 10.
pub fn settled(auction: &Auction, limit: u64) -> Telling {
    let answer = auction.settle(limit, &mut [0; ALL_RECORDS]);
    answer.map(|answer| settlement(&answer))
}

/// What settling answers under the highest limit: asked once of a closed auction, since many take long.
pub type Settling = Result<Settlement, u8>;

pub fn settling(auction: &Auction) -> Settling {
    auction.settle(MOST_CHOICES, &mut [0; ALL_RECORDS])
}

/// The same under any limit: it refuses more choices than it says.
pub fn limited(settling: &Settling, limit: u64) -> Result<&Settlement, u8> {
    let answer = settling.as_ref().map_err(|refusal| *refusal)?;
    require(answer.choices <= limit, ABOVE_THE_LIMIT)?;
    Ok(answer)
}

// ---- the calls over a record

pub fn record_state(record: &[u8], figures: &mut [u64]) -> u64 {
    write_numbers(&Ok(state(&hall_after(record))), figures)
}

pub fn record_preview(record: &[u8], figures: &mut [u64]) -> u64 {
    write_numbers(&preview(&hall_after(record).auction), figures)
}

pub fn record_curve(record: &[u8], points: &mut [u64]) -> u64 {
    write_numbers(&Ok(curve(&hall_after(record).auction)), points)
}

pub fn record_settlement(record: &[u8], limit: u64, figures: &mut [u64], awards: &mut [u8]) -> u64 {
    let telling = settled(&hall_after(record).auction, limit);
    write(&telling, BUFFER_TOO_SHORT, figures, awards)
}
