//! Replay of a recorded auction: frames in, replies out (document 01, Frames; at their ends the
//! remainders of document 02's request 4, the second price of its request 5 and the participation of
//! its request 10); and frames out (request 2).

mod frames;
mod writing;

use crate::model::auction::{Auction, Closing};
use crate::model::settling::Settlement;
use crate::{host_number, BUFFER_TOO_SHORT, MALFORMED_LINE};
pub(crate) use frames::{call_of, narrow, row, Row, KIND_WIDTH, ROWS};
pub use frames::{lines, next_line, read_call, Call, LONGEST_LINE};
use writing::digits;
pub use writing::{
    causes, fields, frame, frame_length, kind_of, write_call, write_frame, Cause, Fields,
};

/// All replies to a record, run from a fresh auction.
pub fn replay(record: &[u8]) -> Vec<u8> {
    let mut auction = Auction::new();
    let lines = lines(record).into_iter();
    lines.flat_map(|line| reply(&mut auction, line)).collect()
}

/// The auction after a record's calls, from a fresh one. Settlings are not made: they change nothing,
/// and many take long.
pub fn auction_after(record: &[u8]) -> Auction {
    let mut auction = Auction::new();
    for call in lines(record).into_iter().filter_map(read_call) {
        if !matches!(call, Call::Settle { .. }) {
            // Refused calls are among them.
            let _ = make(&mut auction, &call);
        }
    }
    auction
}

/// The C call: the number of bytes written from the buffer's start, or 2^64 - 11 with the
/// buffer untouched.
pub fn replay_into(record: &[u8], buffer: &mut [u8]) -> u64 {
    write_replies(&replay(record), buffer)
}

/// What the C call does with a record's replies.
pub fn write_replies(replies: &[u8], buffer: &mut [u8]) -> u64 {
    let written = buffer.get_mut(..replies.len());
    host_number(written.ok_or(BUFFER_TOO_SHORT).map(|written| {
        written.copy_from_slice(replies);
        replies.len() as u64
    }))
}

/// The most bytes of replies that the engine keeps until it knows that they fit a lent buffer which
/// the lines of the record leave open; longer ones take it a second pass.
pub const KEPT_BYTES: usize = 24_576;

/// The length of a buffer that always fits (include/reference_engine.h): for each line 5 bytes, 24
/// more if its second character is 5, 458 more if it is 6.
pub fn always_fits(record: &[u8]) -> usize {
    let lengths = lines(record).into_iter().map(|line| match line.get(1) {
        Some(b'5') => 5 + 24,
        Some(b'6') => 5 + 458,
        _ => 5,
    });
    lengths.sum()
}

/// The most bytes that the program `replay` reads, and the length of its reply buffer.
pub const PROGRAM_BYTES: usize = 65_536;

/// What the program `replay` prints for its standard input.
pub fn printed(input: &[u8]) -> Vec<u8> {
    let replies = replay(input);
    if input.len() > PROGRAM_BYTES || replies.len() > PROGRAM_BYTES {
        b"FF0B\n".to_vec()
    } else {
        replies
    }
}

/// What an accepted call adds to its reply.
#[derive(Clone, Debug, PartialEq, Eq)]
pub enum Accepted {
    Plain,
    Closed(Closing),
    Settled(Settlement),
}

/// Makes a call of a record. A settling gets 192 bytes of its own for awards.
pub fn make(auction: &mut Auction, call: &Call) -> Result<Accepted, u8> {
    match call {
        &Call::SetUp { ce, d, m1, m2, a } => {
            auction.set_up(ce, d, m1, m2, a).map(|()| Accepted::Plain)
        }
        Call::Register { .. } => register(auction, call).map(|()| Accepted::Plain),
        &Call::Open { c } => auction.open(c).map(|()| Accepted::Plain),
        Call::Offer {
            developer,
            prices,
            levels,
        } => {
            let answer = auction.offer(*developer, prices, levels);
            answer.map(|()| Accepted::Plain)
        }
        Call::Lodge {
            developer,
            prices,
            levels,
        } => {
            let answer = auction.lodge(*developer, prices, levels);
            answer.map(|()| Accepted::Plain)
        }
        &Call::Cancel { developer } => auction.cancel(developer).map(|()| Accepted::Plain),
        Call::Close => auction.close().map(Accepted::Closed),
        &Call::Settle { limit } => {
            let answer = auction.settle(limit.into(), &mut [0; AWARD_BYTES]);
            answer.map(Accepted::Settled)
        }
    }
}

const AWARD_BYTES: usize = 192;

/// A registration without an agent, or for one (document 02, request 10).
fn register(auction: &mut Auction, call: &Call) -> Result<(), u8> {
    let &Call::Register {
        project,
        developer,
        kind,
        agent,
        study,
        day,
        ref levels,
    } = call
    else {
        unreachable!("a registration");
    };
    match agent {
        None => auction.register(project, developer, kind, study, day, levels),
        Some(agent) => auction.register_for(project, developer, kind, agent, study, day, levels),
    }
}

/// The kind in the reply to a malformed line.
const MALFORMED_KIND: u8 = 0xFF;

/// The reply to a line, with its 0A.
pub fn reply(auction: &mut Auction, line: &[u8]) -> Vec<u8> {
    let (kind, answer) = answer(auction, line);
    reply_of(kind, &answer)
}

/// The kind of a line's reply, and the answer to what the line asks.
pub fn answer(auction: &mut Auction, line: &[u8]) -> (u8, Result<Accepted, u8>) {
    match read_call(line) {
        Some(call) => (kind_of(&call), make(auction, &call)),
        None => (MALFORMED_KIND, Err(MALFORMED_LINE)),
    }
}

/// The reply of this kind with this answer, with its 0A.
pub fn reply_of(kind: u8, answer: &Result<Accepted, u8>) -> Vec<u8> {
    let (number, rest) = match answer {
        Ok(accepted) => (0, behind_answer(accepted)),
        Err(refusal) => (*refusal, String::new()),
    };
    let start = digits(kind.into(), 2) + &digits(number.into(), 2);
    (start + &rest + "\n").into_bytes()
}

fn behind_answer(accepted: &Accepted) -> String {
    match accepted {
        Accepted::Plain => String::new(),
        Accepted::Closed(closing) => {
            digits(closing.excess.cast_unsigned(), 16) + &digits(closing.remainder, 8)
        }
        Accepted::Settled(settlement) => settled(settlement),
    }
}

/// P 8, Dem 10, total 10, choices 8, covering 8, awards 2, then project 2, developer 2,
/// quantity 8, by rising project, then the remainder 8, the second price 8 and its mark 2, the mark
/// of participation 2 and the price paid to existing plants 8.
fn settled(settlement: &Settlement) -> String {
    let mut rest = [
        (settlement.price, 8),
        (settlement.demand, 10),
        (settlement.total, 10),
        (settlement.choices, 8),
        (settlement.covering, 8),
        (settlement.awards.len() as u64, 2),
    ]
    .map(|(number, width)| digits(number, width))
    .concat();
    for award in &settlement.awards {
        rest += &digits(award.project.into(), 2);
        rest += &digits(award.developer.into(), 2);
        rest += &digits(award.quantity, 8);
    }
    rest + &[
        (settlement.remainder, 8),
        (settlement.second, 8),
        (settlement.short.into(), 2),
        (settlement.insufficient.into(), 2),
        (settlement.paid, 8),
    ]
    .map(|(number, width)| digits(number, width))
    .concat()
}
