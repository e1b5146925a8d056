//! An independent implementation of document 01 with the requests of document 02, to run beside
//! the engine.
//! It is written from the papers' rules alone and shares no code with the engine.
//! Where the paper gives a rule and a formula for it, this one takes the rule.
//!
//! `model` is that implementation, `generators` make the inputs, `coverage` counts what they reach, and
//! `comparisons` run the engine beside it; `calibration` chooses some of the inputs for other programs.
//! Each uses only those before it; the unit tests, `tests`, use all.

pub mod calibration;
pub mod comparisons;
pub mod coverage;
pub mod generators;
pub mod model;
pub mod parts;

/// An accepted call's number, or the number of its refusal.
pub type Answer = Result<u64, u8>;

// The twelve numbers.

/// Refusal 1 of the twelve: settings or price beyond the bounds under Demand.
pub const BEYOND_BOUNDS: u8 = 1;
/// Refusal 2: call not accepted in this phase.
pub const NOT_IN_THIS_PHASE: u8 = 2;
/// Refusal 3: number outside 1-32, used developer, or offer by an unknown or kind 1 developer.
pub const BAD_NUMBER: u8 = 3;
/// Refusal 4: bad kind or levels, or developers a project may not have.
pub const BAD_REGISTRATION: u8 = 4;
/// Refusal 5: C below the floor or not below the opening price.
pub const BAD_ROUND_PRICE: u8 = 5;
/// Refusal 6: price and level lists of unequal length, over 8 steps, or a bad price.
pub const BAD_STEPS: u8 = 6;
/// Refusal 7: a level neither declared nor 0, or not below the last.
pub const BAD_LEVEL: u8 = 7;
/// Refusal 8: second offer in the round.
pub const SECOND_OFFER: u8 = 8;
/// Refusal 9: first opening with A not covered.
pub const OPENING_NOT_COVERED: u8 = 9;
/// Refusal 10: choices above the limit.
pub const ABOVE_THE_LIMIT: u8 = 10;
/// Refusal 11: lent buffer too short for all records or replies.
pub const BUFFER_TOO_SHORT: u8 = 11;
/// Refusal 12: malformed line.
pub const MALFORMED_LINE: u8 = 12;

// The numbers of document 02.

/// Refusal 13: buffer too short for the frame.
pub const FRAME_BUFFER_TOO_SHORT: u8 = 13;
/// Refusal 14: call not writable.
pub const NOT_WRITABLE: u8 = 14;
/// Refusal 15: lodging for a developer number that is no registered existing plant.
pub const NO_EXISTING_PLANT: u8 = 15;
/// Refusal 16: cancellation by a developer of whom no offer stands in the round.
pub const NO_STANDING_OFFER: u8 = 16;
/// Refusal 17: a pair of rivals or a price list not as described.
pub const NO_SUCH_GAME: u8 = 17;
/// Refusal 18: more than 16 sealed offers, or a field of the sealed auction out of bounds.
pub const SEALED_OUT_OF_BOUNDS: u8 = 18;
/// Refusal 19: a sealed offer's price above the ceiling.
pub const ABOVE_THE_CEILING: u8 = 19;
/// Refusal 20: a call that the seat has no right to make.
pub const NO_RIGHT: u8 = 20;

/// The one number of 64 bits that a C host gets: for a refusal, 2^64 less its number.
pub fn host_number(answer: Answer) -> u64 {
    answer.unwrap_or_else(|refusal| 0u64.wrapping_sub(refusal.into()))
}

/// One check of a call: refused with this number unless it holds.
fn require(holds: bool, refusal: u8) -> Result<(), u8> {
    if holds {
        Ok(())
    } else {
        Err(refusal)
    }
}
