//! Calls to frames (document 02, request 2), by the table that the reader goes by.

use super::frames::{
    row, Call, CANCEL, CLOSE, KIND_WIDTH, LODGE, LONGEST_LINE, OFFER, OPEN, REGISTRATION,
    REGISTRATION_FOR, SETTLE, SET_UP,
};
use crate::{host_number, require, FRAME_BUFFER_TOO_SHORT, NOT_WRITABLE};

/// A call as the writer is given it: the numbers before the count, and for each field of an item
/// the list of its numbers. Fields may be too narrow for them, and lists unequal.
#[derive(Clone, Debug, PartialEq, Eq)]
pub struct Fields {
    pub kind: u8,
    pub numbers: Vec<u64>,
    pub lists: Vec<Vec<u64>>,
}

/// Why a call is not writable.
#[derive(Clone, Copy, Debug, PartialEq, Eq, PartialOrd, Ord)]
pub enum Cause {
    /// A number does not fit the width of its field.
    Field,
    /// The lists are not equally long.
    UnequalLists,
    /// The line has more than 160 characters.
    Length,
}

/// What makes the call not writable; nothing if it is. Of unequal lists the shorter one tells how
/// many items the line would have.
pub fn causes(fields: &Fields) -> Vec<Cause> {
    let places = places(fields);
    let unfit = places.iter().any(|&(number, width)| !fits(number, width));
    let unequal = fields
        .lists
        .windows(2)
        .any(|two| two[0].len() != two[1].len());
    let long = line_length(&places) > LONGEST_LINE;
    [
        (unfit, Cause::Field),
        (unequal, Cause::UnequalLists),
        (long, Cause::Length),
    ]
    .into_iter()
    .filter_map(|(holds, cause)| holds.then_some(cause))
    .collect()
}

/// The numbers in the order of the line, each with the width of its field; the count stands
/// before the items.
fn places(fields: &Fields) -> Vec<(u64, usize)> {
    let row = row(fields.kind).expect("a kind of the table");
    let mut numbers = fields.numbers.clone();
    if let Some(count) = fields.lists.iter().map(Vec::len).min() {
        numbers.push(count as u64);
        for item in 0..count {
            numbers.extend(fields.lists.iter().map(|list| list[item]));
        }
    }
    let widths = row.fields.iter().chain(row.item.iter().cycle());
    let widths = widths.map(|&(_, width)| width);
    std::iter::zip(numbers, widths).collect()
}

fn fits(number: u64, width: usize) -> bool {
    format!("{number:X}").len() <= width
}

fn line_length(places: &[(u64, usize)]) -> usize {
    KIND_WIDTH + places.iter().map(|(_, width)| width).sum::<usize>()
}

/// The frame of a writable call, with its 0A.
pub fn frame(fields: &Fields) -> Result<Vec<u8>, u8> {
    require(causes(fields).is_empty(), NOT_WRITABLE)?;
    let mut frame = line(fields);
    frame.push(b'\n');
    Ok(frame)
}

/// The C calls: the number of bytes written from the buffer's start; 2^64 - 14 if the call is not
/// writable, else 2^64 - 13 if the buffer is too short, either with the buffer untouched.
pub fn write_frame(fields: &Fields, buffer: &mut [u8]) -> u64 {
    host_number(frame(fields).and_then(|frame| {
        let written = buffer.get_mut(..frame.len());
        written
            .ok_or(FRAME_BUFFER_TOO_SHORT)?
            .copy_from_slice(&frame);
        Ok(frame.len() as u64)
    }))
}

/// The bytes that the frame has or, were the call writable, would have, with its 0A.
pub fn frame_length(fields: &Fields) -> usize {
    line_length(&places(fields)) + 1
}

/// The line of a call of a record, without its 0A; it may be longer than a reader takes.
pub fn write_call(call: &Call) -> Vec<u8> {
    line(&fields(call))
}

fn line(fields: &Fields) -> Vec<u8> {
    let mut line = digits(fields.kind.into(), KIND_WIDTH);
    for (number, width) in places(fields) {
        line += &digits(number, width);
    }
    line.into_bytes()
}

pub fn kind_of(call: &Call) -> u8 {
    fields(call).kind
}

/// A call of a record as the writer is given it.
pub fn fields(call: &Call) -> Fields {
    let (kind, numbers, lists) = match call {
        &Call::SetUp { ce, d, m1, m2, a } => (SET_UP, vec![ce, d, m1, m2, a], vec![]),
        Call::Register {
            project,
            developer,
            kind,
            agent,
            study,
            day,
            levels,
        } => {
            let frame = match agent {
                None => REGISTRATION,
                Some(_) => REGISTRATION_FOR,
            };
            let bytes = [project, developer, kind].into_iter().chain(agent);
            let bytes = bytes.map(|&byte| u64::from(byte));
            let words = [study, day].map(|&word| u64::from(word));
            (frame, bytes.chain(words).collect(), vec![wide(levels)])
        }
        &Call::Open { c } => (OPEN, vec![c.into()], vec![]),
        Call::Offer {
            developer,
            prices,
            levels,
        } => {
            let lists = vec![wide(prices), wide(levels)];
            (OFFER, vec![(*developer).into()], lists)
        }
        Call::Lodge {
            developer,
            prices,
            levels,
        } => {
            let lists = vec![wide(prices), wide(levels)];
            (LODGE, vec![(*developer).into()], lists)
        }
        &Call::Cancel { developer } => (CANCEL, vec![developer.into()], vec![]),
        Call::Close => (CLOSE, vec![], vec![]),
        &Call::Settle { limit } => (SETTLE, vec![limit.into()], vec![]),
    };
    Fields {
        kind,
        numbers,
        lists,
    }
}

fn wide(numbers: &[u32]) -> Vec<u64> {
    numbers.iter().map(|&number| number.into()).collect()
}

/// The number in hexadecimal digits, as many as the width says.
pub fn digits(number: u64, width: usize) -> String {
    let digits = format!("{number:0width$X}");
    assert_eq!(digits.len(), width, "{number} is wider than its field");
    digits
}
