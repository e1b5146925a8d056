//! Calls that look at a record or at a session, of the engine beside what they have to give.
//! Only programs under `bin/` take this module in, beside `engine`.
#![allow(dead_code, reason = "a program makes the calls that it tests")]

use crate::engine;
use independent::comparisons::report::{listed, Compared};
use independent::coverage::{Answered, Looked};
use independent::generators::lent::MARGIN;
use independent::generators::looks::{Given, Question};

/// What the engine gives for the question about a text: a record, or a session where it has a seat.
pub fn ask(text: &[u8], question: &Question) -> Given {
    question.lend(|numbers, bytes| match question.seat {
        None => engine::look(text, &question.look, numbers, bytes),
        Some(seat) => engine::look_through(text, seat, &question.look, numbers, bytes),
    })
}

/// Compares answer and memory of a call about a text.
pub fn compare(calls: &mut Compared<Looked>, text: &[u8], answered: Answered) {
    let engine = ask(text, &answered.question);
    let expected = answered.question.expected(&answered.telling);
    if engine != expected {
        calls.differ(|| {
            let why = difference(&engine, &expected);
            format!("differs: {:?}, {why}\n{}", answered.question, listed(text))
        });
    }
    calls.count(&Looked::Call(answered));
}

fn difference(engine: &Given, expected: &Given) -> String {
    let numbers = std::iter::zip(&engine.numbers, &expected.numbers);
    let numbers = numbers.map(|(got, wanted)| got != wanted);
    let bytes = std::iter::zip(&engine.bytes, &expected.bytes);
    let bytes = bytes.map(|(got, wanted)| got != wanted);
    let [numbers, bytes] = [first(numbers), first(bytes)];
    let at = numbers.and_then(|place| engine.numbers.get(place).zip(expected.numbers.get(place)));
    format!(
        "engine gives {:#X}, expected {:#X}; first places that differ, counted from {MARGIN} before \
         the buffers: of numbers {numbers:?} {at:?}, of bytes {bytes:?}",
        engine.number, expected.number
    )
}

fn first(mut differs: impl Iterator<Item = bool>) -> Option<usize> {
    differs.position(|differs| differs)
}
