//! The lines of the engine's program `hall_calls`, which reads numbers with commas between them, and
//! what it prints for each.

use super::{Answer, Call, Hall, Reading, Seat};
use super::{PREVIEW, SUPPLY_POINT, WHO_CAN_FORCE};
use crate::model::replay::{self, call_of, fields, narrow};
use crate::NO_RIGHT;
use std::fmt::{self, Display};

#[derive(Clone, Debug, PartialEq, Eq)]
pub enum Line {
    /// A fresh hall.
    Fresh,
    Call(Seat, Call),
    /// The seat's reading alone.
    Read(Seat),
}

const FRESH: u8 = 0;
pub const READING: u8 = 13;

/// A line with its answer, and the reading of its seat behind it.
#[derive(Clone, Debug)]
pub struct Event {
    pub line: Line,
    pub kind: u8,
    pub answer: Answer,
    pub reading: Reading,
    /// Of a call refused by 20, the number that it gets where no right is asked.
    pub without_rights: Option<u8>,
}

/// The events of the lines, from a fresh hall.
pub fn events(lines: Vec<Line>) -> Vec<Event> {
    let mut hall = Hall::default();
    lines
        .into_iter()
        .map(|line| Event::new(&mut hall, line))
        .collect()
}

/// What is printed for the lines.
pub fn printed(input: &str) -> String {
    let lines = input.lines().filter_map(Line::read).collect();
    let events = events(lines).into_iter();
    events.map(|event| event.printed() + "\n").collect()
}

impl Event {
    fn new(hall: &mut Hall, line: Line) -> Event {
        let mut event = Event {
            kind: line.kind(),
            line,
            answer: Answer::default(),
            reading: Reading::default(),
            without_rights: None,
        };
        match &event.line {
            Line::Fresh => *hall = Hall::default(),
            Line::Call(seat, call) => {
                event.answer = hall.make(*seat, call);
                let refused = event.answer.number == NO_RIGHT;
                event.without_rights = refused.then(|| hall.number_without_rights(call));
                event.reading = hall.reading(*seat);
            }
            Line::Read(seat) => event.reading = hall.reading(*seat),
        }
        event
    }

    pub fn seat(&self) -> Option<Seat> {
        match self.line {
            Line::Fresh => None,
            Line::Call(seat, _) | Line::Read(seat) => Some(seat),
        }
    }

    /// What is printed for it: fields with a space between them.
    pub fn printed(&self) -> String {
        if self.line == Line::Fresh {
            return FRESH.to_string();
        }
        let Answer {
            number,
            others,
            lent,
        } = &self.answer;
        let mut fields = vec![self.kind.to_string(), number.to_string()];
        fields.extend(others.iter().map(i128::to_string));
        if !lent.is_empty() {
            fields.push(lent.iter().map(|byte| format!("{byte:02X}")).collect());
        }
        fields.push(format!("| {}", self.reading));
        fields.join(" ")
    }
}

impl Display for Reading {
    fn fmt(&self, f: &mut fmt::Formatter) -> fmt::Result {
        let at = self.published;
        write!(f, "{} {} {} ", at.opening, at.closing, at.excess)?;
        write!(f, "{} levels", at.phase)?;
        self.levels
            .iter()
            .try_for_each(|level| write!(f, " {level}"))?;
        match &self.offer {
            None => write!(f, " offer none"),
            Some(steps) => {
                write!(f, " offer")?;
                let mut steps = steps.iter();
                steps.try_for_each(|step| write!(f, " {}:{}", step.price, step.level))
            }
        }
    }
}

impl Line {
    pub fn kind(&self) -> u8 {
        match self {
            Line::Fresh => FRESH,
            Line::Call(_, call) => call.kind(),
            Line::Read(_) => READING,
        }
    }

    /// Seat, its number, kind of call, and the call's arguments.
    fn numbers(&self) -> Vec<u64> {
        let (seat, arguments) = match self {
            Line::Fresh => (Seat::Auctioneer, Vec::new()),
            Line::Call(seat, call) => (*seat, arguments(call)),
            Line::Read(seat) => (*seat, Vec::new()),
        };
        let [seat, number] = match seat {
            Seat::Auctioneer => [0, 0],
            Seat::Auditor => [1, 0],
            Seat::Developer(number) => [2, number.into()],
        };
        [&[seat, number, self.kind().into()], &arguments[..]].concat()
    }

    /// The line of these numbers, with words among them passed over; none of a remark, which has
    /// fewer than three, or of another kind.
    pub fn read(text: &str) -> Option<Line> {
        let numbers: Vec<u64> = text.split(',').map(number_in).collect();
        let [seat, number, kind, arguments @ ..] = &numbers[..] else {
            return None;
        };
        let seat = match seat {
            0 => Seat::Auctioneer,
            2 => Seat::Developer(narrow(*number)),
            _ => Seat::Auditor,
        };
        match narrow(*kind) {
            FRESH => Some(Line::Fresh),
            READING => Some(Line::Read(seat)),
            kind if kind > READING => None,
            kind => Some(Line::Call(seat, call(kind, arguments))),
        }
    }
}

impl Display for Line {
    fn fmt(&self, f: &mut fmt::Formatter) -> fmt::Result {
        let numbers: Vec<String> = self.numbers().iter().map(u64::to_string).collect();
        f.write_str(&numbers.join(","))
    }
}

fn number_in(words: &str) -> u64 {
    let digits: String = words.chars().filter(char::is_ascii_digit).collect();
    digits.parse().unwrap_or(0)
}

/// Lists stand behind all their lengths.
fn arguments(call: &Call) -> Vec<u64> {
    let (mut numbers, lists) = match call {
        Call::Framed(call) => {
            let fields = fields(call);
            (fields.numbers, fields.lists)
        }
        Call::Settle { limit, lent } => (vec![*limit, *lent as u64], vec![]),
        Call::Preview => (vec![], vec![]),
        Call::SupplyPoint { place } => (vec![*place as u64], vec![]),
        Call::WhoCanForce {
            first,
            second,
            prices,
        } => (vec![*first, *second], vec![prices.clone()]),
    };
    numbers.extend(lists.iter().map(|list| list.len() as u64));
    numbers.extend(lists.concat());
    numbers
}

fn call(kind: u8, arguments: &[u64]) -> Call {
    match (kind, arguments) {
        (4 | 7, [developer, n, _m, lists @ ..]) => {
            let (prices, levels) = lists.split_at(narrow(*n));
            Call::Framed(steps(
                kind,
                narrow(*developer),
                words(prices),
                words(levels),
            ))
        }
        (6, &[limit, lent]) => {
            let lent = narrow(lent);
            Call::Settle { limit, lent }
        }
        (PREVIEW, []) => Call::Preview,
        (SUPPLY_POINT, &[place]) => {
            let place = narrow(place);
            Call::SupplyPoint { place }
        }
        (WHO_CAN_FORCE, [first, second, _n, prices @ ..]) => Call::WhoCanForce {
            first: *first,
            second: *second,
            prices: prices.to_vec(),
        },
        _ => Call::Framed(call_of(kind, arguments)),
    }
}

/// An offer, or a lodging, whose lists may be unequal.
fn steps(kind: u8, developer: u8, prices: Vec<u32>, levels: Vec<u32>) -> replay::Call {
    if kind == 4 {
        replay::Call::Offer {
            developer,
            prices,
            levels,
        }
    } else {
        replay::Call::Lodge {
            developer,
            prices,
            levels,
        }
    }
}

fn words(numbers: &[u64]) -> Vec<u32> {
    numbers.iter().copied().map(narrow).collect()
}
