//! The lines of a record and the calls they hold (document 01, Frames; document 02, requests 5, 7
//! and 10).
//! Fields, their order and widths stand in one table; reading and writing go by it.

/// A call of the auction, each number as wide as its field.
#[derive(Clone, Debug, PartialEq, Eq)]
pub enum Call {
    SetUp {
        ce: u64,
        d: u64,
        m1: u64,
        m2: u64,
        a: u64,
    },
    Register {
        project: u8,
        developer: u8,
        kind: u8,
        /// Named in frame 08; none in frame 02, which makes it the developer's number.
        agent: Option<u8>,
        study: u32,
        day: u32,
        levels: Vec<u32>,
    },
    Open {
        c: u32,
    },
    Offer {
        developer: u8,
        prices: Vec<u32>,
        levels: Vec<u32>,
    },
    Close,
    Settle {
        limit: u32,
    },
    Lodge {
        developer: u8,
        prices: Vec<u32>,
        levels: Vec<u32>,
    },
    Cancel {
        developer: u8,
    },
}

pub(super) const SET_UP: u8 = 1;
pub(super) const REGISTRATION: u8 = 2;
pub(super) const OPEN: u8 = 3;
pub(super) const OFFER: u8 = 4;
pub(super) const CLOSE: u8 = 5;
pub(super) const SETTLE: u8 = 6;
pub(super) const LODGE: u8 = 7;
pub(super) const REGISTRATION_FOR: u8 = 8;
pub(super) const CANCEL: u8 = 9;

/// The fields of one kind of frame. Those of an item stand as often as the count says, which
/// is then the last field before them.
pub(crate) struct Row {
    pub(crate) kind: u8,
    pub(crate) fields: &'static [Field],
    pub(crate) item: &'static [Field],
}

/// A field's name and its width in hexadecimal digits.
type Field = (&'static str, usize);

pub(crate) const ROWS: [Row; 9] = [
    Row {
        kind: SET_UP,
        fields: &[("CE", 8), ("D", 10), ("M1", 10), ("M2", 10), ("A", 8)],
        item: &[],
    },
    Row {
        kind: REGISTRATION,
        fields: &[
            ("project", 2),
            ("developer", 2),
            ("kind", 2),
            ("study", 8),
            ("day", 8),
            ("count", 2),
        ],
        item: &[("level", 8)],
    },
    Row {
        kind: OPEN,
        fields: &[("C", 8)],
        item: &[],
    },
    Row {
        kind: OFFER,
        fields: &[("developer", 2), ("count", 2)],
        item: &[("price", 8), ("level", 8)],
    },
    Row {
        kind: CLOSE,
        fields: &[],
        item: &[],
    },
    Row {
        kind: SETTLE,
        fields: &[("limit", 8)],
        item: &[],
    },
    // In the layout of an offer.
    Row {
        kind: LODGE,
        fields: &[("developer", 2), ("count", 2)],
        item: &[("price", 8), ("level", 8)],
    },
    // As a registration, with the agent after the kind of plant.
    Row {
        kind: REGISTRATION_FOR,
        fields: &[
            ("project", 2),
            ("developer", 2),
            ("kind", 2),
            ("agent", 2),
            ("study", 8),
            ("day", 8),
            ("count", 2),
        ],
        item: &[("level", 8)],
    },
    Row {
        kind: CANCEL,
        fields: &[("developer", 2)],
        item: &[],
    },
];

pub(crate) const KIND_WIDTH: usize = 2;

/// The most characters of a line.
pub const LONGEST_LINE: usize = 160;

pub(crate) fn row(kind: u8) -> Option<&'static Row> {
    ROWS.iter().find(|row| row.kind == kind)
}

/// The part of the record from the position to the next 0A or the end, without the 0A.
pub fn next_line(record: &[u8], position: usize) -> &[u8] {
    let rest = &record[position.min(record.len())..];
    let end = rest.iter().position(|&byte| byte == b'\n');
    &rest[..end.unwrap_or(rest.len())]
}

/// All lines; an empty rest behind the last 0A is none.
pub fn lines(record: &[u8]) -> Vec<&[u8]> {
    let mut lines = Vec::new();
    let mut position = 0;
    while position < record.len() {
        let line = next_line(record, position);
        lines.push(line);
        position += line.len() + 1;
    }
    lines
}

/// The call in a line; none in a malformed one.
pub fn read_call(line: &[u8]) -> Option<Call> {
    if line.len() > LONGEST_LINE {
        return None;
    }
    let mut rest = line;
    let kind = narrow(take_number(&mut rest, KIND_WIDTH)?);
    let row = row(kind)?;
    let mut numbers = take_fields(&mut rest, row.fields)?;
    if !row.item.is_empty() {
        let count = *numbers.last().expect("the count");
        for _ in 0..count {
            numbers.extend(take_fields(&mut rest, row.item)?);
        }
    }
    rest.is_empty().then(|| call_of(kind, &numbers))
}

fn take_fields(rest: &mut &[u8], fields: &[Field]) -> Option<Vec<u64>> {
    fields
        .iter()
        .map(|&(_, width)| take_number(rest, width))
        .collect()
}

/// Takes as many digits as the width says from the front.
fn take_number(rest: &mut &[u8], width: usize) -> Option<u64> {
    let (digits, behind) = rest.split_at_checked(width)?;
    *rest = behind;
    digits.iter().try_fold(0, |number, &digit| {
        Some(number * 16 + u64::from(digit_value(digit)?))
    })
}

fn digit_value(digit: u8) -> Option<u8> {
    match digit {
        b'0'..=b'9' => Some(digit - b'0'),
        b'A'..=b'F' => Some(digit - b'A' + 10),
        _ => None,
    }
}

/// A number in a type at least as wide as its field.
pub(crate) fn narrow<T: TryFrom<u64>>(number: u64) -> T {
    let narrowed = T::try_from(number).ok();
    narrowed.expect("a number no wider than its field")
}

/// The call of a frame's numbers, which stand in the order of the table.
pub(crate) fn call_of(kind: u8, numbers: &[u64]) -> Call {
    match (kind, numbers) {
        (SET_UP, &[ce, d, m1, m2, a]) => Call::SetUp { ce, d, m1, m2, a },
        (REGISTRATION, [project, developer, kind, rest @ ..]) => {
            registration([*project, *developer, *kind], None, rest)
        }
        (REGISTRATION_FOR, [project, developer, kind, agent, rest @ ..]) => {
            registration([*project, *developer, *kind], Some(*agent), rest)
        }
        (OPEN, &[c]) => Call::Open { c: narrow(c) },
        (OFFER, [developer, _count, steps @ ..]) => {
            let (prices, levels) = prices_and_levels(steps);
            Call::Offer {
                developer: narrow(*developer),
                prices,
                levels,
            }
        }
        (LODGE, [developer, _count, steps @ ..]) => {
            let (prices, levels) = prices_and_levels(steps);
            Call::Lodge {
                developer: narrow(*developer),
                prices,
                levels,
            }
        }
        (CANCEL, &[developer]) => Call::Cancel {
            developer: narrow(developer),
        },
        (CLOSE, []) => Call::Close,
        (SETTLE, &[limit]) => Call::Settle {
            limit: narrow(limit),
        },
        _ => unreachable!("the numbers are those of the table"),
    }
}

/// The registration with these numbers: what stands behind the agent, or where it would, is the same
/// in either frame.
fn registration([project, developer, kind]: [u64; 3], agent: Option<u64>, rest: &[u64]) -> Call {
    let [study, day, _count, levels @ ..] = rest else {
        unreachable!("the numbers are those of the table")
    };
    Call::Register {
        project: narrow(project),
        developer: narrow(developer),
        kind: narrow(kind),
        agent: agent.map(narrow),
        study: narrow(*study),
        day: narrow(*day),
        levels: levels.iter().map(|&level| narrow(level)).collect(),
    }
}

/// The lists of steps that stand one behind the other.
fn prices_and_levels(steps: &[u64]) -> (Vec<u32>, Vec<u32>) {
    let step = |step: &[u64]| (narrow::<u32>(step[0]), narrow::<u32>(step[1]));
    steps.chunks(2).map(step).unzip()
}
