//! What calls that look at a record or at a session show, and what the lines of sessions do.

use super::features::{Feature, Kind};
use crate::generators::looks::{Look, Place, Question};
use crate::model::auction::NUMBERS;
use crate::model::figures::{Telling, Told};
use crate::model::hall::Seat;
use crate::model::replay::read_call;
use crate::model::sessions::{read_seat, seat_by, Asked};
use crate::NO_RIGHT;

/// A call, or a line.
pub enum Looked {
    Call(Answered),
    Line(Line),
}

/// A call with what it tells, and where.
pub struct Answered {
    pub question: Question,
    pub telling: Telling,
    phase: u8,
    /// Whether a closing was refused just before.
    behind_refused_closing: bool,
    /// Of a call refused by 20, the number that it gets over the record, where that is found quickly.
    without_seat: Option<u8>,
}

/// A line of a session, with the kind and the number of its reply.
pub struct Line {
    bytes: Vec<u8>,
    /// None of a malformed one.
    seat: Option<Seat>,
    permitted: bool,
    kind: u8,
    number: u8,
}

impl Line {
    pub fn new(bytes: &[u8], asked: &Asked, kind: u8, number: u8) -> Line {
        let (seat, permitted) = match asked {
            Asked::Malformed => (None, false),
            Asked::Barred(seat, _) => (Some(*seat), false),
            Asked::Permitted(seat, _) => (Some(*seat), true),
        };
        Line {
            bytes: bytes.to_vec(),
            seat,
            permitted,
            kind,
            number,
        }
    }
}

impl Answered {
    pub fn new(question: Question, telling: Telling, at: &Place) -> Answered {
        let without_seat = match (&telling, &question.look) {
            (Err(NO_RIGHT), Look::Preview | Look::Curve | Look::Settlement { .. }) => {
                Some(at.telling(&question.look, None).err().unwrap_or(0))
            }
            _ => None,
        };
        Answered {
            question,
            telling,
            phase: at.hall.published().phase,
            behind_refused_closing: false,
            without_seat,
        }
    }

    pub fn behind_refused_closing(self, behind_refused_closing: bool) -> Answered {
        Answered {
            behind_refused_closing,
            ..self
        }
    }

    /// The refusal, 0 if it is accepted.
    fn refusal(&self) -> u8 {
        match &self.telling {
            Ok(_) if self.is_short() => self.question.short(),
            Ok(_) => 0,
            Err(refusal) => *refusal,
        }
    }

    fn is_short(&self) -> bool {
        let [numbers, bytes] = self.missing();
        numbers || bytes
    }

    /// Whether either buffer is too short.
    fn missing(&self) -> [bool; 2] {
        let Ok(told) = &self.telling else {
            return [false; 2];
        };
        let Question { numbers, bytes, .. } = self.question;
        [told.numbers.len() > numbers, told.bytes.len() > bytes]
    }

    /// What it tells, if it is accepted.
    fn told(&self) -> Option<&Told> {
        self.telling.as_ref().ok().filter(|_| !self.is_short())
    }
}

fn call(looked: &Looked) -> Option<&Answered> {
    match looked {
        Looked::Call(call) => Some(call),
        Looked::Line(_) => None,
    }
}

fn line(looked: &Looked) -> Option<&Line> {
    match looked {
        Looked::Call(_) => None,
        Looked::Line(line) => Some(line),
    }
}

// What is looked at, by number.
const STATE: u8 = 0;
const PREVIEW: u8 = 1;
const CURVE: u8 = 2;
const SETTLEMENT: u8 = 3;
const READING: u8 = 4;
const FORCING: u8 = 5;
const REPLIES: u8 = 6;
const PLAIN_RECORD: u8 = 7;
const DIGITS: u8 = 8;

fn look(call: &Answered) -> u8 {
    match call.question.look {
        Look::State => STATE,
        Look::Preview => PREVIEW,
        Look::Curve => CURVE,
        Look::Settlement { .. } => SETTLEMENT,
        Look::Reading => READING,
        Look::Forcing { .. } => FORCING,
        Look::Replies => REPLIES,
        Look::PlainRecord => PLAIN_RECORD,
        Look::Digits => DIGITS,
    }
}

fn looks<const LOOK: u8>(looked: &Looked) -> bool {
    call(looked).is_some_and(|call| look(call) == LOOK)
}

/// Whether such a call gets the number.
fn gets<const LOOK: u8, const NUMBER: u8>(looked: &Looked) -> bool {
    call(looked).is_some_and(|call| look(call) == LOOK && call.refusal() == NUMBER)
}

/// Whether such a call gets the number in the phase.
fn in_phase<const LOOK: u8, const PHASE: u8, const NUMBER: u8>(looked: &Looked) -> bool {
    gets::<LOOK, NUMBER>(looked) && call(looked).is_some_and(|call| call.phase == PHASE)
}

/// Whether a call is accepted and tells such numbers.
fn tells(looked: &Looked, such: impl Fn(&[u64]) -> bool) -> bool {
    let told = call(looked).and_then(Answered::told);
    told.is_some_and(|told| such(&told.numbers))
}

pub const RECORD_LOOKS: &[Kind<Looked>] = &[
    ("states", looks::<STATE>, STATES),
    ("previews", looks::<PREVIEW>, PREVIEWS),
    ("curves", looks::<CURVE>, CURVES),
    ("settlements", looks::<SETTLEMENT>, SETTLEMENTS),
    ("limits", looks::<SETTLEMENT>, LIMITS),
    ("lent buffers", |looked| call(looked).is_some(), BUFFERS),
];

/// What the lines of a session show.
pub const SESSION_LINES: &[Kind<Looked>] = &[
    ("lines", |looked| line(looked).is_some(), LINES),
    (
        "lines accepted",
        |looked| line(looked).is_some(),
        LINES_ACCEPTED,
    ),
    (
        "lines refused by 20",
        |looked| line(looked).is_some(),
        LINES_20,
    ),
    (
        "lines with another refusal",
        |looked| line(looked).is_some(),
        LINES_REFUSED,
    ),
];

pub const SESSION_LOOKS: &[Kind<Looked>] = &[
    SESSION_LINES[0],
    SESSION_LINES[1],
    SESSION_LINES[2],
    SESSION_LINES[3],
    ("previews", looks::<PREVIEW>, PREVIEWS),
    ("curves", looks::<CURVE>, CURVES),
    ("settlements", looks::<SETTLEMENT>, SETTLEMENTS),
    ("limits", looks::<SETTLEMENT>, LIMITS),
    ("readings", looks::<READING>, READINGS),
    ("who can force", looks::<FORCING>, FORCINGS),
    ("20 by call and seat", is_20, NO_RIGHTS),
    ("20 where the record gives", is_20, WITHOUT_SEATS),
    ("replies and plain records", is_text, TEXTS),
    ("seats written", looks::<DIGITS>, SEATS_WRITTEN),
    ("lent buffers", |looked| call(looked).is_some(), BUFFERS),
];

const STATES: &[Feature<Looked>] = &[
    ("fresh", in_phase::<STATE, 0, 0>),
    ("ready", in_phase::<STATE, 1, 0>),
    ("round open", in_phase::<STATE, 2, 0>),
    ("between rounds", in_phase::<STATE, 3, 0>),
    ("closed", in_phase::<STATE, 4, 0>),
    ("excess below 0", |looked| {
        tells(looked, |state| state[3].cast_signed() < 0)
    }),
    ("0 behind a closing", |looked| {
        tells(looked, |state| state[3] == 0 && state[4] > 0)
    }),
    ("above 0", |looked| {
        tells(looked, |state| state[3].cast_signed() > 0)
    }),
    ("in a later round", |looked| {
        tells(looked, |state| state[0] == 2 && state[3] != 0)
    }),
    ("no closing", |looked| tells(looked, |state| state[4] == 0)),
    ("one closing", |looked| tells(looked, |state| state[4] == 1)),
    ("several", |looked| tells(looked, |state| state[4] > 1)),
    ("behind a refused closing", |looked| {
        gets::<STATE, 0>(looked) && call(looked).is_some_and(|call| call.behind_refused_closing)
    }),
    ("11", gets::<STATE, 11>),
];

const PREVIEWS: &[Feature<Looked>] = &[
    ("closed", |looked| tells(looked, |preview| preview[2] == 1)),
    ("not closed", |looked| {
        tells(looked, |preview| preview[2] == 0)
    }),
    ("excess below 0", |looked| {
        tells(looked, |preview| preview[0].cast_signed() < 0)
    }),
    ("above 0", |looked| {
        tells(looked, |preview| preview[0].cast_signed() > 0)
    }),
    ("with a remainder", |looked| {
        tells(looked, |preview| preview[1] > 0)
    }),
    ("2 fresh", in_phase::<PREVIEW, 0, 2>),
    ("2 ready", in_phase::<PREVIEW, 1, 2>),
    ("2 between rounds", in_phase::<PREVIEW, 3, 2>),
    ("2 closed", in_phase::<PREVIEW, 4, 2>),
    ("11", gets::<PREVIEW, 11>),
];

const CURVES: &[Feature<Looked>] = &[
    ("no point", |looked| tells(looked, <[u64]>::is_empty)),
    ("one", |looked| tells(looked, |points| points.len() == 3)),
    ("several", |looked| tells(looked, |points| points.len() > 3)),
    ("supply that stays", |looked| {
        tells(looked, |points| {
            points.chunks(3).any(|point| point[1] == point[2])
        })
    }),
    ("fresh", in_phase::<CURVE, 0, 0>),
    ("ready", in_phase::<CURVE, 1, 0>),
    ("round open", in_phase::<CURVE, 2, 0>),
    ("between rounds", in_phase::<CURVE, 3, 0>),
    ("closed", in_phase::<CURVE, 4, 0>),
    ("11", gets::<CURVE, 11>),
];

const SETTLEMENTS: &[Feature<Looked>] = &[
    ("accepted", gets::<SETTLEMENT, 0>),
    ("one award", |looked| {
        tells(looked, |figures| figures[11] == 1)
    }),
    ("several", |looked| tells(looked, |figures| figures[11] > 1)),
    ("with a remainder", |looked| {
        tells(looked, |figures| figures[2] > 0)
    }),
    ("choices set aside", |looked| {
        tells(looked, |figures| figures[6] < figures[5])
    }),
    ("second price above", |looked| {
        tells(looked, |figures| figures[7] > figures[0])
    }),
    ("short", |looked| tells(looked, |figures| figures[8] == 1)),
    ("insufficient", |looked| {
        tells(looked, |figures| figures[9] == 1)
    }),
    ("paid less", |looked| {
        tells(looked, |figures| figures[10] < figures[0])
    }),
    ("2 fresh", in_phase::<SETTLEMENT, 0, 2>),
    ("2 ready", in_phase::<SETTLEMENT, 1, 2>),
    ("2 round open", in_phase::<SETTLEMENT, 2, 2>),
    ("2 between rounds", in_phase::<SETTLEMENT, 3, 2>),
    ("10", gets::<SETTLEMENT, 10>),
    ("11 of figures", |looked| missing(looked, [true, false])),
    ("of awards", |looked| missing(looked, [false, true])),
    ("of both", |looked| missing(looked, [true, true])),
];

/// Whether just these buffers of a settlement are too short.
fn missing(looked: &Looked, which: [bool; 2]) -> bool {
    call(looked).is_some_and(|call| call.missing() == which)
}

const LIMITS: &[Feature<Looked>] = &[
    ("just the choices", |looked| {
        limited(looked, |limit, choices| choices == Some(limit))
    }),
    ("more than they are", |looked| {
        limited(looked, |limit, choices| {
            choices.is_some_and(|choices| limit > choices)
        })
    }),
    ("beyond 32 bits", |looked| {
        limited(looked, |limit, choices| {
            choices.is_some() && limit >> 32 > 0
        })
    }),
    ("beyond 32 bits, less in 32", |looked| {
        limited(looked, |limit, choices| {
            choices.is_some_and(|choices| limit >> 32 > 0 && u64::from(limit as u32) < choices)
        })
    }),
    ("10 at 0", |looked| {
        gets::<SETTLEMENT, 10>(looked) && limited(looked, |limit, _| limit == 0)
    }),
    ("10 above 65,536", |looked| {
        gets::<SETTLEMENT, 10>(looked) && limited(looked, |limit, _| limit > 65_536)
    }),
];

/// Whether the limit is such, beside the choices that are told.
fn limited(looked: &Looked, such: impl Fn(u64, Option<u64>) -> bool) -> bool {
    call(looked).is_some_and(|call| match call.question.look {
        Look::Settlement { limit } => {
            let told = call.telling.as_ref().ok();
            such(limit, told.map(|told| told.numbers[4]))
        }
        _ => false,
    })
}

/// Whether the seat of the call is such.
fn through(looked: &Looked, such: impl Fn([u64; 2]) -> bool) -> bool {
    call(looked)
        .and_then(|call| call.question.seat)
        .is_some_and(such)
}

fn is_seat<const KIND: u8>([kind, number]: [u64; 2]) -> bool {
    seat_by(kind, number).is_some() && kind == KIND.into()
}

const AUCTIONEER: u8 = 0;
const AUDITOR: u8 = 1;
const DEVELOPER: u8 = 2;

fn reads<const KIND: u8, const PHASE: u8>(looked: &Looked) -> bool {
    in_phase::<READING, PHASE, 0>(looked) && through(looked, is_seat::<KIND>)
}

/// Whether a developer reads such levels and such a number of steps, if it has an offer.
fn reads_own(looked: &Looked, such: impl Fn(u64, Option<u64>) -> bool) -> bool {
    looks::<READING>(looked)
        && through(looked, is_seat::<DEVELOPER>)
        && tells(looked, |numbers| {
            let levels = numbers[4];
            let offer = &numbers[5 + levels as usize..];
            such(levels, (offer[0] == 1).then(|| offer[1]))
        })
}

const READINGS: &[Feature<Looked>] = &[
    ("auctioneer fresh", reads::<AUCTIONEER, 0>),
    ("auctioneer ready", reads::<AUCTIONEER, 1>),
    ("auctioneer round open", reads::<AUCTIONEER, 2>),
    ("auctioneer between rounds", reads::<AUCTIONEER, 3>),
    ("auctioneer closed", reads::<AUCTIONEER, 4>),
    ("auditor fresh", reads::<AUDITOR, 0>),
    ("auditor ready", reads::<AUDITOR, 1>),
    ("auditor round open", reads::<AUDITOR, 2>),
    ("auditor between rounds", reads::<AUDITOR, 3>),
    ("auditor closed", reads::<AUDITOR, 4>),
    ("developer fresh", reads::<DEVELOPER, 0>),
    ("developer ready", reads::<DEVELOPER, 1>),
    ("developer round open", reads::<DEVELOPER, 2>),
    ("developer between rounds", reads::<DEVELOPER, 3>),
    ("developer closed", reads::<DEVELOPER, 4>),
    ("excess below 0", |looked| {
        gets::<READING, 0>(looked) && tells(looked, |numbers| numbers[2].cast_signed() < 0)
    }),
    ("above 0", |looked| {
        gets::<READING, 0>(looked) && tells(looked, |numbers| numbers[2].cast_signed() > 0)
    }),
    ("unregistered", |looked| {
        reads_own(looked, |levels, _| levels == 0)
    }),
    ("registered", |looked| {
        reads_own(looked, |levels, _| levels > 0)
    }),
    ("eight levels", |looked| {
        reads_own(looked, |levels, _| levels == 8)
    }),
    ("no offer in an open round", |looked| {
        reads::<DEVELOPER, 2>(looked)
            && reads_own(looked, |levels, steps| levels > 0 && steps.is_none())
    }),
    ("offer of no steps", |looked| {
        reads_own(looked, |_, steps| steps == Some(0))
    }),
    ("of one", |looked| {
        reads_own(looked, |_, steps| steps == Some(1))
    }),
    ("of several", |looked| {
        reads_own(looked, |_, steps| steps.is_some_and(|steps| steps > 1))
    }),
    ("number beyond 255", |looked| {
        gets::<READING, 0>(looked) && through(looked, |[_, number]| number > 255)
    }),
    ("11", gets::<READING, 11>),
    ("20", gets::<READING, 20>),
];

const FORCINGS: &[Feature<Looked>] = &[
    ("keep", |looked| forces(looked, 0)),
    ("withdraw", |looked| forces(looked, 1)),
    ("2 fresh", in_phase::<FORCING, 0, 2>),
    ("2 ready", in_phase::<FORCING, 1, 2>),
    ("2 round open", in_phase::<FORCING, 2, 2>),
    ("2 closed", in_phase::<FORCING, 4, 2>),
    ("17", gets::<FORCING, 17>),
    ("11", gets::<FORCING, 11>),
    ("20", gets::<FORCING, 20>),
];

fn forces(looked: &Looked, first_move: u8) -> bool {
    let told = call(looked).and_then(Answered::told);
    looks::<FORCING>(looked) && told.is_some_and(|told| told.bytes == [first_move])
}

fn is_20(looked: &Looked) -> bool {
    call(looked).is_some_and(|call| call.refusal() == NO_RIGHT)
}

/// Whether such a call gets 20 at a seat of the kind, or at none of three kinds.
fn bars<const LOOK: u8, const KIND: u8>(looked: &Looked) -> bool {
    gets::<LOOK, 20>(looked) && through(looked, is_seat::<KIND>)
}

fn none<const LOOK: u8>(looked: &Looked) -> bool {
    gets::<LOOK, 20>(looked) && through(looked, |[kind, number]| seat_by(kind, number).is_none())
}

fn barred_so(looked: &Looked, such: impl Fn([u64; 2]) -> bool) -> bool {
    is_20(looked) && through(looked, such)
}

const NO_RIGHTS: &[Feature<Looked>] = &[
    ("preview auditor", bars::<PREVIEW, AUDITOR>),
    ("preview developer", bars::<PREVIEW, DEVELOPER>),
    ("preview no seat", none::<PREVIEW>),
    ("curve auditor", bars::<CURVE, AUDITOR>),
    ("curve developer", bars::<CURVE, DEVELOPER>),
    ("curve no seat", none::<CURVE>),
    ("settlement developer", bars::<SETTLEMENT, DEVELOPER>),
    ("settlement no seat", none::<SETTLEMENT>),
    ("forcing auditor", bars::<FORCING, AUDITOR>),
    ("forcing developer", bars::<FORCING, DEVELOPER>),
    ("forcing no seat", none::<FORCING>),
    ("reading no seat", none::<READING>),
    ("auctioneer with a number", |looked| {
        barred_so(looked, |[kind, number]| kind == 0 && number > 0)
    }),
    ("auditor with a number", |looked| {
        barred_so(looked, |[kind, number]| kind == 1 && number > 0)
    }),
    ("kind beyond 2", |looked| {
        barred_so(looked, |[kind, _]| kind > 2)
    }),
    ("kind beyond a byte", |looked| {
        barred_so(looked, |[kind, _]| kind > 255)
    }),
    ("developer beyond 255", |looked| {
        barred_so(looked, |[kind, number]| kind == 2 && number > 255)
    }),
];

/// Whether a call refused by 20 gets this number over the record.
fn else_gets<const NUMBER: u8>(looked: &Looked) -> bool {
    call(looked).is_some_and(|call| call.without_seat == Some(NUMBER))
}

const WITHOUT_SEATS: &[Feature<Looked>] = &[
    ("acceptance", else_gets::<0>),
    ("2", else_gets::<2>),
    ("10", else_gets::<10>),
    ("whatever fits an empty buffer", |looked| {
        call(looked).is_some_and(|call| call.question.numbers + call.question.bytes == 0)
    }),
];

fn is_text(looked: &Looked) -> bool {
    looks::<REPLIES>(looked) || looks::<PLAIN_RECORD>(looked)
}

const TEXTS: &[Feature<Looked>] = &[
    ("replies", gets::<REPLIES, 0>),
    ("replies 11", gets::<REPLIES, 11>),
    ("longer than 1,000 bytes", |looked| {
        gets::<REPLIES, 0>(looked) && length(looked, |bytes| bytes > 1_000)
    }),
    ("plain records", gets::<PLAIN_RECORD, 0>),
    ("plain records 11", gets::<PLAIN_RECORD, 11>),
    ("empty", |looked| {
        gets::<PLAIN_RECORD, 0>(looked) && length(looked, |bytes| bytes == 0)
    }),
];

fn length(looked: &Looked, such: fn(usize) -> bool) -> bool {
    let told = call(looked).and_then(Answered::told);
    told.is_some_and(|told| such(told.bytes.len()))
}

/// Whether such a seat gets the number when it is written.
fn writes<const NUMBER: u8>(looked: &Looked, such: impl Fn([u64; 2]) -> bool) -> bool {
    gets::<DIGITS, NUMBER>(looked) && through(looked, such)
}

const SEATS_WRITTEN: &[Feature<Looked>] = &[
    ("auctioneer", |looked| {
        writes::<0>(looked, is_seat::<AUCTIONEER>)
    }),
    ("auditor", |looked| writes::<0>(looked, is_seat::<AUDITOR>)),
    ("developer", |looked| {
        writes::<0>(looked, is_seat::<DEVELOPER>)
    }),
    ("developer beyond 32", |looked| {
        writes::<0>(looked, |[kind, number]| kind == 2 && number > 32)
    }),
    ("13", gets::<DIGITS, 13>),
    ("13, one byte short", |looked| {
        gets::<DIGITS, 13>(looked) && call(looked).is_some_and(|call| call.question.bytes == 3)
    }),
    ("14 auctioneer", |looked| {
        writes::<14>(looked, |[kind, _]| kind == 0)
    }),
    ("14 auditor", |looked| {
        writes::<14>(looked, |[kind, _]| kind == 1)
    }),
    ("14 developer beyond 255", |looked| {
        writes::<14>(looked, |[kind, _]| kind == 2)
    }),
    ("14 kind", |looked| {
        writes::<14>(looked, |[kind, _]| kind > 2)
    }),
    ("14 kind beyond a byte", |looked| {
        writes::<14>(looked, |[kind, _]| kind > 255)
    }),
    ("14 before 13", |looked| {
        gets::<DIGITS, 14>(looked) && call(looked).is_some_and(|call| call.question.bytes < 4)
    }),
];

/// Whether an accepted call's buffer beside what it tells is such, or a refused one's beside its like.
fn buffer(looked: &Looked, such: impl Fn(usize, usize) -> bool) -> bool {
    call(looked).is_some_and(|call| match &call.telling {
        Err(_) => false,
        Ok(told) if told.bytes.is_empty() => such(call.question.numbers, told.numbers.len()),
        Ok(told) => such(call.question.bytes, told.bytes.len()),
    })
}

const BUFFERS: &[Feature<Looked>] = &[
    ("exact", |looked| {
        buffer(looked, |lent, exact| lent == exact)
    }),
    ("one short", |looked| {
        buffer(looked, |lent, exact| lent + 1 == exact)
    }),
    ("longer", |looked| {
        buffer(looked, |lent, exact| lent > exact)
    }),
    ("empty and too short", |looked| {
        buffer(looked, |lent, exact| lent == 0 && exact > 0)
    }),
    ("2 before 11", |looked| {
        call(looked).is_some_and(|call| call.refusal() == 2 && call.question.numbers == 0)
    }),
    ("10 before 11", |looked| {
        gets::<SETTLEMENT, 10>(looked)
            && call(looked).is_some_and(|call| call.question.numbers < 12)
    }),
];

// ---- lines

/// Whether the line asks this kind through a seat of the kind and gets the number.
fn line_gets<const KIND: u8, const CALL: u8, const NUMBER: u8>(looked: &Looked) -> bool {
    line(looked).is_some_and(|line| {
        line.kind == CALL
            && line.number == NUMBER
            && line.seat.is_some_and(|seat| kind_of_seat(seat) == KIND)
    })
}

fn kind_of_seat(seat: Seat) -> u8 {
    match seat {
        Seat::Auctioneer => AUCTIONEER,
        Seat::Auditor => AUDITOR,
        Seat::Developer(_) => DEVELOPER,
    }
}

fn malformed(looked: &Looked, such: impl Fn(&[u8]) -> bool) -> bool {
    line(looked).is_some_and(|line| line.seat.is_none() && such(&line.bytes))
}

fn seat_of(bytes: &[u8]) -> Option<Seat> {
    read_seat(bytes.get(..4)?)
}

const LINES: &[Feature<Looked>] = &[
    ("permitted", |looked| {
        line(looked).is_some_and(|line| line.permitted)
    }),
    ("barred", |looked| {
        line(looked).is_some_and(|line| line.seat.is_some() && !line.permitted)
    }),
    ("malformed behind a seat", |looked| {
        malformed(looked, |bytes| seat_of(bytes).is_some())
    }),
    ("malformed of no seat before a frame", |looked| {
        malformed(looked, |bytes| {
            seat_of(bytes).is_none() && bytes.get(4..).and_then(read_call).is_some()
        })
    }),
    ("auctioneer with a number", |looked| {
        malformed(looked, |bytes| {
            bytes.starts_with(b"00") && !bytes.starts_with(b"0000")
        })
    }),
    ("auditor with a number", |looked| {
        malformed(looked, |bytes| {
            bytes.starts_with(b"01") && !bytes.starts_with(b"0100")
        })
    }),
    ("small letters in a seat", |looked| {
        malformed(looked, |bytes| {
            bytes
                .get(..4)
                .is_some_and(|seat| seat.iter().any(u8::is_ascii_lowercase))
        })
    }),
    ("blank", |looked| malformed(looked, <[u8]>::is_empty)),
    ("shorter than a seat", |looked| {
        malformed(looked, |bytes| (1..4).contains(&bytes.len()))
    }),
    ("over 164 characters", |looked| {
        malformed(looked, |bytes| bytes.len() > 164)
    }),
    ("developer for another", |looked| {
        line_gets::<DEVELOPER, 4, 20>(looked) || line_gets::<DEVELOPER, 9, 20>(looked)
    }),
    ("developer of no number", |looked| {
        line(looked).is_some_and(|line| {
            let nobody =
                |seat| matches!(seat, Seat::Developer(number) if !NUMBERS.contains(&number));
            line.permitted && line.seat.is_some_and(nobody)
        })
    }),
];

const LINES_ACCEPTED: &[Feature<Looked>] = &[
    ("auctioneer 01", line_gets::<AUCTIONEER, 1, 0>),
    ("auctioneer 02", line_gets::<AUCTIONEER, 2, 0>),
    ("auctioneer 03", line_gets::<AUCTIONEER, 3, 0>),
    ("auctioneer 05", line_gets::<AUCTIONEER, 5, 0>),
    ("auctioneer 06", line_gets::<AUCTIONEER, 6, 0>),
    ("auctioneer 07", line_gets::<AUCTIONEER, 7, 0>),
    ("auctioneer 08", line_gets::<AUCTIONEER, 8, 0>),
    ("auditor 06", line_gets::<AUDITOR, 6, 0>),
    ("developer 04", line_gets::<DEVELOPER, 4, 0>),
    ("developer 09", line_gets::<DEVELOPER, 9, 0>),
];

const LINES_20: &[Feature<Looked>] = &[
    ("auctioneer 04", line_gets::<AUCTIONEER, 4, 20>),
    ("auctioneer 09", line_gets::<AUCTIONEER, 9, 20>),
    ("auditor 01", line_gets::<AUDITOR, 1, 20>),
    ("auditor 02", line_gets::<AUDITOR, 2, 20>),
    ("auditor 03", line_gets::<AUDITOR, 3, 20>),
    ("auditor 04", line_gets::<AUDITOR, 4, 20>),
    ("auditor 05", line_gets::<AUDITOR, 5, 20>),
    ("auditor 07", line_gets::<AUDITOR, 7, 20>),
    ("auditor 08", line_gets::<AUDITOR, 8, 20>),
    ("auditor 09", line_gets::<AUDITOR, 9, 20>),
    ("developer 01", line_gets::<DEVELOPER, 1, 20>),
    ("developer 02", line_gets::<DEVELOPER, 2, 20>),
    ("developer 03", line_gets::<DEVELOPER, 3, 20>),
    ("developer 04", line_gets::<DEVELOPER, 4, 20>),
    ("developer 05", line_gets::<DEVELOPER, 5, 20>),
    ("developer 06", line_gets::<DEVELOPER, 6, 20>),
    ("developer 07", line_gets::<DEVELOPER, 7, 20>),
    ("developer 08", line_gets::<DEVELOPER, 8, 20>),
    ("developer 09", line_gets::<DEVELOPER, 9, 20>),
];

/// Whether a permitted line gets the number.
fn refused<const NUMBER: u8>(looked: &Looked) -> bool {
    line(looked).is_some_and(|line| line.permitted && line.number == NUMBER)
}

const LINES_REFUSED: &[Feature<Looked>] = &[
    ("1", refused::<1>),
    ("2", refused::<2>),
    ("3", refused::<3>),
    ("4", refused::<4>),
    ("5", refused::<5>),
    ("6", refused::<6>),
    ("7", refused::<7>),
    ("8", refused::<8>),
    ("9", refused::<9>),
    ("10", refused::<10>),
    ("15", refused::<15>),
    ("16", refused::<16>),
    ("auditor's settling 2", line_gets::<AUDITOR, 6, 2>),
    ("auditor's settling 10", line_gets::<AUDITOR, 6, 10>),
];
