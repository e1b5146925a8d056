//! What the lines of a record ask and get: each answer of each call, each check at its edges, each
//! call in each phase that refuses it, and why lines are malformed.

use super::features::{Feature, Kind};
use crate::model::auction::{Auction, Phase, Round, EXISTING, NEW};
use crate::model::replay::{answer, lines, read_call, row, Accepted, Call, LONGEST_LINE};

/// A line with its call, if it is a frame, the auctions before and behind it, and its answer.
pub struct RecordLine {
    line: Vec<u8>,
    call: Option<Call>,
    before: Auction,
    after: Auction,
    kind: u8,
    answer: Result<Accepted, u8>,
}

impl RecordLine {
    /// The lines of a record, in their order.
    pub fn all(record: &[u8]) -> Vec<RecordLine> {
        let mut auction = Auction::new();
        let lines = lines(record).into_iter();
        lines
            .map(|line| {
                let before = auction.clone();
                let (kind, answer) = answer(&mut auction, line);
                RecordLine {
                    line: line.to_vec(),
                    call: read_call(line),
                    before,
                    after: auction.clone(),
                    kind,
                    answer,
                }
            })
            .collect()
    }

    /// The refusal's number, 0 if it is accepted.
    fn number(&self) -> u8 {
        self.answer.as_ref().err().copied().unwrap_or(0)
    }

    fn round(&self) -> Option<&Round> {
        match self.before.phase() {
            Phase::Round(round) => Some(round),
            _ => None,
        }
    }

    fn floor(&self) -> u64 {
        self.before.settings().floor()
    }
}

/// What lines show, by the call that they make.
pub const RECORD_LINES: &[Kind<RecordLine>] = &[
    ("set-up", is::<1>, SET_UPS),
    ("registration", is::<2>, ANSWERED_REGISTRATIONS),
    ("registration for an agent", is::<8>, AGENTS),
    (
        "any registration",
        |line| [2, 8].contains(&line.kind),
        REGISTRATIONS,
    ),
    ("lodging", is::<7>, LODGINGS),
    ("opening", is::<3>, OPENINGS),
    ("offer", is::<4>, OFFERS),
    ("cancellation", is::<9>, CANCELLATIONS),
    ("closing", is::<5>, CLOSINGS),
    ("settling", is::<6>, SETTLINGS),
    ("refused by 2", gets::<2>, PHASES),
    ("malformed line", is::<0xFF>, MALFORMED),
];

fn is<const KIND: u8>(line: &RecordLine) -> bool {
    line.kind == KIND
}

fn gets<const NUMBER: u8>(line: &RecordLine) -> bool {
    line.number() == NUMBER
}

// ---- set-up

/// CE, D, M1, M2 and A of a set-up that gets the number.
fn set_up<const NUMBER: u8>(line: &RecordLine, such: fn([u64; 5]) -> bool) -> bool {
    match line.call {
        Some(Call::SetUp { ce, d, m1, m2, a }) => gets::<NUMBER>(line) && such([ce, d, m1, m2, a]),
        _ => false,
    }
}

const SET_UPS: &[Feature<RecordLine>] = &[
    ("accepted", gets::<0>),
    ("refused by 1", gets::<1>),
    ("refused by 2", gets::<2>),
    ("CE 2", |line| set_up::<0>(line, |[ce, ..]| ce == 2)),
    ("CE 500,000", |line| {
        set_up::<0>(line, |[ce, ..]| ce == 500_000)
    }),
    ("M2 10^11", |line| {
        set_up::<0>(line, |[_, _, _, m2, _]| m2 == 100_000_000_000)
    }),
    ("A the floor and 1", |line| {
        set_up::<0>(line, |[ce, .., a]| a == ce / 2 + 1)
    }),
    ("A 2 × CE", |line| {
        set_up::<0>(line, |[ce, .., a]| a == 2 * ce)
    }),
    ("CE 0 refused", |line| set_up::<1>(line, |[ce, ..]| ce == 0)),
    ("odd CE refused", |line| {
        set_up::<1>(line, |[ce, ..]| ce % 2 == 1)
    }),
    ("CE above 500,000 refused", |line| {
        set_up::<1>(line, |[ce, ..]| ce > 500_000 && ce % 2 == 0)
    }),
    ("M1 0 refused", |line| {
        set_up::<1>(line, |[_, _, m1, ..]| m1 == 0)
    }),
    ("M1 not below D refused", |line| {
        set_up::<1>(line, |[_, d, m1, ..]| m1 >= d)
    }),
    ("D not below M2 refused", |line| {
        set_up::<1>(line, |[_, d, _, m2, _]| d >= m2)
    }),
    ("M2 above 10^11 refused", |line| {
        set_up::<1>(line, |[_, _, _, m2, _]| m2 > 100_000_000_000)
    }),
    ("A the floor refused", |line| {
        set_up::<1>(line, |[ce, .., a]| a == ce / 2)
    }),
    ("A above 2 × CE refused", |line| {
        set_up::<1>(line, |[ce, .., a]| a > 2 * ce)
    }),
];

// ---- registrations

/// A registration that gets the number.
struct Registration<'a> {
    project: u8,
    developer: u8,
    kind: u8,
    agent: Option<u8>,
    study: u32,
    day: u32,
    levels: &'a [u32],
    before: &'a Auction,
}

impl Registration<'_> {
    /// Whether the project has a developer of this kind already.
    fn beside(&self, kind: u8) -> bool {
        let mut developers = self.before.developers().values();
        developers.any(|other| other.project == self.project && other.kind == kind)
    }
}

fn registration<const NUMBER: u8>(line: &RecordLine, such: fn(&Registration) -> bool) -> bool {
    match &line.call {
        Some(Call::Register {
            project,
            developer,
            kind,
            agent,
            study,
            day,
            levels,
        }) if gets::<NUMBER>(line) => such(&Registration {
            project: *project,
            developer: *developer,
            kind: *kind,
            agent: *agent,
            study: *study,
            day: *day,
            levels,
            before: &line.before,
        }),
        _ => false,
    }
}

const ANSWERED_REGISTRATIONS: &[Feature<RecordLine>] = &[
    ("accepted", gets::<0>),
    ("refused by 2", gets::<2>),
    ("refused by 3", gets::<3>),
    ("refused by 4", gets::<4>),
];

const AGENTS: &[Feature<RecordLine>] = &[
    ("accepted", gets::<0>),
    ("refused by 2", gets::<2>),
    ("refused by 3", gets::<3>),
    ("refused by 4", gets::<4>),
    ("agent 1", |line| {
        registration::<0>(line, |r| r.agent == Some(1))
    }),
    ("agent 32", |line| {
        registration::<0>(line, |r| r.agent == Some(32))
    }),
    ("agent 0 refused", |line| {
        registration::<3>(line, |r| r.agent == Some(0))
    }),
    ("agent 33 refused", |line| {
        registration::<3>(line, |r| r.agent == Some(33))
    }),
];

const REGISTRATIONS: &[Feature<RecordLine>] = &[
    ("existing plant", |line| {
        registration::<0>(line, |r| r.kind == EXISTING)
    }),
    ("second developer of a new project", |line| {
        registration::<0>(line, |r| r.beside(NEW))
    }),
    ("project 32", |line| {
        registration::<0>(line, |r| r.project == 32)
    }),
    ("developer 32", |line| {
        registration::<0>(line, |r| r.developer == 32)
    }),
    ("the 32nd developer", |line| {
        registration::<0>(line, |r| r.before.developers().len() == 31)
    }),
    ("8 levels", |line| {
        registration::<0>(line, |r| r.levels.len() == 8)
    }),
    ("level 1", |line| {
        registration::<0>(line, |r| r.levels[0] == 1)
    }),
    ("level 10^9", |line| {
        registration::<0>(line, |r| r.levels.contains(&1_000_000_000))
    }),
    ("highest study value", |line| {
        registration::<0>(line, |r| r.study == u32::MAX)
    }),
    ("last start day", |line| {
        registration::<0>(line, |r| r.day == u32::MAX)
    }),
    ("project 0 refused", |line| {
        registration::<3>(line, |r| r.project == 0)
    }),
    ("project 33 refused", |line| {
        registration::<3>(line, |r| r.project == 33)
    }),
    ("developer 0 refused", |line| {
        registration::<3>(line, |r| r.developer == 0)
    }),
    ("developer 33 refused", |line| {
        registration::<3>(line, |r| r.developer == 33)
    }),
    ("used developer refused", |line| {
        registration::<3>(line, |r| r.before.developers().contains_key(&r.developer))
    }),
    ("kind 0 refused", |line| {
        registration::<4>(line, |r| r.kind == 0)
    }),
    ("kind 3 refused", |line| {
        registration::<4>(line, |r| r.kind == 3)
    }),
    ("no level refused", |line| {
        registration::<4>(line, |r| r.levels.is_empty())
    }),
    ("9 levels refused", |line| {
        registration::<4>(line, |r| r.levels.len() == 9)
    }),
    ("level 0 refused", |line| {
        registration::<4>(line, |r| r.levels.first() == Some(&0))
    }),
    ("equal levels refused", |line| {
        registration::<4>(line, |r| r.levels.windows(2).any(|two| two[0] == two[1]))
    }),
    ("falling levels refused", |line| {
        registration::<4>(line, |r| r.levels.windows(2).any(|two| two[0] > two[1]))
    }),
    ("level above 10^9 refused", |line| {
        registration::<4>(line, |r| r.levels.last() > Some(&1_000_000_000))
    }),
    ("second existing plant of a project refused", |line| {
        registration::<4>(line, |r| r.kind == EXISTING && r.beside(EXISTING))
    }),
    ("existing plant on a new project refused", |line| {
        registration::<4>(line, |r| r.kind == EXISTING && r.beside(NEW))
    }),
    ("new plant on an existing project refused", |line| {
        registration::<4>(line, |r| r.kind == NEW && r.beside(EXISTING))
    }),
];

// ---- steps of offers and lodged lists

/// The developer's number, the prices and the levels, of an offer or a lodging that gets the number.
fn steps<const NUMBER: u8>(line: &RecordLine, such: impl Fn(u8, &[u32], &[u32]) -> bool) -> bool {
    match &line.call {
        Some(
            Call::Offer {
                developer,
                prices,
                levels,
            }
            | Call::Lodge {
                developer,
                prices,
                levels,
            },
        ) => gets::<NUMBER>(line) && such(*developer, prices, levels),
        _ => false,
    }
}

/// The lowest price that a step may have, and the first above all that it may have.
fn bounds(line: &RecordLine) -> (u64, u64) {
    match line.round() {
        Some(round) => (round.closing, round.opening),
        None => (line.floor(), line.before.settings().a),
    }
}

fn lowest<const NUMBER: u8>(line: &RecordLine, off: i64) -> bool {
    let (lowest, _) = bounds(line);
    priced::<NUMBER>(line, lowest.checked_add_signed(off))
}

fn highest<const NUMBER: u8>(line: &RecordLine, off: i64) -> bool {
    let (_, above) = bounds(line);
    priced::<NUMBER>(line, above.checked_add_signed(off))
}

/// Whether a step has this price.
fn priced<const NUMBER: u8>(line: &RecordLine, price: Option<u64>) -> bool {
    steps::<NUMBER>(line, |_, prices, _| {
        let mut prices = prices.iter();
        prices.any(|&other| Some(u64::from(other)) == price)
    })
}

fn counted<const NUMBER: u8>(line: &RecordLine, count: usize) -> bool {
    steps::<NUMBER>(line, |_, prices, _| prices.len() == count)
}

/// Whether two neighbours stand so, the one before first.
fn neighbours(list: &[u32], so: fn(u32, u32) -> bool) -> bool {
    list.windows(2).any(|two| so(two[0], two[1]))
}

fn prices_so(line: &RecordLine, so: fn(u32, u32) -> bool) -> bool {
    steps::<6>(line, |_, prices, _| neighbours(prices, so))
}

fn levels_so(line: &RecordLine, so: fn(u32, u32) -> bool) -> bool {
    steps::<7>(line, |_, _, levels| neighbours(levels, so))
}

/// Whether a level is neither declared nor 0.
fn unknown_level(line: &RecordLine) -> bool {
    steps::<7>(line, |developer, _, levels| {
        let known: Vec<u64> = line.before.developers()[&developer]
            .levels_and_0()
            .collect();
        levels.iter().any(|&level| !known.contains(&level.into()))
    })
}

/// Whether the first level is the quantity.
fn level_kept(line: &RecordLine) -> bool {
    steps::<7>(line, |developer, _, levels| {
        let quantity = line.before.developers()[&developer].quantity;
        levels
            .first()
            .is_some_and(|&level| quantity == u64::from(level))
    })
}

fn to_0(line: &RecordLine) -> bool {
    steps::<0>(line, |_, _, levels| levels.last() == Some(&0))
}

/// Whether prices and levels are both such as are refused.
fn bad_prices_and_levels(line: &RecordLine) -> bool {
    steps::<6>(line, |_, _, levels| {
        neighbours(levels, |before, after| before <= after)
    })
}

/// Whether the number is that of a developer of this kind; 0 for nobody's.
fn of_kind(line: &RecordLine, developer: u8, kind: u8) -> bool {
    let known = line.before.developers().get(&developer);
    known.map_or(0, |developer| developer.kind) == kind
}

const LODGINGS: &[Feature<RecordLine>] = &[
    ("accepted", gets::<0>),
    ("refused by 2", gets::<2>),
    ("refused by 6", gets::<6>),
    ("refused by 7", gets::<7>),
    ("refused by 15", gets::<15>),
    ("no steps", |line| counted::<0>(line, 0)),
    ("8 steps", |line| counted::<0>(line, 8)),
    ("9 steps refused", |line| counted::<6>(line, 9)),
    ("at the floor", |line| lowest::<0>(line, 0)),
    ("at A less 1", |line| highest::<0>(line, -1)),
    ("below the floor refused", |line| lowest::<6>(line, -1)),
    ("at A refused", |line| highest::<6>(line, 0)),
    ("equal prices refused", |line| {
        prices_so(line, |b, a| b == a)
    }),
    ("rising prices refused", |line| {
        prices_so(line, |b, a| b < a)
    }),
    ("unknown level refused", unknown_level),
    ("level not below the quantity refused", level_kept),
    ("new plant refused", |line| {
        steps::<15>(line, |developer, _, _| of_kind(line, developer, NEW))
    }),
    ("nobody refused", |line| {
        steps::<15>(line, |developer, _, _| of_kind(line, developer, 0))
    }),
];

const OFFERS: &[Feature<RecordLine>] = &[
    ("accepted", gets::<0>),
    ("refused by 2", gets::<2>),
    ("refused by 3", gets::<3>),
    ("refused by 6", gets::<6>),
    ("refused by 7", gets::<7>),
    ("refused by 8", gets::<8>),
    ("no steps", |line| counted::<0>(line, 0)),
    ("8 steps", |line| counted::<0>(line, 8)),
    ("9 steps refused", |line| counted::<6>(line, 9)),
    ("to 0", to_0),
    ("at C", |line| lowest::<0>(line, 0)),
    ("at the opening price less 1", |line| highest::<0>(line, -1)),
    ("at C less 1 refused", |line| lowest::<6>(line, -1)),
    ("at the opening price refused", |line| highest::<6>(line, 0)),
    ("equal prices refused", |line| {
        prices_so(line, |b, a| b == a)
    }),
    ("rising prices refused", |line| {
        prices_so(line, |b, a| b < a)
    }),
    ("bad prices and levels", bad_prices_and_levels),
    ("unknown level refused", unknown_level),
    ("level not below the quantity refused", level_kept),
    ("equal levels refused", |line| {
        levels_so(line, |b, a| b == a)
    }),
    ("rising levels refused", |line| {
        levels_so(line, |b, a| b < a)
    }),
    ("existing plant refused", |line| {
        steps::<3>(line, |developer, _, _| of_kind(line, developer, EXISTING))
    }),
    ("nobody refused", |line| {
        steps::<3>(line, |developer, _, _| of_kind(line, developer, 0))
    }),
    ("of a developer at 0", |line| {
        steps::<0>(line, |developer, _, _| {
            line.before.developers()[&developer].quantity == 0
        })
    }),
];

const CANCELLATIONS: &[Feature<RecordLine>] = &[
    ("accepted", gets::<0>),
    ("refused by 2", gets::<2>),
    ("refused by 3", gets::<3>),
    ("refused by 16", gets::<16>),
];

// ---- rounds

/// An opening that gets the number, by its C, the lowest that it may have and the opening price.
fn opening<const NUMBER: u8>(line: &RecordLine, such: fn(u64, u64, u64) -> bool) -> bool {
    match line.call {
        Some(Call::Open { c }) if gets::<NUMBER>(line) => {
            such(c.into(), line.floor(), line.before.opening_price())
        }
        _ => false,
    }
}

/// Supply less demand at A, before the first round.
fn at_a(line: &RecordLine) -> Option<i64> {
    let settings = line.before.settings();
    let first = *line.before.phase() == Phase::Ready;
    let demand = first.then(|| settings.demand(settings.a))?;
    Some(line.before.supply().cast_signed() - demand.cast_signed())
}

const OPENINGS: &[Feature<RecordLine>] = &[
    ("accepted", gets::<0>),
    ("refused by 2", gets::<2>),
    ("refused by 5", gets::<5>),
    ("refused by 9", gets::<9>),
    ("of a further round", |line| {
        gets::<0>(line) && *line.before.phase() == Phase::Between
    }),
    ("at the floor", |line| {
        opening::<0>(line, |c, floor, _| c == floor)
    }),
    ("at the opening price less 1", |line| {
        opening::<0>(line, |c, _, opening| c + 1 == opening)
    }),
    ("at the floor less 1 refused", |line| {
        opening::<5>(line, |c, floor, _| c + 1 == floor)
    }),
    ("at the opening price refused", |line| {
        opening::<5>(line, |c, _, opening| c == opening)
    }),
    ("A just covered", |line| {
        gets::<0>(line) && at_a(line) == Some(0)
    }),
    ("A short by 1", |line| {
        gets::<9>(line) && at_a(line) == Some(-1)
    }),
    ("A covered by nobody", |line| {
        gets::<9>(line) && line.before.developers().is_empty()
    }),
];

/// The excess of an accepted closing.
fn excess(line: &RecordLine) -> Option<i64> {
    match line.answer {
        Ok(Accepted::Closed(closing)) => Some(closing.excess),
        _ => None,
    }
}

fn closes_at<const EXCESS: i64>(line: &RecordLine) -> bool {
    excess(line) == Some(EXCESS)
}

fn remainder(line: &RecordLine) -> Option<u64> {
    match line.answer {
        Ok(Accepted::Closed(closing)) => Some(closing.remainder),
        _ => None,
    }
}

fn is_closed(line: &RecordLine) -> bool {
    *line.after.phase() == Phase::Closed
}

const CLOSINGS: &[Feature<RecordLine>] = &[
    ("accepted", gets::<0>),
    ("refused by 2", gets::<2>),
    ("excess -1", closes_at::<-1>),
    ("excess 0", closes_at::<0>),
    ("excess 1", closes_at::<1>),
    ("excess 999", closes_at::<999>),
    ("excess 1,000", closes_at::<1_000>),
    ("excess 1,001", closes_at::<1_001>),
    ("another round may follow", |line| {
        gets::<0>(line) && !is_closed(line)
    }),
    ("closed above the floor", |line| {
        let above = line
            .round()
            .is_some_and(|round| round.closing > line.floor());
        above && is_closed(line)
    }),
    ("closed at the floor with excess of 1,000 or more", |line| {
        excess(line) >= Some(1_000) && is_closed(line)
    }),
    ("remainder 0", |line| remainder(line) == Some(0)),
    ("remainder above 0", |line| remainder(line) > Some(0)),
    ("demand above 2^32", |line| {
        let settings = line.before.settings();
        let demand = line.round().map(|round| settings.demand(round.closing));
        demand > Some(1 << 32)
    }),
];

/// The limit of a settling that gets the number, and the number of choices.
fn limited<const NUMBER: u8>(line: &RecordLine, such: fn(u64, u64) -> bool) -> bool {
    let Some(Call::Settle { limit }) = line.call else {
        return false;
    };
    gets::<NUMBER>(line) && {
        let open = line.before.open_levels(line.before.closing_price());
        such(
            limit.into(),
            crate::model::settling::number_of_choices(&open),
        )
    }
}

const SETTLINGS: &[Feature<RecordLine>] = &[
    ("accepted", gets::<0>),
    ("refused by 2", gets::<2>),
    ("refused by 10", gets::<10>),
    ("limit 0", |line| limited::<10>(line, |limit, _| limit == 0)),
    ("limit just the choices", |line| {
        limited::<0>(line, |limit, choices| limit == choices && choices > 1)
    }),
    ("limit one below the choices", |line| {
        limited::<10>(line, |limit, choices| limit + 1 == choices && limit > 0)
    }),
    ("limit above 65,536", |line| {
        limited::<0>(line, |limit, _| limit > 65_536)
    }),
    ("65,536 choices", |line| {
        limited::<0>(line, |_, choices| choices == 65_536)
    }),
    (
        "more choices than 65,536, and a limit not below them",
        |line| limited::<10>(line, |limit, choices| limit >= choices && choices > 65_536),
    ),
    ("more than 2^32 choices", |line| {
        limited::<10>(line, |_, choices| choices > 1 << 32)
    }),
];

// ---- phases

// Phases, as the figures of a record number them.
const FRESH: u8 = 0;
const READY: u8 = 1;
const IN_ROUND: u8 = 2;
const BETWEEN: u8 = 3;
const CLOSED: u8 = 4;

fn phase(auction: &Auction) -> u8 {
    match auction.phase() {
        Phase::Fresh => FRESH,
        Phase::Ready => READY,
        Phase::Round(_) => IN_ROUND,
        Phase::Between => BETWEEN,
        Phase::Closed => CLOSED,
    }
}

fn at<const KIND: u8, const PHASE: u8>(line: &RecordLine) -> bool {
    line.kind == KIND && phase(&line.before) == PHASE
}

const PHASES: &[Feature<RecordLine>] = &[
    ("set-up behind set-up", at::<1, READY>),
    ("set-up in a round", at::<1, IN_ROUND>),
    ("set-up between rounds", at::<1, BETWEEN>),
    ("set-up behind the end", at::<1, CLOSED>),
    ("registration before set-up", at::<2, FRESH>),
    ("registration in a round", at::<2, IN_ROUND>),
    ("registration between rounds", at::<2, BETWEEN>),
    ("registration behind the end", at::<2, CLOSED>),
    ("registration for an agent before set-up", at::<8, FRESH>),
    ("registration for an agent in a round", at::<8, IN_ROUND>),
    ("registration for an agent between rounds", at::<8, BETWEEN>),
    ("registration for an agent behind the end", at::<8, CLOSED>),
    ("lodging before set-up", at::<7, FRESH>),
    ("lodging in a round", at::<7, IN_ROUND>),
    ("lodging between rounds", at::<7, BETWEEN>),
    ("lodging behind the end", at::<7, CLOSED>),
    ("opening before set-up", at::<3, FRESH>),
    ("opening in a round", at::<3, IN_ROUND>),
    ("opening behind the end", at::<3, CLOSED>),
    ("offer before set-up", at::<4, FRESH>),
    ("offer before the first round", at::<4, READY>),
    ("offer between rounds", at::<4, BETWEEN>),
    ("offer behind the end", at::<4, CLOSED>),
    ("cancellation before set-up", at::<9, FRESH>),
    ("cancellation before the first round", at::<9, READY>),
    ("cancellation between rounds", at::<9, BETWEEN>),
    ("cancellation behind the end", at::<9, CLOSED>),
    ("closing before set-up", at::<5, FRESH>),
    ("closing before the first round", at::<5, READY>),
    ("closing between rounds", at::<5, BETWEEN>),
    ("closing behind the end", at::<5, CLOSED>),
    ("settling before set-up", at::<6, FRESH>),
    ("settling before the first round", at::<6, READY>),
    ("settling in a round", at::<6, IN_ROUND>),
    ("settling between rounds", at::<6, BETWEEN>),
];

// ---- malformed lines

fn is_digit(byte: u8) -> bool {
    byte.is_ascii_digit() || (b'A'..=b'F').contains(&byte)
}

/// The number of characters of a frame that begins so, by its kind and its count; none of no kind.
fn frame_length(line: &[u8]) -> Option<usize> {
    let number = |digits: &[u8]| {
        let digits = digits
            .iter()
            .all(|&byte| is_digit(byte))
            .then_some(digits)?;
        u8::from_str_radix(std::str::from_utf8(digits).ok()?, 16).ok()
    };
    let row = row(number(line.get(..2)?)?)?;
    let width = |fields: &[(&str, usize)]| fields.iter().map(|(_, width)| width).sum::<usize>();
    let head = 2 + width(row.fields);
    let count = match row.item {
        [] => 0,
        _ => number(line.get(head - 2..head)?)?,
    };
    Some(head + usize::from(count) * width(row.item))
}

/// Whether the line has digits alone, and such a length beside its frame's.
fn long(line: &RecordLine, so: fn(usize, usize) -> bool) -> bool {
    let line = &line.line;
    let digits = line.iter().all(|&byte| is_digit(byte));
    digits && frame_length(line).is_some_and(|length| so(line.len(), length))
}

const MALFORMED: &[Feature<RecordLine>] = &[
    ("blank", |line| line.line.is_empty()),
    ("one digit", |line| {
        line.line.len() == 1 && is_digit(line.line[0])
    }),
    ("small letter", |line| {
        line.line.iter().any(|byte| (b'a'..=b'f').contains(byte))
    }),
    ("letter that is no digit", |line| {
        line.line.iter().any(|byte| (b'G'..=b'Z').contains(byte))
    }),
    ("carriage return at the end", |line| {
        line.line.len() > 1 && line.line.ends_with(b"\r")
    }),
    ("blank character", |line| line.line.contains(&b' ')),
    ("byte 00", |line| line.line.contains(&0)),
    ("byte above 7F", |line| {
        line.line.iter().any(|&byte| byte > 0x7F)
    }),
    ("kind 00", |line| {
        line.line.starts_with(b"00") && line.line.iter().all(|&byte| is_digit(byte))
    }),
    ("kind 0A", |line| line.line.starts_with(b"0A")),
    ("kind FF", |line| line.line.starts_with(b"FF")),
    ("a digit too few", |line| {
        long(line, |digits, length| digits + 1 == length)
    }),
    ("a digit too many", |line| {
        long(line, |digits, length| digits == length + 1)
    }),
    ("an item too few", |line| {
        let items = line.line.starts_with(b"02") || line.line.starts_with(b"08");
        items && long(line, |digits, length| digits + 8 == length)
    }),
    ("an item too many", |line| {
        let items = line.line.starts_with(b"02") || line.line.starts_with(b"08");
        items && long(line, |digits, length| digits == length + 8)
    }),
    ("a step too few", |line| {
        let steps = line.line.starts_with(b"04") || line.line.starts_with(b"07");
        steps && long(line, |digits, length| digits + 16 == length)
    }),
    ("a step too many", |line| {
        let steps = line.line.starts_with(b"04") || line.line.starts_with(b"07");
        steps && long(line, |digits, length| digits == length + 16)
    }),
    ("160 characters", |line| line.line.len() == LONGEST_LINE),
    ("161 characters", |line| line.line.len() == LONGEST_LINE + 1),
    ("as its kind and count say, but over 160", |line| {
        long(line, |digits, length| {
            digits == length && digits > LONGEST_LINE
        })
    }),
];
