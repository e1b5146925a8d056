//! What sealed auctions and their refusals show (document 02, request 13).

use super::features::{Feature, Kind};
use crate::model::sealed::{Awards, Offer, Outcome, Sealed, Turn};
use crate::model::sealed::{AGES, MINIMUMS, MOST_OFFERS, PRICES, QUANTITIES};
use crate::model::sealed::{HIGHEST_AGE, HIGHEST_DEMAND, HIGHEST_PRICE, HIGHEST_QUANTITY};
use crate::{ABOVE_THE_CEILING, BUFFER_TOO_SHORT, SEALED_OUT_OF_BOUNDS};
use std::cmp::Ordering::{self, Greater, Less};
use std::collections::BTreeSet;
use Field::{Age, Ceiling, Demand, Minimum, Price, Quantity};
use How::{Further, Greatest, OneAbove, Zero};

/// An auction, the length of the buffer, and the outcome before the buffer is looked at.
pub struct Opened {
    pub auction: Sealed,
    pub buffer: usize,
    outcome: Result<Outcome, u8>,
}

pub const SEALED: &[Kind<Opened>] = &[
    ("auctions", Opened::answered, AUCTIONS),
    ("refusals", |opened| !opened.answered(), REFUSALS),
    ("18 by one cause alone", Opened::has_one_cause, CAUSES),
];

const AUCTIONS: &[Feature<Opened>] = &[
    ("answered", |_| true),
    ("0 offers", |opened| opened.turns().is_empty()),
    ("1", |opened| opened.turns().len() == 1),
    ("2 to 15", |opened| (2..=15).contains(&opened.turns().len())),
    ("16", |opened| opened.turns().len() == 16),
    ("ceiling 1", |opened| opened.auction.ceiling == 1),
    ("ceiling 1,000,000", |opened| {
        opened.auction.ceiling == HIGHEST_PRICE
    }),
    ("a price equal to the ceiling", |opened| {
        opened.any(|turn| turn.offer.price == opened.auction.ceiling)
    }),
    ("demand 0 with offers", |opened| {
        opened.auction.demand == 0 && opened.count() > 0
    }),
    ("demand 10^11", |opened| {
        opened.auction.demand == HIGHEST_DEMAND
    }),
    ("quantity 10^9", |opened| {
        opened.any(|turn| turn.offer.quantity == HIGHEST_QUANTITY)
    }),
    ("minimum equal to quantity", |opened| {
        opened.any(|turn| turn.offer.minimum == turn.offer.quantity)
    }),
    ("age 0", |opened| opened.any(|turn| turn.offer.age == 0)),
    ("age 20", |opened| {
        opened.any(|turn| turn.offer.age == HIGHEST_AGE)
    }),
    ("equal ages", |opened| {
        opened.any_two(|one, other| one.age == other.age)
    }),
    ("equal ages and prices", |opened| {
        opened.any_two(|one, other| (one.age, one.price) == (other.age, other.price))
    }),
    ("an older offer of a higher price", |opened| {
        opened.any_two(|one, other| one.age > other.age && one.price > other.price)
    }),
    ("the ages decide", |opened| {
        opened.decide(|auction| auction.lists[AGES].fill(0))
    }),
    ("the prices decide", |opened| {
        opened.decide(|auction| auction.lists[PRICES].fill(1))
    }),
    ("the minimums decide", |opened| {
        opened.decide(|auction| auction.lists[MINIMUMS].fill(1))
    }),
    ("list order decides", Opened::list_order_decides),
    ("nothing left before the last offer", |opened| {
        opened.turns().last().is_some_and(|turn| turn.left == 0)
    }),
    ("exactly the minimum left", |opened| {
        opened.any(|turn| turn.left == turn.offer.minimum)
    }),
    ("one less", |opened| {
        opened.any(|turn| turn.left + 1 == turn.offer.minimum)
    }),
    ("one less, and not 0", |opened| {
        opened.any(|turn| turn.left > 0 && turn.left + 1 == turn.offer.minimum)
    }),
    ("exactly the quantity left", |opened| {
        opened.any(|turn| turn.left == turn.offer.quantity)
    }),
    ("cut to what is left", |opened| {
        opened.any(|turn| turn.award > 0 && turn.award < turn.offer.quantity)
    }),
    ("nothing, and a later one something", |opened| {
        let mut turns = opened.turns().iter();
        turns.any(|turn| turn.award == 0) && turns.any(|turn| turn.award > 0)
    }),
    ("all in full", |opened| {
        !opened.any(|turn| turn.award < turn.offer.quantity)
    }),
    ("something left that some offer could not take", |opened| {
        opened.left() > 0 && opened.any(|turn| turn.award == 0)
    }),
    ("exact buffer", |opened| {
        opened.buffer == opened.turns().len()
    }),
    ("longer buffer", |opened| {
        opened.buffer > opened.turns().len()
    }),
];

const REFUSALS: &[Feature<Opened>] = &[
    ("refused", |_| true),
    ("18", |opened| opened.is_refused(SEALED_OUT_OF_BOUNDS)),
    ("18 by several causes", |opened| opened.causes() > 1),
    ("18 by the first of several offers", |opened| {
        opened.has_one_cause() && matches!(opened.breaker(), Some((0, 2..)))
    }),
    ("18 by the last of several", |opened| {
        let breaker = opened.breaker().filter(|_| opened.has_one_cause());
        breaker.is_some_and(|(place, offers)| offers > 1 && place + 1 == offers)
    }),
    ("18 before 19", |opened| {
        opened.is_refused(SEALED_OUT_OF_BOUNDS) && opened.above_ceiling() > 0
    }),
    ("18 before 11", |opened| {
        opened.is_refused(SEALED_OUT_OF_BOUNDS) && opened.is_short()
    }),
    ("18 before both", |opened| {
        opened.is_refused(SEALED_OUT_OF_BOUNDS) && opened.above_ceiling() > 0 && opened.is_short()
    }),
    ("19", |opened| opened.is_refused(ABOVE_THE_CEILING)),
    ("19 by one offer of several", |opened| {
        opened.is_refused(ABOVE_THE_CEILING) && opened.above_ceiling() == 1 && opened.count() > 1
    }),
    ("19 by one above the ceiling", |opened| {
        let highest = opened.auction.lists[PRICES].iter().max().copied();
        opened.is_refused(ABOVE_THE_CEILING) && highest == Some(opened.auction.ceiling + 1)
    }),
    ("19 before 11", |opened| {
        opened.is_refused(ABOVE_THE_CEILING) && opened.is_short()
    }),
    ("11", |opened| opened.is_refused(BUFFER_TOO_SHORT)),
    ("11 by one", |opened| {
        opened.is_refused(BUFFER_TOO_SHORT) && opened.buffer + 1 == opened.count()
    }),
    ("11 by an empty buffer", |opened| {
        opened.is_refused(BUFFER_TOO_SHORT) && opened.buffer == 0
    }),
];

/// The causes of refusal 18, each looked for alone.
const CAUSES: &[Feature<Opened>] = &[
    ("17 offers", |opened| opened.longest() == MOST_OFFERS + 1),
    ("more than 17", |opened| opened.longest() > MOST_OFFERS + 1),
    ("prices shorter", |opened| {
        opened.apart(&[PRICES]) == Some(Less)
    }),
    ("prices longer", |opened| {
        opened.apart(&[PRICES]) == Some(Greater)
    }),
    ("quantities shorter", |opened| {
        opened.apart(&[QUANTITIES]) == Some(Less)
    }),
    ("quantities longer", |opened| {
        opened.apart(&[QUANTITIES]) == Some(Greater)
    }),
    ("minimums shorter", |opened| {
        opened.apart(&[MINIMUMS]) == Some(Less)
    }),
    ("minimums longer", |opened| {
        opened.apart(&[MINIMUMS]) == Some(Greater)
    }),
    ("ages shorter", |opened| opened.apart(&[AGES]) == Some(Less)),
    ("ages longer", |opened| {
        opened.apart(&[AGES]) == Some(Greater)
    }),
    ("prices and quantities unlike the others", |opened| {
        opened.apart(&[PRICES, QUANTITIES]).is_some()
    }),
    ("prices and minimums unlike the others", |opened| {
        opened.apart(&[PRICES, MINIMUMS]).is_some()
    }),
    ("prices and ages unlike the others", |opened| {
        opened.apart(&[PRICES, AGES]).is_some()
    }),
    ("more than two lengths", |opened| {
        let lengths = opened.auction.lists.iter().map(Vec::len);
        lengths.collect::<BTreeSet<_>>().len() > 2
    }),
    ("ceiling 0", |opened| opened.has(Ceiling, Zero)),
    ("ceiling 1,000,001", |opened| opened.has(Ceiling, OneAbove)),
    ("ceiling 2^64 - 1", |opened| opened.has(Ceiling, Greatest)),
    ("ceiling between", |opened| opened.has(Ceiling, Further)),
    ("demand 10^11 + 1", |opened| opened.has(Demand, OneAbove)),
    ("demand 2^64 - 1", |opened| opened.has(Demand, Greatest)),
    ("demand between", |opened| opened.has(Demand, Further)),
    ("price 0", |opened| opened.has(Price, Zero)),
    ("price 1,000,001", |opened| opened.has(Price, OneAbove)),
    ("price 2^64 - 1", |opened| opened.has(Price, Greatest)),
    ("price between", |opened| opened.has(Price, Further)),
    ("quantity 0", |opened| opened.has(Quantity, Zero)),
    ("quantity 10^9 + 1", |opened| opened.has(Quantity, OneAbove)),
    ("quantity 2^64 - 1", |opened| opened.has(Quantity, Greatest)),
    ("quantity between", |opened| opened.has(Quantity, Further)),
    ("minimum 0", |opened| opened.has(Minimum, Zero)),
    ("minimum one above quantity", |opened| {
        opened.has(Minimum, OneAbove)
    }),
    ("minimum 2^64 - 1", |opened| opened.has(Minimum, Greatest)),
    ("minimum between", |opened| opened.has(Minimum, Further)),
    ("age 21", |opened| opened.has(Age, OneAbove)),
    ("age 2^64 - 1", |opened| opened.has(Age, Greatest)),
    ("age between", |opened| opened.has(Age, Further)),
];

#[derive(Clone, Copy)]
enum Field {
    Ceiling,
    Demand,
    Price,
    Quantity,
    Minimum,
    Age,
}

/// How a number lies beyond its bounds.
#[derive(Clone, Copy, PartialEq, Eq)]
enum How {
    /// Where the bounds begin at 1.
    Zero,
    OneAbove,
    Greatest,
    /// Above, and none of these.
    Further,
}

fn how(number: u64, highest: u64) -> Option<How> {
    match number.checked_sub(highest) {
        _ if number == 0 => Some(Zero),
        None | Some(0) => None,
        Some(1) => Some(OneAbove),
        Some(_) if number == u64::MAX => Some(Greatest),
        Some(_) => Some(Further),
    }
}

impl Opened {
    pub fn new((auction, buffer): (Sealed, usize)) -> Opened {
        Opened {
            outcome: auction.outcome(),
            auction,
            buffer,
        }
    }

    /// The answer before the buffer is looked at.
    pub fn awards(&self) -> Awards {
        match &self.outcome {
            Ok(outcome) => Ok(outcome.awards()),
            Err(refusal) => Err(*refusal),
        }
    }

    /// The number of the refusal.
    pub fn refused(&self) -> Option<u8> {
        match &self.outcome {
            Ok(outcome) if self.buffer < outcome.turns.len() => Some(BUFFER_TOO_SHORT),
            Ok(_) => None,
            Err(refusal) => Some(*refusal),
        }
    }

    fn is_refused(&self, number: u8) -> bool {
        self.refused() == Some(number)
    }

    fn answered(&self) -> bool {
        self.refused().is_none()
    }

    /// The turns; none if it is refused.
    fn turns(&self) -> &[Turn] {
        self.outcome.as_ref().map_or(&[], |outcome| &outcome.turns)
    }

    fn left(&self) -> u64 {
        self.outcome.as_ref().map_or(0, |outcome| outcome.left)
    }

    fn any(&self, such: impl Fn(&Turn) -> bool) -> bool {
        self.turns().iter().any(such)
    }

    /// Whether it holds of two different offers.
    fn any_two(&self, such: fn(&Offer, &Offer) -> bool) -> bool {
        self.any(|one| self.any(|other| one.place != other.place && such(&one.offer, &other.offer)))
    }

    /// Whether the awards are others in the auction that is changed so.
    fn decide(&self, change: fn(&mut Sealed)) -> bool {
        let mut changed = self.auction.clone();
        change(&mut changed);
        changed.awards() != self.awards()
    }

    /// Whether the awards are others with the list the other way round.
    fn list_order_decides(&self) -> bool {
        let mut reversed = self.auction.clone();
        reversed.lists.iter_mut().for_each(|list| list.reverse());
        let mut awards = reversed.awards();
        if let Ok((awards, _)) = &mut awards {
            awards.reverse();
        }
        awards != self.awards()
    }

    fn count(&self) -> usize {
        self.auction.lists[PRICES].len()
    }

    fn is_short(&self) -> bool {
        self.buffer < self.count()
    }

    /// How many prices are above the ceiling.
    pub fn above_ceiling(&self) -> usize {
        let prices = self.auction.lists[PRICES].iter();
        prices
            .filter(|price| **price > self.auction.ceiling)
            .count()
    }

    /// The length of the longest list.
    fn longest(&self) -> usize {
        let lengths = self.auction.lists.iter().map(Vec::len);
        lengths.max().expect("four lists")
    }

    /// How the lists at these places, of one length, stand to the others, which are of another one.
    fn apart(&self, places: &[usize]) -> Option<Ordering> {
        let lengths = self.auction.lists.iter().map(Vec::len).enumerate();
        let (own, others): (Vec<_>, Vec<_>) = lengths.partition(|(at, _)| places.contains(at));
        let one = |lengths: &[(usize, usize)]| {
            let (_, first) = lengths[0];
            lengths
                .iter()
                .all(|(_, length)| *length == first)
                .then_some(first)
        };
        let order = one(&own)?.cmp(&one(&others)?);
        (order != Ordering::Equal).then_some(order)
    }

    /// Whether a number of the field lies so beyond its bounds.
    fn has(&self, field: Field, such: How) -> bool {
        let Sealed {
            ceiling,
            demand,
            lists: [prices, quantities, minimums, ages],
        } = &self.auction;
        let any = |numbers: &[u64], highest| {
            let mut numbers = numbers.iter();
            numbers.any(|number| how(*number, highest) == Some(such))
        };
        match field {
            Ceiling => any(&[*ceiling], HIGHEST_PRICE),
            Demand => any(&[*demand], HIGHEST_DEMAND),
            Price => any(prices, HIGHEST_PRICE),
            Quantity => any(quantities, HIGHEST_QUANTITY),
            Age => any(ages, HIGHEST_AGE),
            // Every minimum is above a quantity of 0, which is a cause of its own.
            Minimum => std::iter::zip(minimums, quantities)
                .any(|(minimum, quantity)| *quantity > 0 && any(&[*minimum], *quantity)),
        }
    }

    /// How many causes of refusal 18 there are.
    pub fn causes(&self) -> usize {
        CAUSES.iter().filter(|(_, holds)| holds(self)).count()
    }

    fn has_one_cause(&self) -> bool {
        self.causes() == 1
    }

    /// The place of the one offer that is out of bounds, and how many offers there are.
    fn breaker(&self) -> Option<(usize, usize)> {
        let offers = self.auction.offers()?;
        let out: Vec<usize> = (0..offers.len())
            .filter(|place| !offers[*place].in_bounds())
            .collect();
        match out[..] {
            [place] => Some((place, offers.len())),
            _ => None,
        }
    }
}
