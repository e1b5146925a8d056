//! What games and refused questions show (document 02, request 11).

use super::features::{Feature, Kind};
use crate::generators::games::{left_by, Question};
use crate::model::auction::{Auction, Developer, Phase, EXISTING, NEW};
use crate::model::forcing::{Forced, Game, Move, MOST_PRICES};
use crate::model::replay::{auction_after, lines, make, read_call, Call};
use crate::{BUFFER_TOO_SHORT, NOT_IN_THIS_PHASE, NO_SUCH_GAME};
use std::collections::BTreeMap;

/// A question, the auction that it is about, and the answer before the buffer is looked at.
pub struct Asked {
    pub question: Question,
    auction: Auction,
    game: Result<(Game, Forced), u8>,
}

pub const QUESTIONS: &[Kind<Asked>] =
    &[("games", |_| true, GAMES), ("refusals", |_| true, REFUSED)];

/// What an answered question shows.
const GAMES: &[Feature<Asked>] = &[
    ("answered", Asked::answered),
    ("1 price", |asked| asked.has_prices(1)),
    ("2", |asked| asked.has_prices(2)),
    ("3", |asked| asked.has_prices(3)),
    ("4", |asked| asked.has_prices(4)),
    ("5", |asked| asked.has_prices(5)),
    ("6", |asked| asked.has_prices(6)),
    ("7", |asked| asked.has_prices(7)),
    ("8", |asked| asked.has_prices(8)),
    ("9", |asked| asked.has_prices(9)),
    ("10", |asked| asked.has_prices(10)),
    ("keep", |asked| asked.moves(Move::Keep)),
    ("withdraw", |asked| asked.moves(Move::Withdraw)),
    ("withdraw in more than 4 prices", |asked| {
        asked.moves(Move::Withdraw) && asked.question.prices.len() > 4
    }),
    ("keep, though it may withdraw", |asked| {
        asked.moves(Move::Keep) && asked.values().len() == 2
    }),
    ("the move matters", |asked| {
        let values = asked.values();
        values.iter().any(|value| *value != values[0])
    }),
    ("outcome standing", |asked| {
        asked.outcome_is(asked.auction.last_c())
    }),
    ("outcome the highest listed", |asked| {
        asked.outcome_is(asked.question.prices.first().copied())
    }),
    ("outcome the lowest listed", |asked| {
        asked.outcome_is(asked.question.prices.last().copied())
    }),
    ("outcome between", |asked| {
        asked.outcome().is_some_and(|outcome| {
            let prices = &asked.question.prices;
            prices[1..].contains(&outcome) && Some(&outcome) != prices.last()
        })
    }),
    ("the first raises it above all keeping", |asked| {
        asked.with_outcomes(|outcomes, value| outcomes.values().any(|other| *other < value))
    }),
    ("the second keeps it below all withdrawing", |asked| {
        asked.with_outcomes(|outcomes, value| outcomes.values().any(|other| *other > value))
    }),
    ("both", |asked| {
        asked.with_outcomes(|outcomes, value| {
            let below = outcomes.values().any(|other| *other < value);
            below && outcomes.values().any(|other| *other > value)
        })
    }),
    ("outcome just covered without the first", |asked| {
        asked.just_covered_without_first()
    }),
    ("next below it one kWh short without it", |asked| {
        asked.one_short_without_first()
    }),
    ("first at 0", |asked| asked.at_0(true, false)),
    ("second at 0", |asked| asked.at_0(false, true)),
    ("both at 0", |asked| asked.at_0(true, true)),
    ("first has a stronger partner", |asked| {
        asked.partner_of_first(|partner, first| partner >= first)
    }),
    ("first has a weaker partner", |asked| {
        asked.partner_of_first(|partner, first| 0 < partner && partner < first)
    }),
    ("a lodged step lies among the prices", |asked| {
        asked.answered() && asked.lodged_ahead()
    }),
    ("with lodged steps it would be another", |asked| {
        asked.lodged_would_decide()
    }),
    ("after several rounds", |asked| {
        asked.answered() && asked.rounds() > 1
    }),
    ("a settling in the record", |asked| {
        asked.answered()
            && asked
                .calls()
                .any(|call| matches!(call, Some(Call::Settle { .. })))
    }),
    ("a malformed line in the record", |asked| {
        asked.answered() && asked.calls().any(|call| call.is_none())
    }),
    ("longer buffer", |asked| {
        asked.answered() && asked.question.buffer > 1
    }),
];

/// What a refused question shows; the causes of 17 each alone.
const REFUSED: &[Feature<Asked>] = &[
    ("refused", |asked| !asked.answered()),
    ("2 fresh", |asked| {
        asked.out_of_phase(|phase| *phase == Phase::Fresh)
    }),
    ("2 registering", |asked| {
        asked.out_of_phase(|phase| *phase == Phase::Ready)
    }),
    ("2 in the first round", |asked| {
        asked.auction.last_c().is_none() && asked.out_of_phase(is_open)
    }),
    ("2 in a later one", |asked| {
        asked.auction.last_c().is_some() && asked.out_of_phase(is_open)
    }),
    ("2 closed", |asked| {
        asked.out_of_phase(|phase| *phase == Phase::Closed)
    }),
    ("2 before 17", |asked| {
        asked.out_of_phase(|_| true) && asked.question.prices.is_empty()
    }),
    ("2 before 11", |asked| {
        asked.out_of_phase(|_| true) && asked.question.buffer == 0
    }),
    ("17 first outside", |asked| asked.alone("first outside")),
    ("17 second outside", |asked| asked.alone("second outside")),
    ("17 first unregistered", |asked| {
        asked.alone("first unregistered")
    }),
    ("17 second unregistered", |asked| {
        asked.alone("second unregistered")
    }),
    ("17 first of kind 1", |asked| asked.alone("first of kind 1")),
    ("17 second of kind 1", |asked| {
        asked.alone("second of kind 1")
    }),
    ("17 equal", |asked| asked.alone("equal")),
    ("17 one project", |asked| asked.alone("one project")),
    ("17 no price", |asked| asked.alone("no price")),
    ("17 over 10", |asked| asked.alone("over 10")),
    ("17 not falling", |asked| asked.alone("not falling")),
    ("17 below the floor", |asked| asked.alone("below the floor")),
    ("17 standing price or above", |asked| {
        asked.alone("standing price or above")
    }),
    ("17 several causes", |asked| {
        asked.refused() == Some(NO_SUCH_GAME) && asked.causes().len() > 1
    }),
    ("17 before 11", |asked| {
        asked.refused() == Some(NO_SUCH_GAME) && asked.question.buffer == 0
    }),
    ("11", |asked| asked.refused() == Some(BUFFER_TOO_SHORT)),
];

fn is_open(phase: &Phase) -> bool {
    matches!(phase, Phase::Round(_))
}

/// The causes of refusal 17, each looked for alone.
const CAUSES: &[Feature<Asked>] = &[
    ("first outside", |asked| outside(asked.question.first)),
    ("second outside", |asked| outside(asked.question.second)),
    ("first unregistered", |asked| {
        asked.unregistered(asked.question.first)
    }),
    ("second unregistered", |asked| {
        asked.unregistered(asked.question.second)
    }),
    ("first of kind 1", |asked| {
        asked.exists(asked.question.first)
    }),
    ("second of kind 1", |asked| {
        asked.exists(asked.question.second)
    }),
    ("equal", |asked| {
        asked.question.first == asked.question.second
    }),
    ("one project", |asked| {
        let Question { first, second, .. } = asked.question;
        let projects = [first, second].map(|number| asked.developer(number).map(|d| d.project));
        first != second && projects[0].is_some() && projects[0] == projects[1]
    }),
    ("no price", |asked| asked.question.prices.is_empty()),
    ("over 10", |asked| asked.question.prices.len() > MOST_PRICES),
    ("not falling", |asked| {
        asked.question.prices.windows(2).any(|two| two[0] <= two[1])
    }),
    ("below the floor", |asked| {
        let floor = asked.auction.settings().floor();
        asked.question.prices.iter().any(|price| *price < floor)
    }),
    ("standing price or above", |asked| {
        let standing = asked.auction.last_c().unwrap_or(0);
        asked.question.prices.iter().any(|price| *price >= standing)
    }),
];

fn outside(number: u64) -> bool {
    !(1..=32).contains(&number)
}

impl Asked {
    pub fn new(question: Question) -> Asked {
        let auction = auction_after(&question.record);
        let game = auction.game(question.first, question.second, &question.prices);
        Asked {
            game: game.map(|game| {
                let forced = game.forced();
                (game, forced)
            }),
            question,
            auction,
        }
    }

    /// The answer before the buffer is looked at.
    pub fn forced(&self) -> Result<Forced, u8> {
        match self.game {
            Ok((_, forced)) => Ok(forced),
            Err(refusal) => Err(refusal),
        }
    }

    /// The number of the refusal.
    pub fn refused(&self) -> Option<u8> {
        match self.game {
            Ok(_) if self.question.buffer == 0 => Some(BUFFER_TOO_SHORT),
            Ok(_) => None,
            Err(refusal) => Some(refusal),
        }
    }

    fn answered(&self) -> bool {
        self.refused().is_none()
    }

    /// The game, if there is one, whatever the buffer.
    pub fn game(&self) -> Option<&Game> {
        let game = self.game.as_ref().ok();
        game.map(|(game, _)| game)
    }

    /// The game and what is forced in it, if the question is answered.
    fn played(&self) -> Option<&(Game, Forced)> {
        let game = self.game.as_ref().ok();
        game.filter(|_| self.answered())
    }

    fn outcome(&self) -> Option<u64> {
        self.played().map(|(_, forced)| forced.outcome)
    }

    fn outcome_is(&self, price: Option<u64>) -> bool {
        self.answered() && self.outcome() == price
    }

    fn has_prices(&self, count: usize) -> bool {
        self.answered() && self.question.prices.len() == count
    }

    fn moves(&self, first_move: Move) -> bool {
        self.played()
            .is_some_and(|(_, forced)| forced.first_move == first_move)
    }

    /// What each legal first move leads to.
    fn values(&self) -> Vec<u64> {
        self.played().map_or(Vec::new(), |(game, _)| {
            let moves = game.legal(&[]).into_iter();
            moves.map(|first_move| game.value(&[first_move])).collect()
        })
    }

    /// Whether it holds of all plays and what is forced.
    fn with_outcomes(&self, holds: impl Fn(&BTreeMap<Vec<Move>, u64>, u64) -> bool) -> bool {
        self.played()
            .is_some_and(|(game, forced)| holds(game.outcomes(), forced.outcome))
    }

    /// Demand at a price, less what is left there when the first has withdrawn.
    fn short_without_first(&self, price: u64) -> i64 {
        let first = u8::try_from(self.question.first).expect("a rival");
        let left = left_by(&self.auction, &[first]);
        self.auction.settings().demand(price).cast_signed() - left.cast_signed()
    }

    /// Whether that is nothing at the outcome, a listed price.
    fn just_covered_without_first(&self) -> bool {
        let prices = &self.question.prices;
        let listed = self.outcome().filter(|outcome| prices.contains(outcome));
        listed.is_some_and(|outcome| self.short_without_first(outcome) == 0)
    }

    /// Whether it is 1 at the listed price next below the outcome.
    fn one_short_without_first(&self) -> bool {
        self.outcome().is_some_and(|outcome| {
            let mut prices = self.question.prices.iter();
            let below = prices.find(|price| **price < outcome);
            below.is_some_and(|price| self.short_without_first(*price) == 1)
        })
    }

    fn developer(&self, number: u64) -> Option<&Developer> {
        let number = u8::try_from(number).ok()?;
        self.auction.developers().get(&number)
    }

    fn at_0(&self, first: bool, second: bool) -> bool {
        let rivals = [self.question.first, self.question.second];
        let at_0 = rivals.map(|rival| self.developer(rival).is_some_and(|d| d.quantity == 0));
        self.answered() && at_0 == [first, second]
    }

    /// Whether the greatest of the first's partners and the first, above 0, have such quantities.
    fn partner_of_first(&self, such: impl Fn(u64, u64) -> bool) -> bool {
        let first = self
            .developer(self.question.first)
            .filter(|d| d.quantity > 0);
        first.filter(|_| self.answered()).is_some_and(|first| {
            let developers = self.auction.developers().values();
            let partners =
                developers.filter(|d| d.project == first.project && d.number != first.number);
            let strongest = partners.map(|partner| partner.quantity).max();
            strongest.is_some_and(|strongest| such(strongest, first.quantity))
        })
    }

    /// Whether a lodged step lies between the standing price and the lowest listed one.
    fn lodged_ahead(&self) -> bool {
        let (Some(lowest), Some(standing)) = (self.question.prices.last(), self.auction.last_c())
        else {
            return false;
        };
        let developers = self.auction.developers().values();
        let mut lodged = developers.flat_map(|developer| &developer.lodged);
        lodged.any(|step| (*lowest + 1..standing).contains(&step.price))
    }

    /// Whether the outcome of all keeping would be another one in a round down to the lowest price,
    /// which applies the lodged steps.
    fn lodged_would_decide(&self) -> bool {
        let prices = &self.question.prices;
        let Some((game, _)) = self.played().filter(|_| self.lodged_ahead()) else {
            return false;
        };
        let mut round = self.auction.clone();
        let lowest = *prices.last().expect("a price");
        round.open(lowest as u32).expect("below the standing price");
        for new in self.auction.developers().values().filter(|d| d.kind == NEW) {
            let stays = round.offer(new.number, &[], &[]);
            stays.expect("an offer of no steps");
        }
        round.close().expect("a round is open");
        let covered = prices.iter().filter(|price| round.covered(**price)).min();
        let kept = game.outcomes()[&vec![Move::Keep; prices.len()]];
        covered.copied().or(self.auction.last_c()) != Some(kept)
    }

    fn calls(&self) -> impl Iterator<Item = Option<Call>> + '_ {
        lines(&self.question.record).into_iter().map(read_call)
    }

    /// How many rounds were closed.
    fn rounds(&self) -> usize {
        let mut auction = Auction::new();
        let calls = self.calls().flatten();
        let changing = calls.filter(|call| !matches!(call, Call::Settle { .. }));
        let accepted = changing.filter(|call| make(&mut auction, call).is_ok());
        accepted.filter(|call| *call == Call::Close).count()
    }

    fn out_of_phase(&self, such: impl Fn(&Phase) -> bool) -> bool {
        self.refused() == Some(NOT_IN_THIS_PHASE) && such(self.auction.phase())
    }

    fn unregistered(&self, number: u64) -> bool {
        !outside(number) && self.developer(number).is_none()
    }

    fn exists(&self, number: u64) -> bool {
        self.developer(number).is_some_and(|d| d.kind == EXISTING)
    }

    /// The causes of refusal 17 that the question has.
    pub fn causes(&self) -> Vec<&'static str> {
        let causes = CAUSES.iter().filter(|(_, holds)| holds(self));
        causes.map(|(name, _)| *name).collect()
    }

    /// Whether it is refused by 17 for this cause and no other.
    fn alone(&self, cause: &str) -> bool {
        self.refused() == Some(NO_SUCH_GAME) && self.causes() == [cause]
    }
}
