//! Who can force the price (document 02, request 11): two rivals move in turn at falling prices.
//! A game is written out, every play with its outcome, which is read from the ledger with the
//! withdrawals of the play. What a rival can force is found in short games from the meaning of the
//! word, by trying all strategies, and in longer ones move by move.

mod minimax;
mod strategies;

use crate::model::auction::{Auction, Developer, Phase, Withdrawal, NEW};
use crate::model::replay::auction_after;
use crate::{host_number, require, BUFFER_TOO_SHORT, NOT_IN_THIS_PHASE, NO_SUCH_GAME};
use std::collections::BTreeMap;

/// Most prices of a list (document 02, request 11).
pub const MOST_PRICES: usize = 10;

/// Most prices of a game in which all strategies are tried.
pub const MOST_PRICES_TRIED: usize = 4;

#[derive(Clone, Copy, Debug, PartialEq, Eq, PartialOrd, Ord)]
pub enum Move {
    Keep,
    Withdraw,
}

impl Move {
    /// The byte that a C host gets.
    pub fn byte(self) -> u8 {
        match self {
            Move::Keep => 0,
            Move::Withdraw => 1,
        }
    }
}

/// What the first can force against every reply and the second can hold it to against every reply,
/// with a best first move.
#[derive(Clone, Copy, Debug, PartialEq, Eq)]
pub struct Forced {
    pub outcome: u64,
    pub first_move: Move,
}

/// The rival who begins, and who wants the outcome high.
pub const FIRST: usize = 0;
/// The rival who wants it low.
pub const SECOND: usize = 1;

/// The place among the rivals of the one who moves after so many moves: they move in turn.
fn mover(moves: usize) -> usize {
    moves % 2
}

/// A game that document 02 describes.
#[derive(Clone, Debug)]
pub struct Game {
    prices: Vec<u64>,
    /// Whether each rival is above 0 when the game begins.
    above_0: [bool; 2],
    /// Every play, a legal move for each price, with its outcome.
    outcomes: BTreeMap<Vec<Move>, u64>,
}

impl Auction {
    /// Checks: 2, 17.
    pub fn who_can_force(&self, first: u64, second: u64, prices: &[u64]) -> Result<Forced, u8> {
        self.game(first, second, prices).map(|game| game.forced())
    }

    /// The game, if it is one. Checks: 2, 17.
    pub fn game(&self, first: u64, second: u64, prices: &[u64]) -> Result<Game, u8> {
        require(*self.phase() == Phase::Between, NOT_IN_THIS_PHASE)?;
        let rivals = [self.rival(first)?, self.rival(second)?];
        // Different projects have different developers.
        require(rivals[0].project != rivals[1].project, NO_SUCH_GAME)?;
        require(self.may_be_listed(prices), NO_SUCH_GAME)?;
        Ok(Game::new(self, rivals, prices))
    }

    fn rival(&self, number: u64) -> Result<&Developer, u8> {
        let number = u8::try_from(number).map_err(|_| NO_SUCH_GAME)?;
        let known = self.developers().get(&number);
        known.filter(|d| d.kind == NEW).ok_or(NO_SUCH_GAME)
    }

    /// 1 to 10 strictly falling prices from the floor to the standing price less 1.
    fn may_be_listed(&self, prices: &[u64]) -> bool {
        let from_the_floor = self.settings().floor()..self.standing_price();
        (1..=MOST_PRICES).contains(&prices.len())
            && prices.is_sorted_by(|before, after| before > after)
            && prices.iter().all(|price| from_the_floor.contains(price))
    }

    /// The standing price, document 02's term: the last C.
    fn standing_price(&self) -> u64 {
        self.last_c().expect("a closed round")
    }

    /// The outcome after the last price, by these withdrawals to 0: the lowest covered listed price,
    /// or the standing price if none is. All others keep theirs: neither a lodged step nor the step of
    /// a missing offer is in the ledger before a closing puts it there.
    fn outcome_with(&self, withdrawals: &[(u8, u64)], prices: &[u64]) -> u64 {
        let after = withdrawals.iter().fold(self.clone(), |auction, step| {
            let &(developer, price) = step;
            auction.with_withdrawal(developer, Withdrawal { price, level: 0 })
        });
        let covered = prices.iter().copied().filter(|&price| after.covered(price));
        covered.min().unwrap_or(self.standing_price())
    }
}

impl Game {
    fn new(auction: &Auction, rivals: [&Developer; 2], prices: &[u64]) -> Game {
        let mut game = Game {
            prices: prices.to_vec(),
            above_0: rivals.map(|rival| rival.quantity > 0),
            outcomes: BTreeMap::new(),
        };
        for play in game.positions(prices.len()) {
            let moves = std::iter::zip(prices, &play).enumerate();
            let withdrawals = moves.filter(|(_, (_, made))| **made == Move::Withdraw);
            let withdrawals =
                withdrawals.map(|(at, (price, _))| (rivals[mover(at)].number, *price));
            let outcome = auction.outcome_with(&withdrawals.collect::<Vec<_>>(), prices);
            game.outcomes.insert(play, outcome);
        }
        game
    }

    /// What can be forced, by trying all strategies while they are few.
    pub fn forced(&self) -> Forced {
        if self.prices.len() <= MOST_PRICES_TRIED {
            self.by_strategies()
        } else {
            self.by_minimax()
        }
    }

    /// Every play with its outcome.
    pub fn outcomes(&self) -> &BTreeMap<Vec<Move>, u64> {
        &self.outcomes
    }

    /// The moves that the mover may make behind these: one at 0 can only keep.
    pub fn legal(&self, made: &[Move]) -> Vec<Move> {
        let mover = mover(made.len());
        let mut own = made.iter().skip(mover).step_by(2);
        let withdrew = own.any(|made| *made == Move::Withdraw);
        if self.above_0[mover] && !withdrew {
            vec![Move::Keep, Move::Withdraw]
        } else {
            vec![Move::Keep]
        }
    }

    /// Every list of so many legal moves: a position is the moves made so far.
    fn positions(&self, moves: usize) -> Vec<Vec<Move>> {
        let mut positions = vec![Vec::new()];
        for _ in 0..moves {
            let further = positions.iter().flat_map(|made| self.further(made));
            positions = further.collect();
        }
        positions
    }

    /// The positions that one more move leads to.
    fn further(&self, made: &[Move]) -> Vec<Vec<Move>> {
        let moves = self.legal(made).into_iter();
        moves.map(|next| [made, &[next]].concat()).collect()
    }
}

/// The C call: the outcome, and in the buffer's first byte the move; or 2^64 less 2, 17 or 11 with the
/// buffer untouched.
pub fn who_can_force(
    record: &[u8],
    first: u64,
    second: u64,
    prices: &[u64],
    buffer: &mut [u8],
) -> u64 {
    let forced = auction_after(record).who_can_force(first, second, prices);
    write_move(forced, buffer)
}

/// What the C call does with an answer. Checks: 11, behind all others.
pub fn write_move(forced: Result<Forced, u8>, buffer: &mut [u8]) -> u64 {
    host_number(forced.and_then(|forced| {
        let byte = buffer.first_mut().ok_or(BUFFER_TOO_SHORT)?;
        *byte = forced.first_move.byte();
        Ok(forced.outcome)
    }))
}
