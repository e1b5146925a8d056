//! What can be forced, by the meaning of the word: the outcome that some strategy of the first reaches
//! against all of the second, and that some strategy of the second keeps it to against all of the
//! first.

use super::{mover, Forced, Game, Move, FIRST, SECOND};
use std::collections::BTreeMap;

/// A rival's strategy: a legal move for each position in which it is to move.
pub type Strategy = BTreeMap<Vec<Move>, Move>;

impl Game {
    pub fn by_strategies(&self) -> Forced {
        let (firsts, seconds) = (self.strategies(FIRST), self.strategies(SECOND));
        let forced_by = |first: &Strategy| {
            let outcomes = seconds.iter().map(|second| self.played(first, second));
            outcomes.min().expect("the second has a strategy")
        };
        let held_by = |second: &Strategy| {
            let outcomes = firsts.iter().map(|first| self.played(first, second));
            outcomes.max().expect("the first has a strategy")
        };
        let forced = firsts.iter().map(forced_by).max();
        let held = seconds.iter().map(held_by).min();
        assert_eq!(forced, held, "what one can force, the other can hold to");
        let outcome = forced.expect("the first has a strategy");
        let mut forcing = firsts.iter().filter(|first| forced_by(first) == outcome);
        let keeps = forcing.any(|first| first[&Vec::new()] == Move::Keep);
        Forced {
            outcome,
            first_move: if keeps { Move::Keep } else { Move::Withdraw },
        }
    }

    /// All strategies of a rival.
    pub fn strategies(&self, rival: usize) -> Vec<Strategy> {
        let lengths = (0..self.prices.len()).filter(|&moves| mover(moves) == rival);
        let mut strategies = vec![Strategy::new()];
        for position in lengths.flat_map(|moves| self.positions(moves)) {
            let with = |strategy: &Strategy, next: Move| {
                let mut strategy = strategy.clone();
                strategy.insert(position.clone(), next);
                strategy
            };
            let legal = self.legal(&position);
            let longer = strategies
                .iter()
                .flat_map(|strategy| legal.iter().map(|&next| with(strategy, next)));
            strategies = longer.collect();
        }
        strategies
    }

    /// The outcome when both follow their strategies.
    fn played(&self, first: &Strategy, second: &Strategy) -> u64 {
        let mut made = Vec::new();
        while made.len() < self.prices.len() {
            let strategy = [first, second][mover(made.len())];
            made.push(strategy[&made]);
        }
        self.outcomes[&made]
    }
}
