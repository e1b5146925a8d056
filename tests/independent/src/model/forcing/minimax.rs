//! What can be forced, move by move: each rival makes the best move for itself, knowing that the
//! other will do so too.

use super::{mover, Forced, Game, Move, FIRST};

impl Game {
    pub fn by_minimax(&self) -> Forced {
        let outcome = self.value(&[]);
        // Keeping is first among the legal moves, and preferred when equal.
        let mut moves = self.legal(&[]).into_iter();
        let first_move = moves.find(|&next| self.value(&[next]) == outcome);
        Forced {
            outcome,
            first_move: first_move.expect("a best move"),
        }
    }

    /// The outcome behind these moves when both go on as best they can.
    pub fn value(&self, made: &[Move]) -> u64 {
        if let Some(&outcome) = self.outcomes.get(made) {
            return outcome;
        }
        let further = self.further(made).into_iter();
        let values = further.map(|made| self.value(&made));
        let best = if mover(made.len()) == FIRST {
            values.max()
        } else {
            values.min()
        };
        best.expect("keeping is legal")
    }
}
