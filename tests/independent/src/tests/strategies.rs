//! The strategies of a game, counted.

use independent::generators::games::stated::{between_rounds, written, TEN};
use independent::model::forcing::{FIRST, SECOND};
use independent::model::replay::auction_after;

/// In four prices the first moves in one position at the first price and, if it has kept, in two
/// at the third: 2 × 2 × 2. The second moves in two at the second price and, if it has kept, in
/// three at the fourth: 4 × 8.
#[test]
fn all_strategies() {
    let auction = auction_after(&written(&between_rounds()));
    for (first, second, prices, counts) in [
        (2, 3, 1, [2, 1]),
        (2, 3, 2, [2, 4]),
        (2, 3, 3, [8, 4]),
        (2, 3, 4, [8, 32]),
        (5, 3, 4, [1, 4]),
        (2, 5, 4, [4, 1]),
        (5, 6, 4, [1, 1]),
    ] {
        let game = auction.game(first, second, &TEN[..prices]);
        let game = game.expect("a game");
        let strategies = [FIRST, SECOND].map(|rival| game.strategies(rival).len());
        assert_eq!(strategies, counts);
    }
}
