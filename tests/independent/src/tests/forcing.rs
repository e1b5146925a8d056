//! Who can force the price (document 02, request 11): each sentence of it in games worked out by hand,
//! and what the rules imply for it on generated ones. The stated games say what demand and supply are.

use independent::coverage::Asked;
use independent::generators::games::question;
use independent::generators::games::stated::{between_rounds, questions, written, TEN};
use independent::generators::lent::lend;
use independent::model::auction::{Auction, Developer, Phase};
use independent::model::forcing::Move::{self, Keep, Withdraw};
use independent::model::forcing::{who_can_force, Forced, Game, MOST_PRICES_TRIED};
use independent::model::replay::{auction_after, make, write_call, Call};
use independent::{host_number, BUFFER_TOO_SHORT, NOT_IN_THIS_PHASE, NO_SUCH_GAME};
use std::sync::LazyLock;

/// Generated questions, each with its auction and its game, if it is one.
static ASKED: LazyLock<Vec<Asked>> =
    LazyLock::new(|| (0..6_000).map(|seed| Asked::new(question(seed))).collect());

/// The games of the generated questions.
fn games() -> impl Iterator<Item = (&'static Asked, &'static Game)> {
    let asked = ASKED.iter();
    asked.filter_map(|asked| Some((asked, asked.game()?)))
}

/// The auction of the stated games.
fn standing_at_20_000() -> Auction {
    auction_after(&written(&between_rounds()))
}

/// The same after a round down to 30,000 instead, where 950,000 are demanded; from there to 20,000 it is 5
/// more for each thousandth.
fn standing_at_30_000() -> Auction {
    let mut calls = between_rounds();
    let mut opening = calls
        .iter_mut()
        .filter(|call| matches!(call, Call::Open { .. }));
    *opening.next().expect("an opening") = Call::Open { c: 30_000 };
    auction_after(&written(&calls))
}

/// The auction of the stated games after a second round, down to 19,000, in which 2, 3 and 4 stay and plant 1 falls to
/// 800,000 as it lodged: 1,050,000 are left, which covers 17,500.
fn standing_at_19_000() -> Auction {
    let mut auction = standing_at_20_000();
    assert_eq!(auction.open(19_000), Ok(()));
    for stays in [2, 3, 4] {
        assert_eq!(auction.offer(stays, &[], &[]), Ok(()));
    }
    let closing = auction.close().expect("a round is open");
    assert_eq!(closing.excess, 30_000);
    auction
}

fn forced(outcome: u64, first_move: Move) -> Result<Forced, u8> {
    Ok(Forced {
        outcome,
        first_move,
    })
}

/// The outcome of one play.
fn outcome(auction: &Auction, first: u64, second: u64, moves: &[(u64, Move)]) -> u64 {
    let (prices, play): (Vec<u64>, Vec<Move>) = moves.iter().copied().unzip();
    let game = auction.game(first, second, &prices).expect("a game");
    game.outcomes()[&play]
}

/// The C call on each stated game: its number, and every byte of the buffer and beside it.
#[test]
fn stated_games() {
    for (asked, answer) in questions() {
        let expected = lend(asked.buffer, |buffer| match answer {
            Ok(forced) => {
                buffer[0] = forced.first_move.byte();
                forced.outcome
            }
            Err(refusal) => host_number(Err(refusal)),
        });
        assert_eq!(asked.ask(&who_can_force), expected, "{asked:?}");
    }
}

#[test]
fn bytes_of_the_moves() {
    assert_eq!([Keep, Withdraw].map(Move::byte), [0, 1]);
}

/// "its last C is the standing price": the prices go to one less, and the outcome is it if no listed
/// one is covered.
#[test]
fn standing_price() {
    let [first, second] = [standing_at_20_000(), standing_at_19_000()];
    assert_eq!(first.who_can_force(2, 3, &[19_999]), forced(19_999, Keep));
    assert_eq!(first.who_can_force(2, 3, &[20_000]), Err(NO_SUCH_GAME));
    assert_eq!(second.who_can_force(2, 3, &[18_999]), forced(18_999, Keep));
    assert_eq!(second.who_can_force(2, 3, &[19_000]), Err(NO_SUCH_GAME));
    assert_eq!(first.who_can_force(2, 3, &[12_499]), forced(20_000, Keep));
    assert_eq!(second.who_can_force(2, 3, &[17_499]), forced(19_000, Keep));
}

/// What was withdrawn in closed rounds is gone, as offered and as lodged.
#[test]
fn after_two_rounds() {
    let auction = standing_at_19_000();
    let prices = [18_000, 17_500];
    assert_eq!(
        auction.who_can_force(2, 3, &prices),
        forced(18_000, Withdraw)
    );
    // Without 3 there are 1,010,000, and 1,050,000 are demanded at 17,500.
    assert_eq!(
        auction.who_can_force(3, 2, &prices),
        forced(18_000, Withdraw)
    );
    assert_eq!(auction.who_can_force(4, 2, &prices), forced(17_500, Keep));
}

/// "1 to 10 strictly falling prices from the floor".
#[test]
fn floor() {
    let auction = standing_at_20_000();
    assert_eq!(auction.who_can_force(2, 3, &[10_000]), forced(20_000, Keep));
    assert_eq!(auction.who_can_force(2, 3, &[9_999]), Err(NO_SUCH_GAME));
    assert_eq!(auction.settings().demand(10_000), 1_200_000);
}

/// "the two move in turn, one move a price, the first developer beginning", and "one at 0 can only
/// keep": after its withdrawal, and from the start.
#[test]
fn legal_moves() {
    let auction = standing_at_20_000();
    let game = auction.game(2, 3, TEN).expect("a game");
    let both = [Keep, Withdraw];
    assert_eq!(game.legal(&[]), both);
    assert_eq!(game.legal(&[Withdraw]), both);
    assert_eq!(game.legal(&[Withdraw, Keep]), [Keep]);
    assert_eq!(game.legal(&[Keep, Withdraw]), both);
    assert_eq!(game.legal(&[Keep, Withdraw, Keep]), [Keep]);
    assert_eq!(game.legal(&[Keep, Keep, Withdraw]), both);
    let game = auction.game(5, 3, TEN).expect("a game");
    assert_eq!(game.legal(&[]), [Keep]);
    assert_eq!(game.legal(&[Keep]), both);
    assert_eq!(game.legal(&[Keep, Keep]), [Keep]);
    let game = auction.game(2, 6, TEN).expect("a game");
    assert_eq!(game.legal(&[Keep]), [Keep]);
    assert_eq!(game.legal(&[Keep, Keep]), both);
}

/// In ten prices each has five of them for its withdrawal, or makes none; at 0 there is one play.
#[test]
fn plays() {
    let auction = standing_at_20_000();
    let plays = |first, second, prices| {
        let game = auction.game(first, second, prices).expect("a game");
        game.outcomes().len()
    };
    assert_eq!(plays(2, 3, TEN), 36);
    assert_eq!(plays(5, 3, TEN), 6);
    assert_eq!(plays(2, 6, TEN), 6);
    assert_eq!(plays(5, 6, TEN), 1);
    assert_eq!(plays(2, 3, &TEN[..3]), 6);
    assert_eq!(plays(2, 3, &TEN[..1]), 2);
}

/// "withdraws to 0 at that price": the supply there still has it, that below has not.
#[test]
fn below_the_withdrawal() {
    let auction = standing_at_20_000();
    let plays = [
        ([Keep, Keep, Keep], 17_000),
        ([Withdraw, Keep, Keep], 19_000),
        ([Keep, Keep, Withdraw], 17_000),
        // Without 3, 18,000 and 17,000 are covered; without 2 and 3 nothing is.
        ([Keep, Withdraw, Keep], 17_000),
        ([Withdraw, Withdraw, Keep], 19_000),
        ([Keep, Withdraw, Withdraw], 17_000),
    ];
    for (play, expected) in plays {
        let moves: Vec<_> = std::iter::zip([19_000, 18_000, 17_000], play).collect();
        assert_eq!(outcome(&auction, 2, 3, &moves), expected, "{play:?}");
    }
}

/// Both withdrawals count below the lower of their prices. 955,000, 960,000, 965,000 and 970,000 are
/// demanded; without 2 and 3 there are 960,000.
#[test]
fn both_withdrawn() {
    let auction = standing_at_30_000();
    let prices = [29_000, 28_000, 27_000, 26_000];
    let plays = [
        ([Withdraw, Withdraw, Keep, Keep], 28_000),
        ([Keep, Withdraw, Withdraw, Keep], 27_000),
        ([Withdraw, Keep, Keep, Withdraw], 26_000),
        ([Withdraw, Keep, Keep, Keep], 26_000),
        ([Keep, Withdraw, Keep, Keep], 26_000),
    ];
    for (play, expected) in plays {
        let moves: Vec<_> = std::iter::zip(prices, play).collect();
        assert_eq!(outcome(&auction, 2, 3, &moves), expected, "{play:?}");
    }
    // So the second keeps, and then the first can do nothing.
    assert_eq!(auction.who_can_force(2, 3, &prices), forced(26_000, Keep));
    let game = auction.game(2, 3, &prices).expect("a game");
    assert_eq!(game.value(&[Withdraw, Withdraw]), 28_000);
}

/// A project's quantity is the greatest of its developers': 4 moves nothing, 3 all above 60,000.
#[test]
fn partners() {
    let auction = standing_at_20_000();
    let withdraws = |first, prices: [u64; 2]| {
        let moves: Vec<_> = std::iter::zip(prices, [Withdraw, Keep]).collect();
        outcome(&auction, first, 2, &moves)
    };
    assert_eq!(withdraws(4, [19_000, 12_500]), 12_500);
    assert_eq!(withdraws(3, [19_000, 14_500]), 14_500);
    assert_eq!(withdraws(3, [19_000, 14_499]), 19_000);
}

/// "All others keep theirs, and no lodged step is applied": the list of plant 1 changes no game, and
/// nor does that nobody makes an offer.
#[test]
fn nothing_lodged_is_applied() {
    let without_list: Vec<Call> = between_rounds()
        .into_iter()
        .filter(|call| !matches!(call, Call::Lodge { .. }))
        .collect();
    let without_list = auction_after(&written(&without_list));
    let auction = standing_at_20_000();
    assert_ne!(auction.developers()[&1], without_list.developers()[&1]);
    for (first, second) in [(2, 3), (3, 2), (4, 5), (6, 2)] {
        let games = [&auction, &without_list].map(|auction| auction.game(first, second, TEN));
        let [game, other] = games.map(|game| game.expect("a game"));
        assert_eq!(game.outcomes(), other.outcomes());
    }
}

/// "The first wants it high, the second low": who begins decides.
#[test]
fn high_and_low() {
    let auction = standing_at_20_000();
    let prices = [16_000, 15_000, 14_000, 13_000];
    assert_eq!(
        auction.who_can_force(2, 3, &prices),
        forced(16_000, Withdraw)
    );
    // 2 keeps; withdrawn at 16,000, 3 leaves 14,000 uncovered, and at 14,000 only 13,000.
    assert_eq!(
        auction.who_can_force(3, 2, &prices),
        forced(15_000, Withdraw)
    );
}

/// "keeping is preferred when equal": 3 may withdraw as well at 19,000 as at 15,000.
#[test]
fn keeping_when_equal() {
    let auction = standing_at_20_000();
    let game = auction.game(3, 2, TEN).expect("a game");
    assert_eq!(game.value(&[Keep]), 14_500);
    assert_eq!(game.value(&[Withdraw]), 14_500);
    assert_eq!(game.value(&[Keep, Keep, Keep, Keep]), 14_500);
    assert_eq!(game.value(&[Keep, Keep, Keep, Keep, Keep]), 14_000);
    assert_eq!(auction.who_can_force(3, 2, TEN), forced(14_500, Keep));
}

/// On generated games of up to 4 prices, and some of 5: move by move as by all strategies, which agree
/// on what the one can force and the other can hold it to.
#[test]
fn strategies_and_minimax() {
    let mut by_prices = [0; MOST_PRICES_TRIED + 2];
    for (asked, game) in games() {
        let prices = asked.question.prices.len();
        let few = prices == MOST_PRICES_TRIED + 1 && by_prices[prices] < 20;
        if prices <= MOST_PRICES_TRIED || few {
            by_prices[prices] += 1;
            assert_eq!(game.by_strategies(), game.by_minimax());
        }
    }
    assert!(by_prices[1..].iter().all(|&n| n >= 20), "{by_prices:?}");
}

/// On generated games: no withdrawal lowers the outcome, so the first can do no better than to
/// withdraw at once, the second no better than to keep.
#[test]
fn withdrawals_lower_nothing() {
    for (_, game) in games() {
        for (play, outcome) in game.outcomes() {
            for at in 0..play.len() {
                let mut kept = play.clone();
                kept[at] = Keep;
                assert!(game.outcomes()[&kept] <= *outcome);
            }
        }
        let longest = game.outcomes().keys().next().expect("a play").len();
        let first = *game.legal(&[]).last().expect("a move");
        let at_once = [vec![first], vec![Keep; longest - 1]].concat();
        assert_eq!(game.forced().outcome, game.outcomes()[&at_once]);
    }
}

/// On generated games: outcomes by quantities that are counted here, price by price.
#[test]
fn outcomes_by_quantities() {
    for (asked, game) in games().take(500) {
        let auction = auction_after(&asked.question.record);
        for (play, outcome) in game.outcomes() {
            let covered = |at: &usize| {
                let supply = auction.sum_of_greatest(|developer: &Developer| {
                    let rival = match u64::from(developer.number) {
                        number if number == asked.question.first => Some(0),
                        number if number == asked.question.second => Some(1),
                        _ => None,
                    };
                    // Its moves before this price are each second one.
                    let mut before = play[..*at].iter().skip(rival.unwrap_or(*at)).step_by(2);
                    let withdrew = rival.is_some() && before.any(|made| *made == Withdraw);
                    if withdrew {
                        0
                    } else {
                        developer.quantity
                    }
                });
                supply >= auction.settings().demand(asked.question.prices[*at])
            };
            let lowest = (0..play.len()).rev().find(covered);
            let expected = lowest.map(|at| asked.question.prices[at]);
            assert_eq!(expected.or(auction.last_c()), Some(*outcome));
        }
    }
}

/// On generated questions: 2 unless the auction is between rounds, then 17 if any cause of it is there,
/// then 11 if the buffer is empty.
#[test]
fn first_failing_check_answers() {
    for asked in ASKED.iter() {
        let auction = auction_after(&asked.question.record);
        let expected = if *auction.phase() != Phase::Between {
            Some(NOT_IN_THIS_PHASE)
        } else if !asked.causes().is_empty() {
            Some(NO_SUCH_GAME)
        } else if asked.question.buffer == 0 {
            Some(BUFFER_TOO_SHORT)
        } else {
            None
        };
        assert_eq!(asked.refused(), expected, "{:?}", asked.question);
    }
}

/// Settlings and malformed lines change nothing, wherever they stand in the record.
#[test]
fn lines_that_change_nothing() {
    let settling = write_call(&Call::Settle { limit: 65_536 });
    let lines: [&[u8]; 3] = [&settling, b"", b"0g"];
    let calls = between_rounds();
    for place in 0..=calls.len() {
        let [before, behind] = [&calls[..place], &calls[place..]].map(written);
        let record = [before, lines.join(&b'\n'), b"\n".to_vec(), behind].concat();
        let mut first_move = [0xEE; 2];
        let outcome = who_can_force(&record, 2, 3, TEN, &mut first_move);
        assert_eq!((outcome, first_move), (19_000, [1, 0xEE]));
    }
}

/// "The auction is unchanged": the next round opens as without the question.
#[test]
fn auction_unchanged() {
    let (mut auction, untouched) = (standing_at_20_000(), standing_at_20_000());
    assert!(auction.who_can_force(2, 3, TEN).is_ok());
    assert_eq!(auction, untouched);
    assert!(make(&mut auction, &Call::Open { c: 19_999 }).is_ok());
}
