//! Sealed auctions with their awards, worked out by hand, and refused ones, each with its number.

use crate::model::sealed::{Awards, Offer, Sealed};

/// Ceiling, demand and offers; the length of the buffer; awards and what is left, or the refusal.
type Stated<'a> = ((u64, u64, &'a [Offer]), usize, Result<(&'a [u64], u64), u8>);

const fn offer(price: u64, quantity: u64, minimum: u64, age: u64) -> Offer {
    Offer {
        price,
        quantity,
        minimum,
        age,
    }
}

/// Taken in this order: the second, of the oldest group; the third and the fourth, alike in age and
/// price; the first.
pub const FOUR: &[Offer] = &[
    offer(500, 100, 10, 3),
    offer(400, 80, 80, 5),
    offer(300, 60, 20, 3),
    offer(300, 60, 1, 3),
];

const PAIR: &[Offer] = &[offer(7, 10, 10, 0), offer(7, 10, 10, 0)];
const OLD_AND_DEAR: &[Offer] = &[offer(1, 10, 1, 19), offer(1_000_000, 10, 1, 20)];
const GREATEST: Offer = offer(1_000_000, 1_000_000_000, 1_000_000_000, 20);
const LEAST: Offer = offer(1, 1, 1, 0);

const OUTCOMES: &[Stated] = &[
    ((500, 1_000, FOUR), 4, Ok((&[100, 80, 60, 60], 700))),
    ((501, 300, FOUR), 5, Ok((&[100, 80, 60, 60], 0))),
    ((500, 299, FOUR), 20, Ok((&[99, 80, 60, 60], 0))),
    // Exactly its minimum is left for the first, and one less.
    ((500, 210, FOUR), 4, Ok((&[10, 80, 60, 60], 0))),
    ((500, 209, FOUR), 4, Ok((&[0, 80, 60, 60], 9))),
    // The same for the third, and the next is tried.
    ((500, 100, FOUR), 4, Ok((&[0, 80, 20, 0], 0))),
    ((500, 99, FOUR), 4, Ok((&[0, 80, 0, 19], 0))),
    ((500, 80, FOUR), 4, Ok((&[0, 80, 0, 0], 0))),
    ((500, 79, FOUR), 4, Ok((&[0, 0, 60, 19], 0))),
    ((500, 1, FOUR), 4, Ok((&[0, 0, 0, 1], 0))),
    ((500, 0, FOUR), 4, Ok((&[0, 0, 0, 0], 0))),
    // Alike in age and price, so list order decides.
    ((7, 15, PAIR), 2, Ok((&[10, 0], 5))),
    ((7, 9, PAIR), 2, Ok((&[0, 0], 9))),
    // Age goes before price.
    ((1_000_000, 10, OLD_AND_DEAR), 2, Ok((&[0, 10], 0))),
    ((1_000_000, 11, OLD_AND_DEAR), 2, Ok((&[1, 10], 0))),
    // The ends of the bounds.
    ((1, 0, &[]), 0, Ok((&[], 0))),
    (
        (1_000_000, 100_000_000_000, &[]),
        3,
        Ok((&[], 100_000_000_000)),
    ),
    ((1, 1, &[LEAST]), 1, Ok((&[1], 0))),
    (
        (1, 5, &[LEAST; 16]),
        16,
        Ok((&[1, 1, 1, 1, 1, 0, 0, 0, 0, 0, 0, 0, 0, 0, 0, 0], 0)),
    ),
    (
        (1_000_000, 100_000_000_000, &[GREATEST; 16]),
        17,
        Ok((&[1_000_000_000; 16], 84_000_000_000)),
    ),
];

const REFUSED: &[Stated] = &[
    ((500, 300, &[LEAST; 17]), 17, Err(18)),
    ((500, 300, &[LEAST; 256]), 256, Err(18)),
    ((0, 300, &[]), 0, Err(18)),
    ((0, 300, FOUR), 4, Err(18)),
    ((1_000_001, 300, FOUR), 4, Err(18)),
    ((u64::MAX, 300, FOUR), 4, Err(18)),
    ((500, 100_000_000_001, FOUR), 4, Err(18)),
    ((500, u64::MAX, &[]), 0, Err(18)),
    ((500, 300, &[offer(0, 1, 1, 0)]), 1, Err(18)),
    ((1_000_000, 300, &[offer(1_000_001, 1, 1, 0)]), 1, Err(18)),
    ((500, 300, &[offer(1, 0, 1, 0)]), 1, Err(18)),
    ((500, 300, &[offer(1, 0, 0, 0)]), 1, Err(18)),
    ((500, 300, &[offer(1, 1_000_000_001, 1, 0)]), 1, Err(18)),
    ((500, 300, &[offer(1, 1, 0, 0)]), 1, Err(18)),
    ((500, 300, &[offer(1, 5, 6, 0)]), 1, Err(18)),
    ((500, 300, &[offer(1, 5, u64::MAX, 0)]), 1, Err(18)),
    ((500, 300, &[offer(1, 5, 5, 21)]), 1, Err(18)),
    ((500, 300, &[LEAST, offer(1, 5, 5, u64::MAX)]), 2, Err(18)),
    // 18 goes before 19, and both before the buffer.
    ((499, 300, FOUR), 4, Err(19)),
    ((1, 300, &[LEAST, offer(2, 1, 1, 0)]), 2, Err(19)),
    (
        (1, 300, &[offer(2, 1, 1, 0), offer(1, 1, 1, 21)]),
        2,
        Err(18),
    ),
    ((1, 300, &[offer(2, 1, 1, 0); 17]), 17, Err(18)),
    ((499, 300, FOUR), 3, Err(19)),
    ((499, 100_000_000_001, FOUR), 0, Err(18)),
    ((500, 300, FOUR), 3, Err(11)),
    ((500, 0, FOUR), 0, Err(11)),
];

/// All of them, with the length of the buffer and what the call has to answer.
pub fn auctions() -> Vec<(Sealed, usize, Awards)> {
    let stated = OUTCOMES.iter().chain(REFUSED).map(|stated| {
        let &((ceiling, demand, offers), buffer, awards) = stated;
        let awards = awards.map(|(awards, left)| (awards.to_vec(), left));
        (Sealed::new(ceiling, demand, offers), buffer, awards)
    });
    let unequal = (0..4).flat_map(|list| [0, 3, 5].map(|length| unequal(list, length)));
    stated.chain(unequal).collect()
}

/// One of the four lists of another length.
fn unequal(list: usize, length: usize) -> (Sealed, usize, Awards) {
    let mut auction = Sealed::new(500, 300, FOUR);
    auction.lists[list].resize(length, 1);
    (auction, 5, Err(18))
}
