//! The calls of the engine's program `direct_calls`, made by the independent implementation: a line
//! a call, with its numbers, and what the program prints for it.

use crate::model::auction::Auction;
use crate::model::settling::Settlement;
pub(crate) use lists::{FALLS, LEVELS, PRICES};

#[path = "../../../../crates/direct_calls/src/lists.rt"]
mod lists;

/// What is printed for the lines: a call's kind and number and, for a settling, all of its answer
/// and the lent buffer.
pub fn printed(input: &str) -> String {
    let mut auction = Auction::new();
    let lines = input.lines().map(numbers);
    lines.map(|line| make(&mut auction, &line)).collect()
}

/// The numbers of a line, a comma behind each but the last; what is no digit is passed over.
fn numbers(line: &str) -> Vec<u64> {
    let digits = |part: &str| part.replace(|c: char| !c.is_ascii_digit(), "");
    let parts = line.split(',').map(digits);
    parts.map_while(|digits| digits.parse().ok()).collect()
}

/// Makes a line's call: the kind of its frame and its numbers, for a list how many of the first ones. A
/// registration with an agent behind its levels is that of frame 08. 7 is a fresh auction; the program
/// has no line for a lodging or a cancellation.
pub(crate) fn make(auction: &mut Auction, line: &[u64]) -> String {
    match *line {
        [1, ce, d, m1, m2, a] => answered(1, auction.set_up(ce, d, m1, m2, a)),
        [2, project, developer, kind, n] => {
            let levels = first(&LEVELS, n);
            let [project, developer, kind] = [project, developer, kind].map(byte);
            answered(2, auction.register(project, developer, kind, 0, 0, levels))
        }
        [2, project, developer, kind, n, agent] => {
            let levels = first(&LEVELS, n);
            let [project, developer, kind, agent] = [project, developer, kind, agent].map(byte);
            let answer = auction.register_for(project, developer, kind, agent, 0, 0, levels);
            answered(8, answer)
        }
        [3, c] => answered(3, auction.open(word(c))),
        [4, developer, n, m] => {
            let (prices, levels) = (first(&PRICES, n), first(&FALLS, m));
            answered(4, auction.offer(byte(developer), prices, levels))
        }
        [5] => answered(5, auction.close().map(|_closing| ())),
        [6, limit, lent] => settle(auction, limit, lent),
        [7] => {
            *auction = Auction::new();
            String::new()
        }
        [] => String::new(),
        _ => panic!("no call: {line:?}"),
    }
}

fn byte(number: u64) -> u8 {
    number.try_into().expect("a number of 8 bits")
}

fn word(number: u64) -> u32 {
    number.try_into().expect("a number of 32 bits")
}

fn first(list: &[u32], n: u64) -> &[u32] {
    &list[..n as usize]
}

fn answered(kind: u8, answer: Result<(), u8>) -> String {
    format!("{kind} {}\n", answer.err().unwrap_or(0))
}

/// Settles with the first `lent` bytes of a buffer of 200.
fn settle(auction: &Auction, limit: u64, lent: u64) -> String {
    let mut buffer = [0xEE; 200];
    let awards = &mut buffer[..lent as usize];
    let answer = match auction.settle(limit, awards) {
        Ok(settlement) => settled(&settlement),
        Err(number) => format!("6 {number} 0 0 0 0 0 0"),
    };
    let bytes: String = awards.iter().map(|byte| format!("{byte:02x}")).collect();
    format!("{answer} {bytes}\n")
}

fn settled(settlement: &Settlement) -> String {
    let Settlement {
        price,
        demand,
        total,
        choices,
        covering,
        awards,
        ..
    } = settlement;
    let records = awards.len();
    format!("6 0 {price} {demand} {total} {choices} {covering} {records}")
}
