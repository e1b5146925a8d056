//! The program `trace` (docs/FORMAT.md): each reply and, below it, what it says in words and
//! decimal numbers, an item a line; above that to a closing, what a preview says, and below it the
//! supply curve.

use crate::model::auction::{Auction, Closing, Preview};
use crate::model::curve::Entry;
use crate::model::replay::{answer, lines, read_call, reply_of, Accepted, Call, PROGRAM_BYTES};
use crate::model::settling::Settlement;

/// What the program prints for its standard input: as much as there is, unless the record is
/// too long.
pub fn traced(input: &[u8]) -> Vec<u8> {
    traced_with_settlement(input).0
}

/// The same, and the record's settlement if it settles; a further settling gives it again.
pub fn traced_with_settlement(input: &[u8]) -> (Vec<u8>, Option<Settlement>) {
    if input.len() > PROGRAM_BYTES {
        return (b"FF0B\n".to_vec(), None);
    }
    let mut auction = Auction::new();
    let (mut text, mut settlement) = (Vec::new(), None);
    for line in lines(input) {
        if read_call(line) == Some(Call::Close) {
            text.extend(previewed(&auction).into_bytes());
        }
        let (kind, answer) = answer(&mut auction, line);
        text.extend(reply_of(kind, &answer));
        text.extend(words(&auction, &answer).into_bytes());
        if let Ok(Accepted::Settled(settled)) = answer {
            settlement = Some(settled);
        }
    }
    (text, settlement)
}

/// What stands above the reply to a closing: the preview's number, excess, remainder and whether the
/// auction would then be closed (document 02, request 6).
fn previewed(auction: &Auction) -> String {
    match auction.preview() {
        Ok(Preview { closing, closed }) => {
            let Closing { excess, remainder } = closing;
            format!("preview 0 {excess} {remainder} {}\n", u8::from(closed))
        }
        Err(number) => format!("preview {number} 0 0 0\n"),
    }
}

/// What stands below a reply: nothing below a refusal and the other calls.
fn words(auction: &Auction, answer: &Result<Accepted, u8>) -> String {
    match answer {
        Ok(Accepted::Closed(closing)) => {
            let Closing { excess, remainder } = closing;
            format!("excess {excess}\nremainder {remainder}\n") + &drawn(&auction.supply_curve())
        }
        Ok(Accepted::Settled(settlement)) => settled(settlement),
        Ok(Accepted::Plain) | Err(_) => String::new(),
    }
}

/// The supply curve, which no reply says (document 02, request 9).
fn drawn(curve: &[Entry]) -> String {
    let line = |entry: &Entry| format!("curve {} {} {}\n", entry.price, entry.before, entry.after);
    curve.iter().map(line).collect()
}

/// The settlement's numbers, then its awards by rising project, then how many complete choices
/// were not set aside, which no reply says, the remainder, the second price with its mark, and
/// whether participation is insufficient with the price paid to existing plants.
fn settled(settlement: &Settlement) -> String {
    let mut text = [
        ("price", settlement.price),
        ("demand", settlement.demand),
        ("total", settlement.total),
        ("choices", settlement.choices),
        ("covering", settlement.covering),
    ]
    .map(|(name, number)| format!("{name} {number}\n"))
    .concat();
    for award in &settlement.awards {
        let (project, developer, quantity) = (award.project, award.developer, award.quantity);
        text += &format!("award {project} {developer} {quantity}\n");
    }
    let (kept, remainder) = (settlement.kept.len(), settlement.remainder);
    let (second, short) = (settlement.second, u8::from(settlement.short));
    let (insufficient, paid) = (u8::from(settlement.insufficient), settlement.paid);
    text += &format!("kept {kept}\nremainder {remainder}\nsecond {second}\nshort {short}\n");
    text + &format!("insufficient {insufficient}\npaid {paid}\n")
}
