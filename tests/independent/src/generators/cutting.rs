//! Records with lines left out, and the rest of the replies.

use crate::model::auction::Auction;
use crate::model::replay::{lines, make, read_call, Call};
use std::collections::{BTreeMap, BTreeSet};

/// The places of the lines that an auction without the cancelled offers lacks (document 02, request
/// 7): each accepted offer that is cancelled, the cancellation, and the developer's own calls
/// between them.
pub fn cancelled(record: &[u8]) -> BTreeSet<usize> {
    let mut auction = Auction::new();
    let mut cut = BTreeSet::new();
    // Since the accepted offer that stands, the places of each developer's own calls.
    let mut own: BTreeMap<u8, Vec<usize>> = BTreeMap::new();
    for (place, line) in lines(record).into_iter().enumerate() {
        let Some(call) = read_call(line) else {
            continue;
        };
        let accepted = changes(&mut auction, &call);
        match call {
            Call::Offer { developer, .. } if accepted => {
                own.insert(developer, vec![place]);
            }
            Call::Cancel { developer } if accepted => {
                let places = own.remove(&developer);
                cut.extend(places.expect("an offer that stands"));
                cut.insert(place);
            }
            Call::Offer { developer, .. } | Call::Cancel { developer } => {
                own.entry(developer).or_default().push(place);
            }
            Call::Close if accepted => own.clear(),
            _ => (),
        }
    }
    cut
}

/// Makes the call; whether it is accepted. Settlings are not made: they change nothing.
fn changes(auction: &mut Auction, call: &Call) -> bool {
    !matches!(call, Call::Settle { .. }) && make(auction, call).is_ok()
}

/// The places of refused calls and malformed lines, by the replies to them.
pub fn refused(replies: &[u8]) -> BTreeSet<usize> {
    let replies = lines(replies).into_iter().enumerate();
    let refused = replies.filter(|(_, reply)| reply[2..4] != *b"00");
    refused.map(|(place, _)| place).collect()
}

/// The lines of a text but those at the places, each with its 0A.
pub fn without(text: &[u8], places: &BTreeSet<usize>) -> Vec<u8> {
    let lines = lines(text).into_iter().enumerate();
    let stay = lines.filter(|(place, _)| !places.contains(place));
    stay.flat_map(|(_, line)| [line, b"\n"].concat()).collect()
}
