//! The fixed records: each group meets the refusals that it is about, and no others.

use independent::generators::records::fixed;
use independent::model::replay::{lines, replay};
use std::collections::BTreeSet;

/// The refusals of each group, by kind and number.
const REFUSED: [(&str, &[&str]); 14] = [
    ("whole auctions", &["0203", "0302", "0305", "0407", "0502"]),
    (
        "phases",
        &[
            "0102", "0202", "0302", "0402", "0502", "0702", "0802", "0902",
        ],
    ),
    ("settings", &["0101", "0102"]),
    ("registrations", &["0203", "0204"]),
    ("openings", &["0302", "0305", "0309"]),
    ("offers", &["0403", "0406", "0407", "0408"]),
    ("limits", &["0602", "060A"]),
    ("closing prices", &[]),
    ("choices", &[]),
    ("developers", &[]),
    (
        "lodgings",
        &["0309", "060A", "0702", "0706", "0707", "070F"],
    ),
    (
        "cancellations",
        &[
            "0302", "0403", "0406", "0407", "0408", "0602", "0902", "0903", "0910",
        ],
    ),
    (
        "supply curves",
        &[
            "0302", "0402", "0406", "0407", "0408", "0502", "060A", "0910",
        ],
    ),
    ("participation", &["0802", "0803", "0804"]),
];

#[test]
fn refusals_by_group() {
    for ((name, records), (stated, refused)) in fixed::groups().into_iter().zip(REFUSED) {
        let met: BTreeSet<String> = records
            .iter()
            .flat_map(|record| refusals(&replay(record)))
            .collect();
        assert_eq!(name, stated);
        assert!(met.iter().eq(refused), "{name}: {met:?}");
    }
}

/// Kind and number of each refusal among the replies.
fn refusals(replies: &[u8]) -> Vec<String> {
    let replies = lines(replies).into_iter();
    let refused = replies.filter(|reply| &reply[2..4] != b"00");
    refused
        .map(|reply| String::from_utf8_lossy(&reply[..4]).into_owned())
        .collect()
}
