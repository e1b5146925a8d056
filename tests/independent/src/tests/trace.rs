//! What the program `trace` prints, written out.

use independent::generators::records::edges;
use independent::generators::sample::{LODGED, PARTICIPATION, RECORD, TRACE};
use independent::model::replay::{lines, replay, PROGRAM_BYTES};
use independent::model::trace::traced;

#[test]
fn sample() {
    assert_eq!(traced(RECORD.as_bytes()), TRACE.as_bytes());
}

/// Without its words a trace is the replies.
#[test]
fn replies_stay() {
    for record in edges::reply_sizes() {
        let trace = traced(&record);
        let replies = lines(&trace)
            .into_iter()
            .filter(|line| !line[0].is_ascii_lowercase());
        assert_eq!(replies.collect::<Vec<_>>(), lines(&replay(&record)));
    }
}

const SET_UP: &str = "0100004E2000000003E8000000038400000004B000009C40\n";

/// Rounds that close at CE, where Dem is D, with as much supply and with more.
#[test]
fn excess_0_and_above() {
    for (level, excess) in [(1_000, 0), (1_001, 1), (1_200, 200)] {
        let plant = format!("02010101000000000000000001{level:08X}");
        let record = format!("{SET_UP}{plant}\n0300004E20\n05\n");
        let reply = format!("0500{excess:016X}00000000\nexcess {excess}\nremainder 0\n");
        let trace = format!("0100\n0200\n0300\npreview 0 {excess} 0 1\n{reply}");
        assert_eq!(traced(record.as_bytes()), trace.as_bytes());
    }
}

/// A plant of 951 covers 29,999, where the remainder is 19,900, and one of 950 leaves at 30,001,
/// where it is 100: a closing has that at C, a settling that at P.
#[test]
fn remainders() {
    let record =
        format!("{SET_UP}02010101000000000000000001000003B7\n030000752F\n05\n0600000001\n");
    let trace = "0100\n0200\n0300\npreview 0 0 19900 1\n\
        0500000000000000000000004DBC\nexcess 0\nremainder 19900\n\
        06000000752F00000003B700000003B70000000100000001010101000003B700004DBC0000752F00000000752F\n\
        price 29999\ndemand 951\ntotal 951\nchoices 1\ncovering 1\naward 1 1 951\nkept 1\n\
        remainder 19900\nsecond 29999\nshort 0\ninsufficient 0\npaid 29999\n";
    assert_eq!(traced(record.as_bytes()), trace.as_bytes());
    let record = format!(
        "{SET_UP}02010102000000000000000001000003B6\n030000752F\n04010100007531\
         00000000\n05\n0600000002\n"
    );
    let trace = "0100\n0200\n0300\n0400\npreview 0 -951 19900 1\n\
        0500FFFFFFFFFFFFFC4900004DBC\nexcess -951\nremainder 19900\ncurve 30001 950 0\n\
        06000000753100000003B600000003B60000000200000001010101000003B60000006400007531000000007531\n\
        price 30001\ndemand 950\ntotal 950\nchoices 2\ncovering 1\naward 1 1 950\nkept 1\n\
        remainder 100\nsecond 30001\nshort 0\ninsufficient 0\npaid 30001\n";
    assert_eq!(traced(record.as_bytes()), trace.as_bytes());
}

/// An excess of 1,000 leaves the auction open, one of 999 or C at the floor closes it; the lodged
/// step at C leaves.
#[test]
fn previews() {
    let plants = "02010101000000000000000001000003E7\n02020201000000000000000001000003E8\n";
    for (lodging, c, preview) in [
        ("070100", 20_000, "preview 0 999 0 1"),
        ("0701010000283C00000000", 20_000, "preview 0 999 0 1"),
        (
            "0701010000283C00000000",
            40_000 - 1,
            "preview 0 1098 19900 0",
        ),
        ("07010100009C3F00000000", 40_000 - 1, "preview 0 99 19900 1"),
        ("070100", 10_000, "preview 0 799 0 1"),
        ("0701010000271000000000", 10_000, "preview 0 -200 0 1"),
    ] {
        let record = format!("{SET_UP}05\n{plants}{lodging}\n03{c:08X}\n05\n05\n");
        let trace = String::from_utf8(traced(record.as_bytes())).expect("words");
        let previews: Vec<&str> = trace.lines().filter(|l| l.starts_with('p')).collect();
        let refused = "preview 2 0 0 0";
        assert_eq!(previews, [refused, preview, refused], "{lodging} {c}");
    }
}

/// The last words of the records with lodged lists.
#[test]
fn second_prices() {
    let ends = [(30_000, 0), (40_000, 1), (26_000, 0)];
    for ((record, _), (second, short)) in LODGED.into_iter().zip(ends) {
        let trace = traced(record.as_bytes());
        let end =
            format!("\nremainder 0\nsecond {second}\nshort {short}\ninsufficient 0\npaid 26000\n");
        assert!(trace.ends_with(end.as_bytes()));
    }
}

/// The last words of the records with agents.
#[test]
fn participation() {
    let ends = [
        (1, 22_000),
        (1, 19_000),
        (1, 22_000),
        (0, 26_000),
        (0, 25_000),
        (1, 22_000),
    ];
    for ((record, _), (insufficient, paid)) in PARTICIPATION.into_iter().zip(ends) {
        let trace = traced(record.as_bytes());
        let end = format!("\nshort 0\ninsufficient {insufficient}\npaid {paid}\n");
        assert!(trace.ends_with(end.as_bytes()), "{record}");
    }
}

#[test]
fn refusals_and_limits() {
    assert_eq!(traced(b""), b"");
    assert_eq!(
        traced(b"05\n0600000064\n\n0505\n"),
        b"preview 2 0 0 0\n0502\n0602\nFF0C\nFF0C\n"
    );
    assert_eq!(
        traced(&vec![b'\n'; PROGRAM_BYTES]),
        b"FF0C\n".repeat(PROGRAM_BYTES)
    );
    assert_eq!(traced(&vec![b'\n'; PROGRAM_BYTES + 1]), b"FF0B\n");
    let closed_again = RECORD.to_owned() + "05\n";
    assert_eq!(
        traced(closed_again.as_bytes()),
        (TRACE.to_owned() + "preview 2 0 0 0\n0502\n").as_bytes()
    );
}
