//! Frames by bytes: what is a line, what is a frame, and which calls frames make.

use independent::generators::records::with_agent;
use independent::generators::sample::{RECORD, REPLY};
use independent::model::replay::{lines, next_line, read_call, replay, write_call, Call};

/// The sample's lines up to and with its opening; registrations stand second to fifth.
const REGISTERED: usize = 5;
const OPENED: usize = 6;

/// The reply to one more line behind the first so many of the sample.
fn reply_behind(count: usize, line: &str) -> String {
    let mut record: Vec<&str> = RECORD.lines().take(count).collect();
    record.push(line);
    let replies = replay((record.join("\n") + "\n").as_bytes());
    let replies = String::from_utf8(replies).expect("digits");
    let lines: Vec<&str> = replies.lines().collect();
    assert_eq!(lines.len(), count + 1);
    assert!(REPLY
        .lines()
        .zip(&lines[..count])
        .all(|(expected, reply)| expected == *reply));
    lines[count].to_owned()
}

#[test]
fn lines_of_records() {
    for (record, expected) in [
        (&b""[..], &[][..]),
        (b"\n", &[&b""[..]]),
        (b"\n\n", &[b"", b""]),
        (b"05", &[b"05"]),
        (b"05\n", &[b"05"]),
        (b"05\n\n", &[b"05", b""]),
        (b"\n05", &[b"", b"05"]),
        (b"0\r\n5", &[b"0\r", b"5"]),
    ] {
        assert_eq!(lines(record), expected);
        let malformed = expected.iter().filter(|line| **line != b"05");
        let replied = replay(record);
        let twelve = lines(&replied)
            .into_iter()
            .filter(|reply| *reply == b"FF0C");
        assert_eq!(twelve.count(), malformed.count());
    }
}

/// From any position, also inside a line, at its 0A, at the end and past it.
#[test]
fn line_at_a_position() {
    let record = b"0A\n\n05";
    let expected = [&b"0A"[..], b"A", b"", b"", b"05", b"5", b"", b"", b""];
    for (position, line) in expected.into_iter().enumerate() {
        assert_eq!(next_line(record, position), line, "position {position}");
    }
    assert_eq!(next_line(record, usize::MAX), b"");
    assert_eq!(next_line(b"", 0), b"");
}

#[test]
fn calls_of_the_sample() {
    let calls: Vec<Call> = lines(RECORD.as_bytes())
        .into_iter()
        .map(|line| read_call(line).expect("a frame"))
        .collect();
    assert_eq!(
        calls[0],
        Call::SetUp {
            ce: 20_000,
            d: 1_000,
            m1: 900,
            m2: 1_200,
            a: 40_000
        }
    );
    assert_eq!(
        calls[2],
        Call::Register {
            project: 2,
            developer: 2,
            kind: 2,
            agent: None,
            study: 400,
            day: 10,
            levels: vec![100, 200]
        }
    );
    assert_eq!(calls[5], Call::Open { c: 25_000 });
    assert_eq!(
        calls[6],
        Call::Offer {
            developer: 2,
            prices: vec![26_000],
            levels: vec![100]
        }
    );
    assert_eq!(calls[9], Call::Close);
    assert_eq!(calls[10], Call::Settle { limit: 100 });
    for (call, line) in calls.iter().zip(lines(RECORD.as_bytes())) {
        assert_eq!(write_call(call), line);
    }
}

/// The agent stands after the kind of plant; named or not, it is another call.
#[test]
fn calls_with_agents() {
    let without = lines(RECORD.as_bytes())[2];
    let call = read_call(without).expect("a frame");
    for agent in [0, 2, 3, 255] {
        let named = with_agent(call.clone(), Some(agent));
        let line = format!("08020202{agent:02X}000001900000000A0200000064000000C8");
        assert_eq!(read_call(line.as_bytes()), Some(named.clone()));
        assert_eq!(write_call(&named), line.as_bytes());
        assert_ne!(named, call);
    }
    assert_eq!(write_call(&call), without);
}

/// Fields hold all that their digits can say.
#[test]
fn widest_fields() {
    let widest = Call::SetUp {
        ce: 0xFFFF_FFFF,
        d: 0xFF_FFFF_FFFF,
        m1: 0xFF_FFFF_FFFF,
        m2: 0xFF_FFFF_FFFF,
        a: 0xFFFF_FFFF,
    };
    let line = format!("01{}", "F".repeat(46));
    assert_eq!(read_call(line.as_bytes()), Some(widest));
    let widest = Call::Register {
        project: 255,
        developer: 255,
        kind: 255,
        agent: None,
        study: u32::MAX,
        day: u32::MAX,
        levels: vec![u32::MAX],
    };
    let line = format!("02{}01FFFFFFFF", "F".repeat(22));
    assert_eq!(read_call(line.as_bytes()), Some(widest.clone()));
    let line = format!("08{}01FFFFFFFF", "F".repeat(24));
    let widest = with_agent(widest, Some(255));
    assert_eq!(read_call(line.as_bytes()), Some(widest));
    let widest = Call::Settle { limit: u32::MAX };
    assert_eq!(read_call(b"06FFFFFFFF"), Some(widest));
}

#[test]
fn malformed_lines() {
    let registration = "0203040200000000000000000100000096";
    let offer = "0402010000659000000064";
    let lodging = "0702010000659000000064";
    let registration_for = "080304020100000000000000000100000096";
    let mut malformed: Vec<String> = [
        "",
        "0",
        "0g",
        "5",
        " 05",
        "05 ",
        "05\r",
        "0505",
        "00",
        "07",
        "08",
        "0A",
        "10",
        "FF",
        "0a",
        "+5",
        "06",
        "060000006",
        "06000000640",
        "0600000g64",
        "06 0000064",
        "0600000\x0064",
        "03000061a8",
        "03000061A",
        "03000061A80",
        "0402",
        "040201",
        "0402010000659000000064FF",
        "0701",
        "070101",
        "0701010000659000000064FF",
        "0802010000659000000064",
        "0802",
        "0803040200000000000000000100000096",
        "02030402010000000000000000000100000096",
        "09",
        "090",
        "09020",
        "0902 ",
        "090201",
    ]
    .map(str::to_owned)
    .to_vec();
    for frame in [registration, offer, lodging, registration_for] {
        malformed.push(frame[..frame.len() - 1].to_owned());
        malformed.push(frame[..frame.len() - 8].to_owned());
        malformed.push(frame.to_owned() + "0");
        malformed.push(frame.to_owned() + "00000000");
        malformed.push(frame.to_owned() + &"0".repeat(160 - frame.len()));
        malformed.push(frame.to_owned() + &"0".repeat(161 - frame.len()));
    }
    for line in malformed {
        assert_eq!(reply_behind(OPENED, &line), "FF0C", "{line:?}");
    }
    for byte in (0..=255).filter(|byte| !b"0123456789ABCDEF\n".contains(byte)) {
        assert_eq!(replay(&[b'0', byte]), b"FF0C\n");
        assert_eq!(replay(&[b'0', b'5', byte]), b"FF0C\n");
        assert_eq!(
            replay(&[b"0600000", &[byte][..], b"64"].concat()),
            b"FF0C\n"
        );
    }
}

/// Counts that a line has room for get the call's refusal; 17 levels or 10 steps have none.
#[test]
fn counts() {
    for (count, reply) in [
        (0, "0204"),
        (1, "0200"),
        (8, "0200"),
        (9, "0204"),
        (16, "0204"),
        (17, "FF0C"),
    ] {
        let levels: String = (1..=count).map(|level| format!("{level:08X}")).collect();
        let line = format!("020505020000000000000000{count:02X}{levels}");
        assert_eq!(reply_behind(REGISTERED, &line), reply, "{count} levels");
        let line = format!("08050502090000000000000000{count:02X}{levels}");
        let reply = reply.replace("02", "08");
        assert_eq!(reply_behind(REGISTERED, &line), reply, "{count} levels");
    }
    for (count, reply) in [
        (0, "0400"),
        (1, "0407"),
        (8, "0407"),
        (9, "0406"),
        (10, "FF0C"),
    ] {
        let steps = (0..count).map(|step| format!("{:08X}{:08X}", 39_999 - step, 7));
        let steps: String = steps.collect();
        let line = format!("0402{count:02X}{steps}");
        assert_eq!(reply_behind(OPENED, &line), reply, "{count} steps");
        let line = format!("0701{count:02X}{steps}");
        let reply = reply.replace("04", "07");
        assert_eq!(reply_behind(REGISTERED, &line), reply, "{count} steps");
    }
    // The count says one item less or more than there are.
    let line = "02050502000000000000000002000000010000000200000003";
    assert_eq!(reply_behind(REGISTERED, line), "FF0C");
    assert_eq!(reply_behind(REGISTERED, &line[..42]), "0200");
    assert_eq!(reply_behind(REGISTERED, &line[..34]), "FF0C");
    assert_eq!(reply_behind(OPENED, "0402FF"), "FF0C");
}

/// A malformed line changes nothing, and the next is read.
#[test]
fn malformed_between() {
    let (record, reply) = (
        RECORD.replace('\n', "\n\nFF\n"),
        REPLY.replace('\n', "\nFF0C\nFF0C\n"),
    );
    assert_eq!(replay(record.as_bytes()), reply.as_bytes());
}

/// Refusals have the kind and the number alone.
#[test]
fn refusals() {
    for (line, reply) in [
        ("0100004E2000000003E8000000038400000004B00000270F", "0101"),
        ("02050502000000000000000001000000C8", "0202"),
        ("03000061A8", "0302"),
        ("040200", "0402"),
        ("05", "0502"),
        ("0600000064", "0602"),
        ("070100", "0702"),
        ("0805050205000000000000000001000000C8", "0802"),
        ("0902", "0902"),
    ] {
        assert_eq!(reply_behind(0, line), reply);
    }
    assert_eq!(reply_behind(11, "0600000003"), "060A");
    assert_eq!(reply_behind(11, "0600000000"), "060A");
    assert_eq!(reply_behind(11, "05"), "0502");
    assert_eq!(
        reply_behind(11, "06FFFFFFFF"),
        REPLY.lines().last().expect("a reply")
    );
}
