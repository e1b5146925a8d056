//! Calls to frames (document 02, request 2): which calls are writable, and what each gives.

use super::RECORDS;
use independent::generators::calls::{behaviour, buffer, call, kinds};
use independent::generators::random::Random;
use independent::generators::sample::RECORD;
use independent::model::replay::{
    causes, fields, frame, lines, read_call, write_frame, Cause, Fields,
};
use std::collections::BTreeMap;

fn of(kind: u8, numbers: &[u64], lists: &[&[u64]]) -> Fields {
    Fields {
        kind,
        numbers: numbers.to_vec(),
        lists: lists.iter().map(|list| list.to_vec()).collect(),
    }
}

fn text(fields: &Fields) -> String {
    let frame = frame(fields).expect("a writable call");
    String::from_utf8(frame).expect("digits")
}

/// The sample record, call by call.
#[test]
fn sample() {
    let calls = [
        of(1, &[20_000, 1_000, 900, 1_200, 40_000], &[]),
        of(2, &[1, 1, 1, 0, 0], &[&[820]]),
        of(2, &[2, 2, 2, 400, 10], &[&[100, 200]]),
        of(2, &[2, 3, 2, 500, 20], &[&[200]]),
        of(2, &[3, 4, 2, 0, 0], &[&[150]]),
        of(3, &[25_000], &[]),
        of(4, &[2], &[&[26_000], &[100]]),
        of(4, &[3], &[&[26_000], &[0]]),
        of(4, &[4], &[&[26_000], &[0]]),
        of(5, &[], &[]),
        of(6, &[100], &[]),
    ];
    assert_eq!(calls.map(|call| text(&call)).concat(), RECORD);
}

/// What fits is written, whatever the auction will say to it.
#[test]
fn refused_calls_are_writable() {
    let plant = of(2, &[0, 33, 77, 0, 0], &[&[0, 0]]);
    assert_eq!(text(&plant), "0200214D0000000000000000020000000000000000\n");
    let offer = of(4, &[0], &[&[0], &[0]]);
    assert_eq!(text(&offer), "0400010000000000000000\n");
    assert_eq!(text(&of(1, &[0; 5], &[])), format!("01{:046}\n", 0));
    assert_eq!(text(&of(2, &[0; 5], &[&[]])), format!("02{:024}\n", 0));
    assert_eq!(text(&of(4, &[0], &[&[], &[]])), "040000\n");
    assert_eq!(text(&of(7, &[0], &[&[], &[]])), "070000\n");
    assert_eq!(text(&of(8, &[0; 6], &[&[]])), format!("08{:026}\n", 0));
    assert_eq!(text(&of(9, &[0], &[])), "0900\n");
}

/// Each field holds the highest number of its width and none above; widths as the paper has them.
#[test]
fn widths() {
    for (sound, widths) in [
        (of(1, &[0; 5], &[]), &[8, 10, 10, 10, 8][..]),
        (of(2, &[0; 5], &[&[0, 0]]), &[2, 2, 2, 8, 8, 8, 8]),
        (of(3, &[0], &[]), &[8]),
        (of(4, &[0], &[&[0, 0], &[0, 0]]), &[2, 8, 8, 8, 8]),
        (of(6, &[0], &[]), &[8]),
        (of(7, &[0], &[&[0, 0], &[0, 0]]), &[2, 8, 8, 8, 8]),
        (of(8, &[0; 6], &[&[0, 0]]), &[2, 2, 2, 2, 8, 8, 8, 8]),
        (of(9, &[0], &[]), &[2]),
    ] {
        for (place, width) in widths.iter().enumerate() {
            let with = |number: u64| {
                let mut call = sound.clone();
                let items = call.lists.iter_mut().flatten();
                *call.numbers.iter_mut().chain(items).nth(place).unwrap() = number;
                call
            };
            let above = 1u64 << (4 * width);
            assert!(text(&with(above - 1)).contains(&"F".repeat(*width)));
            for number in [above, above + 1, above | 1 << 63, u64::MAX] {
                let call = with(number);
                assert_eq!(causes(&call), [Cause::Field], "{call:?}");
                assert_eq!(frame(&call), Err(14));
            }
        }
    }
}

/// 16 levels are 154 characters, with an agent 156, and 9 steps 150; one more makes 162, 164 and 166.
#[test]
fn lengths() {
    for count in 0..=300 {
        let list = &vec![1; count][..];
        for (call, head, item, most) in [
            (of(2, &[1; 5], &[list]), 26, 8, 16),
            (of(4, &[1], &[list, list]), 6, 16, 9),
            (of(7, &[1], &[list, list]), 6, 16, 9),
            (of(8, &[1; 6], &[list]), 28, 8, 16),
        ] {
            if count <= most {
                assert_eq!(text(&call).len(), head + item * count + 1);
            } else {
                assert!(causes(&call).contains(&Cause::Length));
                assert_eq!(frame(&call), Err(14));
            }
        }
    }
}

#[test]
fn unequal_lists() {
    for (prices, levels) in [(0, 1), (1, 0), (1, 2), (9, 8), (9, 10), (10, 9), (256, 0)] {
        for kind in [4, 7] {
            let call = of(kind, &[1], &[&vec![7; prices], &vec![7; levels]]);
            assert_eq!(causes(&call), [Cause::UnequalLists]);
            assert_eq!(frame(&call), Err(14));
        }
    }
}

/// Each registration in its own frame, also where the agent is the developer's number.
#[test]
fn frames_of_registrations() {
    let (without, own) = (
        of(2, &[2, 3, 2, 500, 20], &[&[200]]),
        of(8, &[2, 3, 2, 3, 500, 20], &[&[200]]),
    );
    assert_eq!(text(&without), "02020302000001F40000001401000000C8\n");
    assert_eq!(text(&own), "0802030203000001F40000001401000000C8\n");
    for call in [without, own] {
        let frame = frame(&call).expect("a writable call");
        let read = frame.strip_suffix(b"\n").and_then(read_call);
        assert_eq!(read.map(|read| fields(&read)), Some(call));
    }
}

/// 14 before 13; an exact buffer suffices; what is behind the frame, and every byte of a refused
/// call's buffer, stays.
#[test]
fn buffers() {
    let (offer, wide) = (of(4, &[2], &[&[], &[]]), of(4, &[256], &[&[], &[]]));
    for length in 0..20 {
        let mut buffer = vec![0xEE; length];
        assert_eq!(write_frame(&wide, &mut buffer), u64::MAX - 13);
        assert!(buffer.iter().all(|&byte| byte == 0xEE));
        let answer = write_frame(&offer, &mut buffer);
        if length < 7 {
            assert_eq!(answer, u64::MAX - 12);
            assert!(buffer.iter().all(|&byte| byte == 0xEE));
        } else {
            assert_eq!(answer, 7);
            assert_eq!(buffer[..7], *b"040200\n");
            assert!(buffer[7..].iter().all(|&byte| byte == 0xEE));
        }
    }
}

/// Each well-formed line, read and then written, is the same bytes, 0A added.
#[test]
fn lines_written_again() {
    let mut written = 0;
    for record in &RECORDS[..3_000] {
        for line in lines(record) {
            if let Some(call) = read_call(line) {
                let frame = frame(&fields(&call));
                assert_eq!(frame, Ok([line, b"\n"].concat()));
                written += 1;
            }
        }
    }
    assert!(written > 50_000, "{written} lines");
}

/// Generated calls: each writable one reads back, and each behaviour is reached.
#[test]
fn generated_calls() {
    let mut random = Random::new(0);
    let mut reached: BTreeMap<String, u64> = BTreeMap::new();
    for kind in kinds() {
        for _ in 0..3_000 {
            let asked = call(&mut random, kind);
            let length = buffer(&mut random, &asked);
            if let Ok(frame) = frame(&asked) {
                let read = frame.strip_suffix(b"\n").and_then(read_call);
                assert_eq!(read.map(|call| fields(&call)), Some(asked.clone()));
            }
            *reached.entry(behaviour(&asked, length)).or_default() += 1;
        }
    }
    println!("{reached:#?}");
    assert_eq!(reached.len(), 12);
    assert!(reached.values().all(|&count| count >= 50));
}
