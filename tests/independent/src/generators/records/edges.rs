//! Records at the edges of the format: of lines, of bytes, and of sizes.

use super::{easy_book, hard_book, largest_book, long_record, LARGEST_BOOKS};
use crate::generators::sample;
use crate::model::replay::{KEPT_BYTES, LONGEST_LINE, PROGRAM_BYTES};

/// No line, blank lines, a last line without 0A, bytes that are no digits, long lines.
pub fn lines() -> Vec<Vec<u8>> {
    let whole = sample::RECORD.as_bytes();
    let mut records = vec![
        Vec::new(),
        b"\n".to_vec(),
        b"\n\n\n".to_vec(),
        vec![b'\n'; 1_000],
        b"05".to_vec(),
        whole[..whole.len() - 1].to_vec(),
        [whole, b"\n"].concat(),
        [b"\n", whole].concat(),
        sample::RECORD.replace('\n', "\n\n").into_bytes(),
        sample::RECORD.replace('\n', "\r\n").into_bytes(),
        sample::RECORD.to_lowercase().into_bytes(),
        sample::RECORD.repeat(3).into_bytes(),
    ];
    for byte in [0x00, 0xFF] {
        for length in [1, 2, LONGEST_LINE, LONGEST_LINE + 1, PROGRAM_BYTES] {
            records.push(vec![byte; length]);
        }
        records.push(sample::RECORD.bytes().flat_map(|b| [b, byte]).collect());
    }
    records.extend(long_lines().iter().map(|line| within_sample(line)));
    records.extend((0..=255).map(|byte| within_sample(&[b'0', byte])));
    records
}

/// The line before each line of the sample, so that it meets each phase.
fn within_sample(line: &[u8]) -> Vec<u8> {
    let lines = sample::RECORD.lines();
    lines
        .flat_map(|of_sample| [line, b"\n", of_sample.as_bytes(), b"\n"].concat())
        .collect()
}

/// Digits of each length from a frame's start on, and frames with more items than a call takes
/// or a line has room for.
fn long_lines() -> Vec<Vec<u8>> {
    let mut lines = Vec::new();
    for length in [159, 160, 161, 65_536] {
        for start in [
            "",
            "05",
            "0600000064",
            "040208",
            "070108",
            "020505020000000000000000FF",
            "08050502050000000000000000FF",
        ] {
            let mut line = start.as_bytes().to_vec();
            line.resize(length, b'0');
            lines.push(line);
        }
    }
    for count in [8, 9, 16, 17, 255] {
        let levels: String = (1..=count).map(|level| format!("{level:08X}")).collect();
        for start in ["020505020000000000000000", "08050502050000000000000000"] {
            lines.push(format!("{start}{count:02X}{levels}").into_bytes());
        }
    }
    for count in [8, 9, 10, 255] {
        let steps = (0..count).map(|step| format!("{:08X}{:08X}", 39_999 - step, 0));
        let steps: String = steps.collect();
        for start in ["0402", "0701"] {
            lines.push(format!("{start}{count:02X}{steps}").into_bytes());
        }
    }
    lines
}

/// The sample cut at each byte, and with each byte replaced by one of some others.
pub fn damaged_samples() -> Vec<Vec<u8>> {
    let whole = sample::RECORD.as_bytes();
    let mut records: Vec<Vec<u8>> = Vec::new();
    for place in 0..whole.len() {
        records.push(whole[..place].to_vec());
        for byte in [0x00, b'\n', b'0', b'1', b'F', b'f', b'G', 0xFF] {
            let mut record = whole.to_vec();
            record[place] = byte;
            records.push(record);
        }
    }
    records
}

/// Small calls in as many bytes as the program reads, one less and one more, and in several
/// hundred KiB; so many bytes without any 0A, and of blank lines alone.
pub fn record_sizes() -> Vec<Vec<u8>> {
    let around = [PROGRAM_BYTES - 1, PROGRAM_BYTES, PROGRAM_BYTES + 1];
    let mut records = Vec::new();
    for length in around {
        records.extend((0..5).map(|seed| long_record(seed, length)));
        records.push(vec![b'0'; length]);
        records.push(vec![b'\n'; length]);
    }
    records.push(long_record(5, 300 << 10));
    records.push(long_record(6, 600 << 10));
    records
}

/// Replies in as many bytes as the program's buffer has, some less and some more.
pub fn reply_sizes() -> Vec<Vec<u8>> {
    let around = PROGRAM_BYTES - 6..=PROGRAM_BYTES + 6;
    let mut records: Vec<Vec<u8>> = around.map(replied_by).collect();
    let (book, settling) = (thirty_two_awards(), "06FFFFFFFF\n");
    for count in [140, 141, 142, 300] {
        let record = book.clone() + &settling.repeat(count);
        records.push(record.into_bytes());
    }
    records
}

/// Replies in as many bytes as the engine keeps, some less and some more. The last line could be a
/// settling by its second character, which leaves open how long they are.
pub fn kept_sizes() -> Vec<Vec<u8>> {
    let around = KEPT_BYTES - 6..=KEPT_BYTES + 6;
    let open = |mut record: Vec<u8>| {
        record.splice(record.len() - 1.., *b"06\n");
        record
    };
    around.map(replied_by).map(open).collect()
}

const SHORTEST_REPLY: usize = "FF0C\n".len();
const CLOSING_REPLY: usize = "0500FFFFFFFFFFFFFFC900000000\n".len();

/// A record with so many bytes of replies: rounds of an existing plant alone, whose excess stays
/// above 1,000, then blank lines. Closings have the longer replies, so their number decides the
/// rest by 5.
fn replied_by(bytes: usize) -> Vec<u8> {
    let longer = CLOSING_REPLY - SHORTEST_REPLY;
    let closings = (0..SHORTEST_REPLY)
        .find(|closings| (bytes - closings * longer).is_multiple_of(SHORTEST_REPLY))
        .expect("5 does not divide 24");
    let mut record = "0100004E2000000003E8000000038400000004B000009C40\n\
                      02010101000000000000000001000007D0\n"
        .to_owned();
    for round in 1..=closings {
        record += &format!("03{:08X}\n05\n", 40_000 - round);
    }
    let replies = bytes - closings * longer;
    let lines = replies / SHORTEST_REPLY - 2 - 2 * closings;
    (record + &"\n".repeat(lines)).into_bytes()
}

/// A closed auction with an existing plant on each of 32 projects.
fn thirty_two_awards() -> String {
    let mut record = "0100004E2000000003E8000000038400000004B000009C40\n".to_owned();
    for number in 1..=32 {
        record += &format!(
            "02{number:02X}{number:02X}01000000000000000001{:08X}\n",
            100
        );
    }
    record + "0300002710\n05\n"
}

/// The books with the most choices that are looked at, the benchmark's among them.
pub fn largest_books() -> Vec<Vec<u8>> {
    let books = LARGEST_BOOKS.iter();
    books
        .flat_map(|book| (0..5).map(|seed| largest_book(seed, book)))
        .chain([easy_book(), hard_book()])
        .collect()
}
