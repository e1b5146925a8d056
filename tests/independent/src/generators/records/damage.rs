//! Damage to lines and to whole records, as faulty recorders and copies leave it.

use crate::generators::random::Random;
use crate::model::replay::LONGEST_LINE;

/// Neighbours of the digits, letters in the wrong case, and other bytes that are no digits. An
/// 0A is left out: it would end the line.
const NO_DIGITS: &[u8] = b"/:@G`gafx -+.\r\t\0\x7F\x80\xFF";

/// A damaged line, made from a frame's line. Now and then it is a frame again.
pub fn line(random: &mut Random, frame: &[u8]) -> Vec<u8> {
    let mut line = frame.to_vec();
    let length = frame.len();
    match random.between(1, 12) {
        1 => line[random.index(length)] = random.one_of(NO_DIGITS),
        2 => line.insert(random.index(length + 1), random.one_of(NO_DIGITS)),
        3 => line.make_ascii_lowercase(),
        4 => line.clear(),
        5 => line.truncate(random.index(length)),
        // One item less or more than the count says.
        6 => line.truncate(length.saturating_sub(random.one_of(&[8, 16]))),
        7 => line.resize(length + random.one_of(&[1, 2, 8, 16]), b'0'),
        8 => line[..2].copy_from_slice(random.one_of(&[
            b"00", b"02", b"04", b"07", b"08", b"09", b"0A", b"10", b"FF",
        ])),
        9 => line.resize(LONGEST_LINE, b'0'),
        10 => line.resize(LONGEST_LINE + 1, b'0'),
        11 => line.extend_from_slice(frame),
        _ => line = any_bytes(random),
    }
    line
}

fn any_bytes(random: &mut Random) -> Vec<u8> {
    let length = random.between(1, 40);
    let bytes = (0..length).map(|_| random.any() as u8);
    bytes.filter(|&byte| byte != b'\n').collect()
}

/// One to three damages anywhere in the record.
pub fn record(random: &mut Random, record: &mut Vec<u8>) {
    for _ in 0..random.between(1, 3) {
        let place = random.index(record.len() + 1);
        let behind = (place + random.of_any_size(1, 200) as usize).min(record.len());
        match random.between(1, 5) {
            1 => record.insert(place, random.one_of(b"\n0AF")),
            2 => record.insert(place, random.any() as u8),
            3 => drop(record.drain(place..behind)),
            4 => record.extend_from_within(place..behind),
            _ => record.truncate(place),
        }
    }
}
