//! The engine's replay call beside replies that are expected of it.
//! Only programs under `bin/` that have the module `engine` take this one in.

use crate::engine;
use independent::comparisons::report::Group;
use independent::generators::lent::{difference, lend};
use independent::model::replay::write_replies;

/// Compares a call with a buffer of so many bytes with replies, which have a name.
pub fn compare_lent(group: &mut Group, record: &[u8], expected: (&str, &[u8]), length: usize) {
    let engine = lend(length, |buffer| engine::replay(record, buffer));
    let as_expected = lend(length, |buffer| write_replies(expected.1, buffer));
    if let Some(why) = difference(length, &engine, &as_expected) {
        let engine = engines_replies(record, 2 * expected.1.len() + (1 << 16));
        group.differ(&why, record, [("engine", &engine), expected]);
    }
}

/// What the engine writes into a buffer of so many bytes.
pub fn engines_replies(record: &[u8], length: usize) -> Vec<u8> {
    let mut replies = vec![0; length];
    let written = engine::replay(record, &mut replies);
    replies.truncate(usize::try_from(written).unwrap_or(0));
    replies
}
