//! How long the lent buffers of replays are, beside the replies and what always fits the record.

use super::features::Feature;
use crate::model::replay::{always_fits, lines, KEPT_BYTES};

/// A buffer of a replay.
#[derive(Clone, Copy)]
pub struct Buffer {
    /// Its length.
    length: usize,
    /// A length that always fits.
    ample: usize,
    /// Bytes of the replies, and of those up to the last accepted settling.
    replies: usize,
    settled: usize,
}

/// What a buffer shows. Replies are long if the engine does not keep them.
pub const BUFFERS: &[Feature<Buffer>] = &[
    ("exact", |buffer| !buffer.long() && buffer.exact()),
    ("a byte short", |buffer| !buffer.long() && buffer.short()),
    ("ample", |buffer| !buffer.long() && buffer.ample()),
    ("a byte less than ample", |buffer| {
        !buffer.long() && buffer.nearly_ample()
    }),
    ("short of an accepted settling", |buffer| {
        !buffer.long() && buffer.length < buffer.settled
    }),
    ("exact, long replies", |buffer| {
        buffer.long() && buffer.exact()
    }),
    ("a byte short, long replies", |buffer| {
        buffer.long() && buffer.short()
    }),
    ("ample, long replies", |buffer| {
        buffer.long() && buffer.ample()
    }),
    ("a byte less than ample, long replies", |buffer| {
        buffer.long() && buffer.nearly_ample()
    }),
    ("short of an accepted settling, long replies", |buffer| {
        buffer.long() && buffer.length < buffer.settled
    }),
];

impl Buffer {
    /// Those to replay a record into: of half the replies, one byte short, exact, longer, and around
    /// what always fits.
    pub fn all(record: &[u8], replies: &[u8]) -> Vec<Buffer> {
        let (ample, long) = (always_fits(record), replies.len());
        let settled = settled(replies);
        let around = [
            Some(long / 2),
            long.checked_sub(1),
            Some(long),
            Some(long + 1),
            Some(long + 100),
            ample.checked_sub(1),
            Some(ample),
        ];
        let mut lengths: Vec<usize> = around.into_iter().flatten().collect();
        lengths.sort_unstable();
        lengths.dedup();
        let buffer = |length| Buffer {
            length,
            ample,
            replies: long,
            settled,
        };
        lengths.into_iter().map(buffer).collect()
    }

    pub fn length(&self) -> usize {
        self.length
    }

    fn long(&self) -> bool {
        self.replies > KEPT_BYTES
    }

    /// As long as the replies, where the lines leave open whether they fit.
    fn exact(&self) -> bool {
        self.length == self.replies && self.length < self.ample
    }

    fn short(&self) -> bool {
        self.length + 1 == self.replies
    }

    fn ample(&self) -> bool {
        self.length >= self.ample
    }

    fn nearly_ample(&self) -> bool {
        self.length + 1 == self.ample && self.replies < self.length
    }
}

/// The bytes of the replies up to the last accepted settling, that one's too; 0 if there is none.
fn settled(replies: &[u8]) -> usize {
    let (mut end, mut settled) = (0, 0);
    for reply in lines(replies) {
        end += reply.len() + 1;
        if reply.starts_with(b"0600") {
            settled = end;
        }
    }
    settled
}
