//! How many accepted closings and settlings had a remainder (document 02, request 4).

use crate::model::replay::lines;

/// Replies by where the remainder is that of, each 0 and above.
#[derive(Default)]
pub struct Remainders {
    at_c: [u64; 2],
    at_p: [u64; 2],
}

/// Digits behind the remainder of a settling: the second price and its mark, the mark of
/// participation and the price paid to existing plants.
const BEHIND: usize = 20;

/// 1 if the number at the end of a reply is above 0.
fn above_0(reply: &[u8]) -> usize {
    usize::from(!reply.ends_with(b"00000000"))
}

impl Remainders {
    /// Counts the accepted closings and settlings among the replies.
    pub fn count(&mut self, replies: &[u8]) {
        for reply in lines(replies) {
            match reply.get(..4) {
                Some(b"0500") => self.at_c[above_0(reply)] += 1,
                Some(b"0600") => self.at_p[above_0(&reply[..reply.len() - BEHIND])] += 1,
                _ => (),
            }
        }
    }

    /// With the replies counted elsewhere.
    pub fn join(&mut self, other: &Remainders) {
        for above in [0, 1] {
            self.at_c[above] += other.at_c[above];
            self.at_p[above] += other.at_p[above];
        }
    }

    /// How many were 0, and how many above, at C and at P.
    pub fn counts(&self) -> [[u64; 2]; 2] {
        [self.at_c, self.at_p]
    }

    /// One line, if any round closed.
    pub fn print(&self) {
        let [[zero_at_c, above_at_c], [zero_at_p, above_at_p]] = self.counts();
        if zero_at_c + above_at_c > 0 {
            println!(
                "  remainders: at C 0 {zero_at_c}, above 0 {above_at_c}; at P 0 {zero_at_p}, \
                 above 0 {above_at_p}"
            );
        }
    }
}
