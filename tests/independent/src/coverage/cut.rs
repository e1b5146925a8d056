//! How much was cut of records that were replayed without it (document 02, requests 7 and 8).

use crate::model::replay::lines;

/// Records and lines by what was cut.
#[derive(Default)]
pub struct Cut {
    cancelled_lines: u64,
    refused_lines: u64,
    /// Records with accepted settlings that were replayed without what was refused in them.
    settled: u64,
}

impl Cut {
    /// Counts a record with these replies and so many lines cut.
    pub fn count(&mut self, replies: &[u8], cancelled: usize, refused: usize) {
        let mut replies = lines(replies).into_iter();
        let settles = replies.any(|reply| reply.starts_with(b"0600"));
        self.cancelled_lines += cancelled as u64;
        self.refused_lines += refused as u64;
        self.settled += u64::from(settles && refused > 0);
    }

    /// With the records counted elsewhere.
    pub fn join(&mut self, other: &Cut) {
        self.cancelled_lines += other.cancelled_lines;
        self.refused_lines += other.refused_lines;
        self.settled += other.settled;
    }

    /// One line, if anything was cut.
    pub fn print(&self) {
        let Cut {
            cancelled_lines,
            refused_lines,
            settled,
        } = self;
        if cancelled_lines + refused_lines > 0 {
            println!(
                "  cut: {cancelled_lines} lines of cancelled offers, {refused_lines} refused lines; \
                 {settled} records settled also without the refused"
            );
        }
    }
}
