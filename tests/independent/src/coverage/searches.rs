//! How the search of document 02's request 3 went, in the records that settle.

use super::features::Feature;
use crate::model::settling::Settlement;

/// What the search of a settlement shows.
pub const SEARCHES: &[Feature<Settlement>] = &[
    ("settled", |_| true),
    ("kept 1", |s| s.kept.len() == 1),
    ("kept 2", |s| s.kept.len() == 2),
    ("kept more", |s| s.kept.len() > 2),
    ("kept below covering", |s| {
        (s.kept.len() as u64) < s.covering
    }),
    ("all of several choices cover", |s| {
        s.covering == s.choices && s.choices > 1
    }),
    ("kept equal totals", |s| {
        s.kept.windows(2).any(|two| two[0] == two[1])
    }),
    ("kept equal least totals", |s| {
        s.kept.iter().filter(|&&total| total == s.total).count() > 1
    }),
];
