//! The search of document 02's request 3, step by step. Award and counts do not come from it:
//! they are found by looking at every choice.

use std::cmp::Reverse;
use std::collections::BTreeMap;

/// The totals of the complete choices that are not set aside, in the order in which they are
/// found.
pub fn kept(open: &BTreeMap<u8, Vec<u64>>, demand: u64) -> Vec<u64> {
    let (order, in_every_choice): (Vec<&Vec<u64>>, Vec<&Vec<u64>>) = by_falling_high(open)
        .into_iter()
        .partition(|levels| levels.len() > 1);
    let chosen = in_every_choice.into_iter().flatten().sum();
    let mut kept = Vec::new();
    search(&order, demand, chosen, &mut kept);
    kept
}

/// The open levels of each project, by falling high, equal highs by number.
fn by_falling_high(open: &BTreeMap<u8, Vec<u64>>) -> Vec<&Vec<u64>> {
    let mut projects: Vec<(&u8, &Vec<u64>)> = open.iter().collect();
    projects.sort_by_key(|(number, levels)| (Reverse(levels.last()), **number));
    projects.into_iter().map(|(_, levels)| levels).collect()
}

/// Goes on from a choice, partial or complete, of which so much is chosen: set aside exactly when
/// the rest at their highs can't make it cover or the rest at their lows put it above the best
/// total found.
fn search(rest: &[&Vec<u64>], demand: u64, chosen: u64, kept: &mut Vec<u64>) {
    let highs: u64 = rest.iter().map(|levels| levels[levels.len() - 1]).sum();
    let lows: u64 = rest.iter().map(|levels| levels[0]).sum();
    // None is kept above the best before it, so the last is the best.
    let best = kept.last();
    if chosen + highs < demand || best.is_some_and(|&best| chosen + lows > best) {
        return;
    }
    match rest {
        [] => kept.push(chosen),
        [levels, behind @ ..] => {
            for level in *levels {
                search(behind, demand, chosen + level, kept);
            }
        }
    }
}
