//! Limits and phases of settling: refusals 2 and 10.

use super::{between_rounds, closed, opened, registered, set_up, Script};
use crate::model::auction::NEW;

pub(super) fn scripts() -> Vec<Script> {
    // The sample has 4 choices.
    let mut scripts = vec![closed().settle(&[100, 4, 3, 1, 0, 65_536, 65_537, u32::MAX])];
    // 2, also over 10.
    let other_phases = [
        Script::fresh(),
        set_up(),
        registered(),
        opened(),
        between_rounds(),
    ];
    scripts.extend(other_phases.map(|script| script.settle(&[100, 0])));
    scripts.extend([
        choices_2_to_the_16(),
        choices_2_to_the_17(),
        choices_2_to_the_32(),
        choices_2_to_the_64(),
        choices_59_049(),
        thirty_two_awards(),
    ]);
    scripts
}

/// All withdraw at A, where demand is 900: 15 of 16 new projects of 10 are to be awarded.
fn choices_2_to_the_16() -> Script {
    set_up()
        .existing(32, 32, 750)
        .plants(1..=16, &[10])
        .round(30_000, &[])
        .settle(&[65_536, 65_535, 65_537, u32::MAX])
}

fn choices_2_to_the_17() -> Script {
    set_up()
        .existing(32, 32, 750)
        .plants(1..=17, &[10])
        .round(30_000, &[])
        .settle(&[131_072, u32::MAX])
}

fn choices_2_to_the_32() -> Script {
    set_up()
        .plants(1..=16, &[10])
        .plants(17..=32, &[60])
        .round(30_000, &[])
        .settle(&[u32::MAX])
}

/// Four open levels in each of 32 projects.
fn choices_2_to_the_64() -> Script {
    set_up()
        .plants(1..=32, &[10, 20, 30])
        .round(30_000, &[])
        .settle(&[u32::MAX, 0])
}

/// Nine open levels in each of five projects.
fn choices_59_049() -> Script {
    let levels = &[1, 2, 3, 5, 8, 13, 21, 34];
    let numbers = 1..=5;
    let register = |script: Script, n| script.register(&[(n, 6 - n, NEW, levels)]);
    let script = numbers
        .clone()
        .fold(set_up().existing(6, 6, 820), register)
        .open(25_000);
    numbers
        .fold(script, |script, n| script.offer(&[(n, &[(26_000, 0)])]))
        .close()
        .settle(&[59_049, 59_048, 65_536])
}

/// Closed at the floor, where demand is 1,200; one choice. Quantities with each byte above 0.
fn thirty_two_awards() -> Script {
    let script = set_up().existing(32, 32, 1_000_000_000);
    (1..=28)
        .fold(script, |script, n| script.existing(n, n, 10))
        .existing(29, 31, 65_536)
        .existing(30, 29, 256)
        .existing(31, 30, 16_909_060)
        .round(10_000, &[])
        .settle(&[1, 0])
}
