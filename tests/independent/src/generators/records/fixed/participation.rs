//! Agents and participation (document 02, request 10): refusals of frame 08, who is small, how much of
//! the new award small agents get, and the price paid to existing plants.

use super::{set_up, Plant, Script, SETTINGS};
use crate::model::auction::{EXISTING, NEW};

pub(super) fn scripts() -> Vec<Script> {
    let mut scripts = vec![
        agents(),
        numbers_and_levels(),
        registration_in_order(),
        other_phases(),
        only_existing(),
        new_plants_leave(),
        no_agent_with_existing_plants(),
        withdrawn_plant(),
        new_levels_do_not_count(),
        agents_number_is_no_developer(),
        thirty_two_of_an_agent(),
    ];
    scripts.extend([149_999, 150_000, 150_001].map(around_15_per_cent));
    scripts.extend([[100, 49], [100, 50], [50, 100], [1, 150]].map(several_plants));
    scripts.extend([99, 100, 101].map(around_half));
    scripts.extend([(500, 400), (400, 500)].map(developers_of_a_project));
    scripts.extend([22_001, 22_000, 21_999].map(around_the_most_paid));
    scripts.extend((2..=20).step_by(2).map(rounded_down));
    scripts.extend([14, 15].map(greatest_sums));
    scripts
}

/// 820 of 1,000: not small.
const LARGE: Plant = (1, 1, EXISTING, &[820]);

/// 0, 33 and more are refused, 1 and 32 are not; a refused one may be corrected. The agent may be the
/// developer's own number, that of another developer, or one that no developer has.
fn agents() -> Script {
    let plant = |n: u8| (n, n, NEW, &[10][..]);
    set_up()
        .register_for(0, &[plant(1)])
        .register_for(33, &[plant(1)])
        .register_for(34, &[plant(1)])
        .register_for(255, &[plant(1)])
        .register_for(1, &[plant(1), plant(2)])
        .register_for(32, &[plant(3), plant(32)])
        .register_for(31, &[plant(5)])
        .register_for(3, &[plant(3)])
}

/// Projects, developers, kinds and levels as in frame 02.
fn numbers_and_levels() -> Script {
    let rising: Vec<u32> = (1..=16).collect();
    set_up().register_for(
        7,
        &[
            (1, 0, NEW, &[10]),
            (1, 33, NEW, &[10]),
            (0, 1, NEW, &[10]),
            (33, 1, NEW, &[10]),
            (1, 1, 0, &[10]),
            (1, 1, 3, &[10]),
            (1, 1, NEW, &[]),
            (1, 1, NEW, &rising),
            (1, 1, NEW, &rising[..9]),
            (1, 1, NEW, &[5, 5]),
            (1, 1, NEW, &[0, 5]),
            (1, 1, NEW, &[1_000_000_001]),
            (1, 1, NEW, &rising[..8]),
            (1, 2, EXISTING, &[10]),
            (1, 2, NEW, &[10]),
            (2, 3, EXISTING, &[10]),
            (2, 4, NEW, &[10]),
            (3, 3, NEW, &[10]),
        ],
    )
}

/// 3 over 4, also for the agent alone.
fn registration_in_order() -> Script {
    set_up()
        .register_for(1, &[(1, 1, EXISTING, &[10])])
        .register_for(33, &[(2, 2, 3, &[10]), (2, 2, NEW, &[5, 5])])
        .register_for(0, &[(1, 2, NEW, &[10]), (33, 1, NEW, &[])])
        .register_for(2, &[(1, 2, NEW, &[10]), (2, 2, 0, &[10])])
}

/// 2 over 3 and 4: before set-up, in a round and once closed.
fn other_phases() -> Script {
    let refused = |script: Script| {
        script
            .register_for(5, &[(5, 5, NEW, &[10]), (5, 5, NEW, &[5, 5])])
            .register_for(33, &[(5, 5, NEW, &[10])])
    };
    let set_up = Script::fresh().then(refused).set_up(SETTINGS);
    set_up
        .register(&[LARGE])
        .register_for(1, &[(2, 2, NEW, &[200])])
        .open(25_000)
        .then(refused)
        .offer(&[(2, &[(26_000, 0)])])
        .close()
        .then(refused)
        .settle(&[100])
}

/// No new plants.
fn only_existing() -> Script {
    let script = set_up().register_for(9, &[LARGE, (2, 2, EXISTING, &[200])]);
    script.round(10_000, &[]).settle(&[1])
}

/// New plants of an agent that is not small, awarded nothing.
fn new_plants_leave() -> Script {
    set_up()
        .existing(1, 1, 975)
        .register_for(1, &[(2, 2, NEW, &[100]), (3, 3, NEW, &[50])])
        .round(25_000, &[(2, &[(39_000, 0)]), (3, &[(38_000, 0)])])
        .settle(&[100])
}

/// All are small.
fn no_agent_with_existing_plants() -> Script {
    set_up()
        .register_for(4, &[(1, 1, NEW, &[500]), (2, 2, NEW, &[600])])
        .round(25_000, &[(1, &[]), (2, &[(26_000, 0)])])
        .settle(&[100])
}

/// All of the agent's plant is withdrawn before P, and still counts.
fn withdrawn_plant() -> Script {
    set_up()
        .existing(1, 1, 830)
        .register_for(9, &[(9, 9, EXISTING, &[200]), (2, 2, NEW, &[150])])
        .lodge(&[(9, &[(39_000, 0)])])
        .round(25_000, &[(2, &[(26_000, 0)])])
        .settle(&[100])
}

/// What the agent has of new plants makes it no larger.
fn new_levels_do_not_count() -> Script {
    set_up()
        .register_for(9, &[(9, 9, EXISTING, &[149]), (2, 2, NEW, &[900])])
        .round(25_000, &[(2, &[])])
        .round(10_000, &[(2, &[])])
        .settle(&[100])
}

/// Developer 6 is of agent 5, and developer 5's plant is of agent 6: agent 5 is small, 6 is not.
fn agents_number_is_no_developer() -> Script {
    set_up()
        .register_for(6, &[(5, 5, EXISTING, &[820])])
        .register_for(5, &[(6, 6, NEW, &[200])])
        .register(&[(7, 7, NEW, &[100])])
        .round(25_000, &[(6, &[(26_000, 0)]), (7, &[(26_000, 0)])])
        .settle(&[100])
}

/// 16 existing plants and 16 new ones, none small.
fn thirty_two_of_an_agent() -> Script {
    let existing = |script: Script, n| script.register_for(32, &[(n, n, EXISTING, &[30])]);
    let new = |script: Script, n| script.register_for(32, &[(n, n, NEW, &[20, 40])]);
    let script = (1..=16).fold(set_up(), existing);
    let script = (17..=32).fold(script, new).open(25_000);
    let offer = |script: Script, n| script.offer(&[(n, &[(26_000, 20)])]);
    (17..=32).fold(script, offer).close().settle(&[65_536])
}

/// An existing plant of so many kWh beside D of 1,000,000, and the whole new award for its agent.
fn around_15_per_cent(existing: u32) -> Script {
    set_up()
        .existing(1, 1, 700)
        .register_for(9, &[(9, 9, EXISTING, &[existing]), (2, 2, NEW, &[200])])
        .round(25_000, &[(2, &[(26_000, 0)])])
        .settle(&[100])
}

/// Two plants of the agent, one of them registered by frame 02 with the agent's number.
fn several_plants([one, other]: [u32; 2]) -> Script {
    set_up()
        .existing(1, 1, 700)
        .existing(9, 9, one)
        .register_for(9, &[(8, 8, EXISTING, &[other]), (2, 2, NEW, &[200])])
        .round(25_000, &[(2, &[(26_000, 0)])])
        .settle(&[100])
}

/// 100 for the agent of the existing plant, and so much for a small one; nobody leaves.
fn around_half(small: u32) -> Script {
    set_up()
        .register(&[(1, 1, EXISTING, &[774]), (3, 3, NEW, &[small])])
        .register_for(1, &[(2, 2, NEW, &[100])])
        .round(25_000, &[(2, &[]), (3, &[])])
        .settle(&[100])
}

/// Developers 2 and 3 share a level: the study values tell whose agent counts, that of developer 2
/// being small.
fn developers_of_a_project((small, other): (u32, u32)) -> Script {
    set_up()
        .register(&[LARGE])
        .registration(Some(20), (small, 0), (2, 2, NEW, &[100, 200]))
        .registration(Some(1), (other, 0), (2, 3, NEW, &[100, 200]))
        .round(25_000, &[(2, &[(26_000, 0)]), (3, &[(26_000, 0)])])
        .settle(&[100])
}

/// The new plant leaves at this price, which is then P; 22,000 is the most that is paid.
fn around_the_most_paid(price: u32) -> Script {
    set_up()
        .register(&[LARGE])
        .register_for(1, &[(2, 2, NEW, &[300])])
        .round(20_000, &[(2, &[(price, 0)])])
        .settle(&[100])
}

/// CE × 11 / 10 with each rest, at a P of 2 × CE - 1.
fn rounded_down(ce: u32) -> Script {
    let p = 2 * ce - 1;
    Script::fresh()
        .set_up([ce.into(), 1_000, 900, 1_200, 2 * u64::from(ce)])
        .register(&[LARGE])
        .register_for(1, &[(2, 2, NEW, &[200])])
        .round(ce / 2, &[(2, &[(p, 0)])])
        .settle(&[100])
}

/// So many existing plants of 10^9, all of one agent, beside the highest D; 15 are just above 15 per
/// cent of it.
fn greatest_sums(plants: u8) -> Script {
    let settings = [20_000, 99_999_999_999, 1, 100_000_000_000, 40_000];
    let script = Script::fresh().set_up(settings);
    let existing =
        |script: Script, n| script.register_for(31, &[(n, n, EXISTING, &[1_000_000_000])]);
    let script = (1..=plants).fold(script, existing);
    let script = script.register_for(31, &[(32, 32, NEW, &[1_000_000_000])]);
    script.round(30_000, &[(32, &[])]).settle(&[100])
}
