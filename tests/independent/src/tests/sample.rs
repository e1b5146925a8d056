//! Document 01's sample record and its whole reply, with what document 02's requests 4, 5 and 10 add;
//! the records with lodged lists, with cancellations and with agents.

use super::sample_closed;
use independent::generators::sample::{CANCELLED, LODGED, PARTICIPATION, RECORD, REPLY};
use independent::model::replay::{lines, replay, replay_into};
use independent::model::settling::Award;

#[test]
fn whole_reply() {
    assert_eq!(replay(RECORD.as_bytes()), REPLY.as_bytes());
}

#[test]
fn lodged_lists_cancellations_and_agents() {
    let stated = LODGED.iter().chain(&CANCELLED).chain(&PARTICIPATION);
    for (record, reply) in stated {
        let replies = String::from_utf8(replay(record.as_bytes())).expect("digits");
        assert_eq!(replies, *reply);
    }
}

/// A last line may lack its 0A; the reply has it all the same.
#[test]
fn without_the_last_0a() {
    assert_eq!(replay(RECORD.trim_end().as_bytes()), REPLY.as_bytes());
}

/// Each line has its reply, whatever follows.
#[test]
fn first_lines() {
    let record = RECORD.as_bytes();
    for count in 0..=11 {
        let part = lines(record)[..count].concat().len() + count;
        let replied = lines(REPLY.as_bytes())[..count].concat().len() + count;
        assert_eq!(replay(&record[..part]), REPLY.as_bytes()[..replied]);
    }
}

#[test]
fn into_buffers() {
    let (record, reply) = (RECORD.as_bytes(), REPLY.as_bytes());
    for spare in [0, 1, 100] {
        let mut buffer = vec![0xEE; reply.len() + spare];
        assert_eq!(replay_into(record, &mut buffer), reply.len() as u64);
        assert_eq!(buffer[..reply.len()], *reply);
        assert!(buffer[reply.len()..].iter().all(|&byte| byte == 0xEE));
    }
    for length in 0..reply.len() {
        let mut buffer = vec![0xEE; length];
        assert_eq!(replay_into(record, &mut buffer), u64::MAX - 10);
        assert!(buffer.iter().all(|&byte| byte == 0xEE));
    }
}

/// The same settling by calls, with the paper's totals.
#[test]
fn settled_by_calls() {
    let auction = sample_closed();
    let mut buffer = [0xEE; 192];
    let settlement = auction
        .settle(100, &mut buffer)
        .expect("the sample settles");
    assert_eq!(settlement.price, 26_000);
    assert_eq!(settlement.demand, 970);
    assert_eq!(settlement.total, 1_020);
    assert_eq!((settlement.choices, settlement.covering), (4, 3));
    assert_eq!(settlement.remainder, 0);
    assert_eq!((settlement.second, settlement.short), (26_000, false));
    assert_eq!((settlement.insufficient, settlement.paid), (false, 26_000));
    let award = |project, developer, quantity| Award {
        project,
        developer,
        quantity,
    };
    assert_eq!(settlement.awards, [award(1, 1, 820), award(2, 3, 200)]);
    assert_eq!(buffer[..12], [1, 1, 0, 0, 3, 0x34, 2, 3, 0, 0, 0, 0xC8]);
    assert!(buffer[12..].iter().all(|&byte| byte == 0xEE));
    let choices = super::choices(&auction, 26_000);
    let mut totals: Vec<u64> = choices.iter().map(|choice| choice.iter().sum()).collect();
    totals.sort_unstable();
    assert_eq!(totals, [920, 1_020, 1_070, 1_170]);
}
