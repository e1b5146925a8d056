//! The goals of the calibration set: they are told apart by the names of files, they have every answer of
//! every call, and the sample reaches what its paper says of it.

use super::shares::REPLIES;
use independent::calibration::{Sort, RECORDS, SESSIONS};
use independent::coverage::{goals, reached, session_reached, Goal};
use independent::generators::sample;
use std::collections::BTreeSet;

#[test]
fn names_tell_goals_apart() {
    for Sort { goals, .. } in [RECORDS, SESSIONS] {
        let goals = goals();
        let names: BTreeSet<String> = goals.iter().map(Goal::slug).collect();
        assert_eq!(names.len(), goals.len());
    }
}

#[test]
fn every_answer_is_a_goal() {
    const TOPICS: [(u8, &str); 9] = [
        (1, "set-up"),
        (2, "registration"),
        (3, "opening"),
        (4, "offer"),
        (5, "closing"),
        (6, "settling"),
        (7, "lodging"),
        (8, "registration for an agent"),
        (9, "cancellation"),
    ];
    for (kind, topic) in TOPICS {
        let (_, answers) = REPLIES.iter().find(|(of, _)| *of == kind).expect("a kind");
        let expected: BTreeSet<String> = answers
            .iter()
            .map(|answer| match answer {
                0 => "accepted".to_owned(),
                refusal => format!("refused by {refusal}"),
            })
            .collect();
        let stated = goals().into_iter().filter(|goal| goal.topic == topic);
        let stated = stated.map(|goal| goal.feature.to_owned());
        let answered =
            |feature: &String| feature == "accepted" || feature.starts_with("refused by ");
        assert_eq!(stated.filter(answered).collect::<BTreeSet<_>>(), expected);
    }
}

#[test]
fn the_sample_reaches() {
    let reached = reached(sample::RECORD.as_bytes());
    let has = |topic, feature| reached.contains(&Goal { topic, feature });
    assert!(has("record", "the sample of document 01"));
    assert!(has("settlement", "awarded by study"));
    assert!(has("closing", "closed above the floor"));
    assert!(!has("settlement", "equal least totals"));
    assert!(!reached.iter().any(|goal| goal.feature.contains("refused")));
}

#[test]
fn the_session_reaches() {
    let reached = session_reached(sample::SESSION.as_bytes());
    let topics = ["lines refused by 20", "lines accepted"];
    for (topic, feature) in topics.into_iter().zip(["auctioneer 04", "auditor 06"]) {
        assert!(reached.contains(&Goal { topic, feature }));
    }
}

/// A name, a number or a goal that is missing is told.
#[test]
fn faults_are_told() {
    let mut cases = vec![RECORDS.case(1, sample::RECORD.as_bytes(), &goals()[0])];
    let unnamed = |faults: &[String]| {
        let unnamed = faults
            .iter()
            .filter(|fault| fault.contains("it does not reach that"));
        unnamed.count()
    };
    let faults = RECORDS.faults(&cases);
    assert_eq!(unnamed(&faults), 0);
    assert!(faults.contains(&"records: none reaches offer: refused by 8".to_owned()));
    cases[0].name = "002-record-the-sample-of-document-01".to_owned();
    assert_eq!(unnamed(&RECORDS.faults(&cases)), 1);
    cases[0].name = "001-offer-refused-by-8".to_owned();
    assert_eq!(unnamed(&RECORDS.faults(&cases)), 1);
}
