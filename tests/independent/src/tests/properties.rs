//! What document 01's rules imply for the ledger and the replies, on generated records.

use super::{each_step, Step, RECORDS};
use independent::generators::records::{edges, record};
use independent::model::auction::{Auction, Closing, Phase, EXISTING};
use independent::model::replay::{lines, replay, replay_into, Accepted, Call, PROGRAM_BYTES};
use independent::{host_number, BUFFER_TOO_SHORT};

/// How many of the records are looked at.
const LOOKED_AT: usize = 3_000;

/// Calls `visit` for each line of each record.
fn each_line(mut visit: impl FnMut(Step)) {
    for record in &RECORDS[..LOOKED_AT] {
        each_step(record, &mut visit);
    }
}

#[test]
fn refused_calls_and_settlings_change_nothing() {
    each_line(|step| {
        let settling = matches!(step.call, Some(Call::Settle { .. }));
        // A list may be lodged in place of the same one.
        let lodging = matches!(step.call, Some(Call::Lodge { .. }));
        if settling || step.answer.is_err() {
            assert!(step.before == step.after);
        } else {
            assert!(lodging || step.before != step.after);
        }
    });
}

/// Once a round opened, A is covered, whatever is withdrawn afterwards.
#[test]
fn a_stays_covered() {
    each_line(|step| {
        if !matches!(step.after.phase(), Phase::Fresh | Phase::Ready) {
            assert!(step.after.covered(step.after.settings().a));
        }
    });
}

/// The excess is supply less Dem at C, with the remainder there, supply is the sum of the lows, and
/// the phase goes
/// by the floor and the excess in GWh per day with what lies beyond the third decimal dropped
/// (document 02, request 1).
#[test]
fn excess_and_phase_agree() {
    each_line(|Step { answer, after, .. }| {
        let Ok(Accepted::Closed(Closing { excess, remainder })) = answer else {
            return;
        };
        let settings = after.settings();
        let c = after.last_c().expect("a closed round");
        let lows = after.sum_of_greatest(|developer| developer.low(c));
        assert_eq!(lows, after.supply());
        assert_eq!(
            i128::from(*excess),
            i128::from(lows) - i128::from(settings.demand(c))
        );
        assert_eq!(*remainder, settings.remainder(c));
        let thousandths = *excess / 1_000;
        let closed = thousandths <= 0 || c == settings.floor();
        let phase = if closed {
            Phase::Closed
        } else {
            Phase::Between
        };
        assert_eq!(*after.phase(), phase);
    });
}

/// A preview says what the closing made next answers, and whether the auction is then closed; it is
/// refused where that is, with its number (document 02, request 6). It holds before each call.
#[test]
fn previews_are_closings() {
    let (mut closed, mut open, mut lodged) = (0, 0, 0);
    let mut visit = |step: Step| {
        let preview = step.before.preview();
        let mut next = step.before.clone();
        let closing = next.close();
        assert_eq!(preview.map(|preview| preview.closing), closing);
        if let Ok(preview) = preview {
            assert_eq!(preview.closed, *next.phase() == Phase::Closed);
            closed += u64::from(preview.closed);
            open += u64::from(!preview.closed);
            let withdrawals = |auction: &Auction| -> usize {
                let existing = auction.developers().values().filter(|d| d.kind == EXISTING);
                existing.map(|developer| developer.withdrawals.len()).sum()
            };
            lodged += u64::from(withdrawals(&next) > withdrawals(step.before));
        }
    };
    for record in &RECORDS[..LOOKED_AT / 3] {
        each_step(record, &mut visit);
    }
    let counts = [closed, open, lodged];
    assert!(counts.iter().all(|&count| count > 1_000), "{counts:?}");
}

/// At most eight withdrawals; prices that the clock passed and do not rise, levels that fall
/// from the highest and are declared or 0; the quantity is the last. Those of an existing plant are
/// the lodged steps that the clock passed.
#[test]
fn histories() {
    each_line(|step| {
        for developer in step.after.developers().values() {
            let withdrawals = &developer.withdrawals;
            let lowest = step.after.last_c().unwrap_or(u64::MAX);
            let passed = lowest..=step.after.settings().a;
            assert!(withdrawals.len() <= 8);
            if developer.kind == EXISTING {
                let lodged = developer.lodged.iter().copied();
                let reached: Vec<_> = lodged.filter(|step| passed.contains(&step.price)).collect();
                assert_eq!(*withdrawals, reached);
            } else {
                assert!(developer.lodged.is_empty());
            }
            assert!(withdrawals.iter().all(|w| passed.contains(&w.price)));
            assert!(withdrawals.is_sorted_by(|before, after| before.price >= after.price));
            let mut quantities = developer.levels[developer.levels.len() - 1..].to_vec();
            quantities.extend(withdrawals.iter().map(|w| w.level));
            assert!(quantities.is_sorted_by(|before, after| before > after));
            assert!(quantities
                .iter()
                .all(|q| *q == 0 || developer.levels.contains(q)));
            assert_eq!(quantities.last(), Some(&developer.quantity));
        }
    });
}

/// One reply a line, of the line's kind or malformed, and the same whatever follows.
#[test]
fn replies_line_by_line() {
    for record in &RECORDS[..LOOKED_AT] {
        let replies = replay(record);
        let (lines, replied) = (lines(record), lines(&replies));
        assert_eq!(lines.len(), replied.len());
        for (line, reply) in lines.iter().zip(&replied) {
            assert!(*reply == b"FF0C" || line[..2] == reply[..2]);
        }
        let half: Vec<u8> = lines[..lines.len() / 2].join(&b'\n');
        assert!(replies.starts_with(&replay(&half)));
    }
}

#[test]
fn replies_in_buffers() {
    for record in &RECORDS[..LOOKED_AT / 10] {
        let replies = replay(record);
        let mut buffer = vec![0xEE; replies.len() + 3];
        assert_eq!(replay_into(record, &mut buffer), replies.len() as u64);
        assert_eq!(buffer, [&replies[..], &[0xEE; 3]].concat());
        let mut short = vec![0xEE; replies.len().saturating_sub(1)];
        let refused = replay_into(record, &mut short);
        assert!(replies.is_empty() || refused == host_number(Err(BUFFER_TOO_SHORT)));
        assert!(short.iter().all(|&byte| byte == 0xEE));
    }
}

/// Replies of each size around that of the program's buffer, then settlings that stay below it
/// or go beyond it by one.
#[test]
fn sizes_of_replies() {
    let sizes: Vec<usize> = edges::reply_sizes()
        .iter()
        .map(|record| replay(record).len())
        .collect();
    let (around, settlings) = sizes.split_at(13);
    assert!(around
        .iter()
        .copied()
        .eq(PROGRAM_BYTES - 6..=PROGRAM_BYTES + 6));
    let settling = settlings[1] - settlings[0];
    assert!(settlings[1] <= PROGRAM_BYTES && PROGRAM_BYTES < settlings[1] + settling);
}

/// Seeds give records of their own, none longer than the program `replay` takes.
#[test]
fn records_go_by_their_seed() {
    assert_eq!(RECORDS[7], record(7));
    let mut records = RECORDS.clone();
    records.sort_unstable();
    records.dedup();
    assert!(records.len() > RECORDS.len() * 9 / 10);
    assert!(records.iter().all(|record| record.len() <= 65_536));
}
