//! Replaying the sample year, and archives that are refused.

mod common;

use common::sample;
use efbs::archive::Refusal;
use efbs::replay::{replay, replay_while};
use std::ops::ControlFlow;

#[test]
fn steps_join() {
    let mut last = nedrulov::fresh(false);
    let mut count = 0;
    let ended = replay(&sample(), |step| {
        assert_eq!(step.index, count);
        assert_eq!(*step.before, last);
        assert!(step.accepted() || step.before == step.after);
        last = *step.after;
        count += 1;
    });
    assert_eq!(ended, Ok(last));
    let figures = nedrulov::figures(&sample());
    assert_eq!(count as u64, figures.accepted + figures.refused);
    assert_eq!(nedrulov::panel(last).figure, figures.figure);
}

#[test]
fn a_new_archive_replays_to_a_new_ledger() {
    let mut archive = sample();
    archive[3] = b'2';
    let ended = replay(&archive, |step| assert!(step.before.is_new));
    assert!(ended.is_ok_and(|ledger| ledger.is_new));
    assert!(replay(&sample(), |_| ()).is_ok_and(|ledger| !ledger.is_new));
}

#[test]
fn breaking_off() {
    let mut seen = 0;
    let ended = replay_while(&sample(), |step| {
        seen += 1;
        match step.index {
            9 => ControlFlow::Break(step.entry.date),
            _ => ControlFlow::Continue(()),
        }
    });
    assert_eq!(seen, 10);
    let day = "2026-04-01".parse().expect("a date");
    assert_eq!(ended, Ok(ControlFlow::Break(day)));
}

#[test]
fn refused_archives_show_nothing() {
    let mut archive = sample();
    let entry_4 = archive.len() - 32 * 1_936;
    archive[entry_4] = 10;
    let refused = replay(&archive, |_| panic!("a step of a refused archive"));
    assert_eq!(
        refused,
        Err(Refusal {
            number: 2,
            index: 4
        })
    );
    assert_eq!(
        replay(&[], |_| ()),
        Err(Refusal {
            number: 8,
            index: 0
        })
    );
}
