//! The nine marked cases and the example, through the postings.

mod common;

use common::*;
use referee::{panel, panel_line, write, Ledger};

fn begun() -> Ledger {
    let mut ledger = Ledger::fresh(false);
    accept(&mut ledger, &terms(START, 0, 0));
    ledger
}

fn enrolled(opening: u32) -> Ledger {
    let mut ledger = begun();
    accept(&mut ledger, &enrol(0, 2, START, 4_200, opening));
    ledger
}

#[test]
fn the_marked_account() {
    let ledger = enrolled(1_000);
    let account = &ledger.accounts[0];
    assert_eq!((account.k, account.pending), (2, 2));
    assert_eq!((account.mddq, account.bcq), (1_500, 62_505));
    assert_eq!(panel(&ledger), (0, 1_000));
}

#[test]
fn case_1_amounts() {
    for (delivered, back_cast, amount) in [
        (1_000, 0, 985),
        (1, 0, 0),
        (0, 1, 0),
        (0, 1_001, -985),
        (5_001, 5_000, 0),
    ] {
        let mut ledger = enrolled(1_000);
        accept(&mut ledger, &deliver(0, START, delivered, back_cast));
        assert_eq!(ledger.accounts[0].bank, 1_000 + amount);
        assert_eq!(ledger.accounts[0].net, amount);
    }
}

#[test]
fn case_2_injection() {
    // 98.5 percent of 38,075 is 37,503.875; of 38,076 it is 37,504.86.
    for (delivered, amount, v1) in [(38_075, 37_503, false), (38_076, 37_504, true)] {
        let mut ledger = enrolled(0);
        accept(&mut ledger, &deliver(0, START, delivered, 0));
        assert_eq!(ledger.accounts[0].net, amount);
        assert_eq!(ledger.accounts[0].v1, v1);
        let answer = accept(&mut ledger, &close_day(START));
        assert_eq!(answer.reports[0].mask, u64::from(v1));
        assert_eq!(ledger.accounts[0].violation_days, u64::from(v1));
    }
}

#[test]
fn case_3_opening() {
    let mut ledger = begun();
    let above = enrol(0, 2, START, 4_200, 1_562_626);
    assert_eq!(post_checked(&mut ledger, &above).number, 28);
    accept(&mut ledger, &enrol(0, 2, START, 4_200, 1_562_625));
}

#[test]
fn case_4_share() {
    // Withdrawals of 150,000 and 120,000 units are 100 and 80 percent.
    for (bank, back_cast, amount, v2) in [
        (1_875_150, 152_285, -150_000, false),
        (1_875_150, 152_286, -150_001, true),
        (1_875_149, 121_828, -120_000, false),
        (1_875_149, 121_829, -120_001, true),
    ] {
        let day = (2026, 7, 1);
        let mut ledger = ledger_on(day);
        ledger.accounts[0].bank = bank;
        accept(&mut ledger, &deliver(0, day, 0, back_cast));
        assert_eq!(ledger.accounts[0].net, amount);
        assert_eq!(ledger.accounts[0].v2, v2, "{bank} {back_cast}");
    }
}

#[test]
fn case_5_who_enters() {
    for (mdq, flags, number) in [
        (999, 2, 25),
        (1_000, 2, 0),
        (1_000, 0, 25),
        (5_999, 0, 25),
        (6_000, 0, 0),
        (6_000, 1, 25),
        (6_000, 3, 25),
    ] {
        let answer = post_checked(&mut begun(), &enrol(0, flags, START, mdq, 0));
        assert_eq!(answer.number, number, "{mdq} {flags}");
    }
}

#[test]
fn case_6_steps() {
    let day = (2026, 4, 27);
    for (m, pending, runs) in [
        (6_500, 3, (0, 0)),
        (6_499, 2, (1, 0)),
        (2_500, 1, (0, 0)),
        (2_501, 2, (0, 1)),
        (3_000, 2, (0, 0)),
    ] {
        let mut ledger = ledger_on(day);
        accept(&mut ledger, &measure(0, day, m));
        let account = &ledger.accounts[0];
        assert_eq!(account.mdq, u64::from(m));
        assert_eq!(account.pending, pending);
        assert_eq!((account.over, account.under), runs);
    }
}

#[test]
fn case_7_cash_in() {
    let day = (2026, 4, 10);
    let mut ledger = ready_to_close(day, |account| account.bank = -1);
    let answer = accept(&mut ledger, &close_day(day));
    assert_eq!(answer.reports[0].mask, 64);
    assert_eq!(answer.reports[0].cash, 1);
    assert_eq!(ledger.accounts[0].bank, 0);
    assert_eq!(ledger.accounts[0].cash_ins, 1);
}

#[test]
fn case_8_bill() {
    let day = (2026, 4, 30);
    let mut ledger = ready_to_close(day, |account| account.cash_ins = 1_000);
    let answer = accept(&mut ledger, &close_month(day, [3_000, 3_000, 0, 100]));
    assert_eq!(answer.reports[0].bill, 34_100);
    assert_eq!(ledger.accounts[0].owed, 34_100);
}

#[test]
fn case_9_measurement_day() {
    for d in 1..=30 {
        let day = (2026, 4, d);
        let answer = post_checked(&mut ledger_on(day), &measure(0, day, 4_200));
        assert_eq!(answer.number, if d == 27 { 0 } else { 23 });
    }
}

#[test]
fn the_example_line() {
    for rate in [0, 1, 100_000] {
        let list = [terms(START, rate, rate), enrol(0, 2, START, 4_200, 1_000)].concat();
        for is_new in [false, true] {
            let mut archive = [0; 80];
            assert_eq!(write(is_new, &list, &mut archive).length, 80);
            assert_eq!(panel_line(&archive), "2 0 1000");
        }
    }
}
