//! Numbers 1 to 7 and 20 to 29, and their order.

mod common;

use common::*;
use referee::{entry_number, panel, post, Account, Answer, Date, Ledger, Posting, Terms};

fn number(ledger: &Ledger, bytes: &[u8]) -> u64 {
    post_checked(&mut ledger.clone(), bytes).number
}

/// Sets one byte of an entry.
fn with(mut bytes: Bytes, place: usize, value: u8) -> Bytes {
    bytes[place] = value;
    bytes
}

/// Sets one word, w1 to w6, of an entry.
fn with_word(mut bytes: Bytes, word: usize, value: u32) -> Bytes {
    bytes[4 + 4 * word..][..4].copy_from_slice(&value.to_le_bytes());
    bytes
}

fn one_of_each_kind(is_new: bool) -> Vec<Bytes> {
    let mut kinds = vec![
        terms(START, 1, 1),
        enrol(15, 3, START, 300_000, 1_000_000_000),
        deliver(15, START, 1_000_000_000, 1_000_000_000),
        transfer(0, 15, START, 1_000_000_000),
        trade(15, 1, START, 1_000_000_000),
        measure(15, START, 300_000),
        usage(15, START, 100_000_000),
        close_day(START),
        close_month(START, [100_000; 4]),
    ];
    if is_new {
        kinds.push(confiscated(15, START, 1_000_000_000));
        kinds.push(holiday_words(START, [u32::MAX; 3]));
        kinds.push(notice(15, 0, TAKES, START, 1_000_000_000));
    }
    kinds
}

#[test]
fn entries_of_each_kind_pass() {
    for is_new in [false, true] {
        for bytes in one_of_each_kind(is_new) {
            assert_eq!(entry_number(is_new, &bytes), 0, "{bytes:?}");
        }
    }
    assert_eq!(one_of_each_kind(false).len(), 9);
    assert_eq!(one_of_each_kind(true).len(), 12);
}

#[test]
fn number_1() {
    assert_eq!(entry_number(false, &[]), 1);
    assert_eq!(entry_number(false, &[0; 31]), 1);
    assert_eq!(entry_number(false, &[0; 33]), 1);
    assert_eq!(entry_number(false, &[0; 64]), 1);
}

#[test]
fn numbers_2_and_3() {
    assert_eq!(entry_number(false, &[0; 32]), 2);
    assert_eq!(entry_number(false, &[255; 32]), 2);
    assert_eq!(entry_number(false, &with(close_day(START), 0, 10)), 2);
    for day in [
        (1999, 4, 1),
        (2100, 4, 1),
        (2026, 0, 1),
        (2026, 13, 1),
        (2026, 4, 0),
        (2026, 4, 31),
        (2025, 2, 29),
        (65_535, 255, 255),
    ] {
        assert_eq!(entry_number(false, &close_day(day)), 3, "{day:?}");
    }
    assert_eq!(entry_number(false, &close_day((2000, 2, 29))), 0);
    // 3 comes before 4 and 5.
    assert_eq!(entry_number(false, &enrol(16, 4, (2100, 1, 1), 0, 0)), 3);
}

#[test]
fn kinds_of_old_and_new() {
    for kind in 0..=255 {
        for (is_new, last) in [(false, 9), (true, 12)] {
            let unknown = !(1..=last).contains(&kind);
            // All else right, or as good as, and then all else wrong.
            let bytes = with(close_day(START), 0, kind);
            assert_eq!(entry_number(is_new, &bytes) == 2, unknown, "{kind}");
            let bytes = with([255; 32], 0, kind);
            let number = if unknown { 2 } else { 3 };
            assert_eq!(entry_number(is_new, &bytes), number, "{kind}");
            assert_eq!(entry_number(is_new, &bytes[..31]), 1);
        }
    }
}

#[test]
fn confiscated_as_an_entry() {
    let day = (2026, 1, 31);
    let bytes = confiscated(15, day, 1_000_000_000);
    assert_eq!(
        decoded(true, &bytes),
        Posting::Confiscated {
            account: 15,
            units: 1_000_000_000
        }
    );
    for (bytes, expected) in [
        (bytes, 0),
        (confiscated(0, day, 0), 0),
        (confiscated(0, day, 1_000_000_001), 6),
        (confiscated(0, day, u32::MAX), 6),
        (confiscated(16, day, 0), 4),
        (confiscated(255, day, 0), 4),
        (confiscated(0, (2026, 1, 32), 0), 3),
        (confiscated(0, (2100, 1, 31), 0), 3),
        // 3 before 4, 4 before 5, 5 before 6.
        (confiscated(16, (2100, 1, 31), 0), 3),
        (with(confiscated(16, day, 0), 2, 1), 4),
        (with(confiscated(0, day, u32::MAX), 2, 1), 5),
        (with(confiscated(0, day, u32::MAX), 3, 1), 5),
    ] {
        assert_eq!(entry_number(true, &bytes), expected, "{bytes:?}");
        assert_eq!(entry_number(false, &bytes), 2, "{bytes:?}");
    }
}

/// 4 and 5 for each byte that a kind uses or does not.
fn used_and_unused(is_new: bool, bytes: Bytes) {
    let number = |place, value| entry_number(is_new, &with(bytes, place, value));
    let kind = bytes[0];
    let uses_a = (2..=7).contains(&kind) || matches!(kind, 10 | 12);
    let uses_b = matches!(kind, 4 | 12);
    assert_eq!(number(1, 16), if uses_a { 4 } else { 5 });
    assert_eq!(number(2, 16), if uses_b { 4 } else { 5 });
    let flags = match kind {
        2 => 3,
        5 | 12 => 1,
        _ => 0,
    };
    for value in 0..=255 {
        assert_eq!(number(3, value), if value <= flags { 0 } else { 5 });
    }
    let words = [6, 2, 2, 2, 1, 1, 1, 0, 4, 1, 3, 1][usize::from(kind) - 1];
    for word in words + 1..=6 {
        for place in 0..4 {
            assert_eq!(number(4 + 4 * word + place, 1), 5);
        }
    }
}

#[test]
fn numbers_4_and_5() {
    for is_new in [false, true] {
        for bytes in one_of_each_kind(is_new) {
            used_and_unused(is_new, bytes);
        }
    }
    // 4 comes before 5, and 5 before 6.
    assert_eq!(
        entry_number(false, &with(with(usage(16, START, 0), 3, 1), 2, 1)),
        4
    );
    assert_eq!(
        entry_number(false, &with(usage(0, START, u32::MAX), 2, 1)),
        5
    );
}

#[test]
fn number_6() {
    let t = terms(START, 0, 0);
    for (word, value, expected) in [
        (1, 0, 6),
        (1, 10_000_001, 6),
        (1, 480_000, 0),
        (1, 480_001, 6), // DD below NN
        (1, 50_004, 0),
        (1, 50_003, 6), // S above 100 × NN
        (2, 119_999, 6),
        (2, 120_000, 0),
        (2, 100_000_000, 0),
        (2, 100_000_001, 6),
        (3, 119_999, 6),
        (3, 120_000, 0),
        (3, 12_000_000, 0),
        (3, 12_000_001, 6),
        (4, 9_999, 0),
        (4, 10_000, 6),
        (5, 100_000, 0),
        (5, 100_001, 6),
        (6, 100_000, 0),
        (6, 100_001, 6),
    ] {
        let bytes = with_word(t, word, value);
        assert_eq!(entry_number(false, &bytes), expected, "w{word} {value}");
    }
    assert_eq!(entry_number(false, &enrol(0, 0, START, 300_001, 0)), 6);
    assert_eq!(
        entry_number(false, &enrol(0, 0, START, 0, 1_000_000_001)),
        6
    );
    assert_eq!(entry_number(false, &deliver(0, START, 1_000_000_001, 0)), 6);
    assert_eq!(entry_number(false, &deliver(0, START, 0, u32::MAX)), 6);
    assert_eq!(entry_number(false, &transfer(0, 1, START, 0)), 6);
    assert_eq!(
        entry_number(false, &transfer(0, 1, START, 1_000_000_001)),
        6
    );
    assert_eq!(entry_number(false, &trade(0, 0, START, 0)), 6);
    assert_eq!(entry_number(false, &trade(0, 1, START, 1_000_000_001)), 6);
    assert_eq!(entry_number(false, &measure(0, START, 300_001)), 6);
    assert_eq!(entry_number(false, &usage(0, START, 100_000_001)), 6);
    for word in 1..=4 {
        let bytes = with_word(close_month(START, [0; 4]), word, 100_001);
        assert_eq!(entry_number(false, &bytes), 6);
    }
}

#[test]
fn number_7() {
    assert_eq!(entry_number(false, &transfer(3, 3, START, 5)), 7);
    assert_eq!(
        entry_number(false, &with_word(transfer(0, 1, START, 5), 2, 6)),
        7
    );
    // 6 comes before 7.
    assert_eq!(
        entry_number(false, &with_word(transfer(3, 3, START, 5), 2, 0)),
        6
    );
}

type Spoil = fn(&mut Ledger);

#[test]
fn number_20() {
    let spoils: [(Spoil, Spoil); 36] = [
        (
            |l| l.accounts[0].bank = -1_000_000_000,
            |l| l.accounts[0].bank = -1_000_000_001,
        ),
        (
            |l| l.accounts[0].bank = 100_000_000_000,
            |l| l.accounts[0].bank = 100_000_000_001,
        ),
        (
            |l| l.accounts[9].bank = 0,
            |l| l.accounts[9].bank = i64::MIN,
        ),
        (
            |l| l.accounts[0].net = -100_000_000_000,
            |l| l.accounts[0].net = -100_000_000_001,
        ),
        (
            |l| l.accounts[0].net = 100_000_000_000,
            |l| l.accounts[0].net = i64::MAX,
        ),
        (
            |l| l.accounts[0].sales = 100_000_000_000,
            |l| l.accounts[0].sales = 100_000_000_001,
        ),
        (
            |l| l.accounts[0].purchases = 100_000_000_000,
            |l| l.accounts[0].purchases = 100_000_000_001,
        ),
        (
            |l| l.accounts[0].cash_ins = 100_000_000_000,
            |l| l.accounts[0].cash_ins = 100_000_000_001,
        ),
        (
            |l| l.accounts[0].cash_outs = 100_000_000_000,
            |l| l.accounts[0].cash_outs = 100_000_000_001,
        ),
        (
            |l| l.accounts[0].carry = 100_000_000_000,
            |l| l.accounts[0].carry = 100_000_000_001,
        ),
        (
            |l| l.accounts[0].usage = 100_000_000,
            |l| l.accounts[0].usage = 100_000_001,
        ),
        (
            |l| l.accounts[0].owed = -1_000_000_000_000_000,
            |l| l.accounts[0].owed = -1_000_000_000_000_001,
        ),
        (
            |l| l.accounts[0].owed = 1_000_000_000_000_000,
            |l| l.accounts[0].owed = 1_000_000_000_000_001,
        ),
        (
            |l| l.accounts[0].violation_days = 40_000,
            |l| l.accounts[0].violation_days = 40_001,
        ),
        (
            |l| l.accounts[0].confiscation = 1_000_000_000,
            |l| l.accounts[0].confiscation = 1_000_000_001,
        ),
        (|l| l.accounts[0].k = 1, |l| l.accounts[0].k = 0),
        (|l| l.accounts[0].k = 100, |l| l.accounts[0].k = 101),
        (|l| l.accounts[0].pending = 1, |l| l.accounts[0].pending = 0),
        (
            |l| l.accounts[0].pending = 100,
            |l| l.accounts[0].pending = 101,
        ),
        (|l| l.accounts[0].over = 2, |l| l.accounts[0].over = 3),
        (|l| l.accounts[0].under = 2, |l| l.accounts[0].under = 3),
        (
            |l| l.accounts[0].mdq = 300_000,
            |l| l.accounts[0].mdq = 300_001,
        ),
        (
            |l| l.accounts[0].mddq = 300_000,
            |l| l.accounts[0].mddq = 300_001,
        ),
        (
            |l| l.accounts[0].bcq = 30_000_000,
            |l| l.accounts[0].bcq = 30_000_001,
        ),
        // A closed account is checked too, but for its steps.
        (
            |l| l.accounts[15].k = u64::MAX,
            |l| l.accounts[15].mdq = u64::MAX,
        ),
        (
            |l| l.accounts[15].pending = u64::MAX,
            |l| l.accounts[15].usage = u64::MAX,
        ),
        (
            |l| l.accounts[15].confiscation = 1_000_000_000,
            |l| l.accounts[15].confiscation = 1_000_000_001,
        ),
        (
            |l| l.accounts[7].confiscated = true,
            |l| l.accounts[7].confiscation = u64::MAX,
        ),
        (|l| l.terms.no_notice = 120_001, |l| l.terms.no_notice = 0),
        (
            |l| l.terms.no_notice = 480_000,
            |l| l.terms.no_notice = u64::MAX,
        ),
        (
            |l| l.terms.design_day = 120_000,
            |l| l.terms.design_day = 119_999,
        ),
        (
            |l| l.terms.storage = 12_000_000,
            |l| l.terms.storage = 12_000_001,
        ),
        (
            |l| l.terms.retainage = 9_999,
            |l| l.terms.retainage = 10_000,
        ),
        (
            |l| l.terms.demand_rate = 100_000,
            |l| l.terms.demand_rate = 100_001,
        ),
        (|l| l.year = 2099, |l| l.year = 2100),
        (|l| l.month = 12, |l| l.month = u64::MAX),
    ];
    let bytes = close_day((2000, 1, 1));
    for (is_new, (good, bad)) in [false, true]
        .into_iter()
        .flat_map(|is_new| spoils.map(|spoil| (is_new, spoil)))
    {
        let mut ledger = told(is_new, ledger_on(START));
        good(&mut ledger);
        assert_ne!(number(&ledger, &bytes), 20);
        assert_eq!(panel(&ledger).0, 0);
        bad(&mut ledger);
        assert_eq!(number(&ledger, &bytes), 20);
        assert_eq!(panel(&ledger), (20, 0));
        // The entry comes first.
        assert_eq!(number(&ledger, &[0; 32]), 2);
    }
    let mut ledger = ledger_on(START);
    ledger.day = 31;
    assert_eq!(number(&ledger, &bytes), 20);
    // Terms and date are free before the ledger begins.
    ledger.begun = false;
    ledger.terms = Terms::default();
    ledger.month = u64::MAX;
    assert_eq!(number(&ledger, &bytes), 21);
}

#[test]
fn number_20_of_the_recorded_amount() {
    let bytes = deliver(0, START, 0, 0);
    for is_new in [false, true] {
        for (place, opened) in (0..16).flat_map(|place| [(place, false), (place, true)]) {
            let mut ledger = told(is_new, ledger_on(START));
            ledger.accounts[place] = Account {
                opened,
                confiscation: 1_000_000_000,
                ..marked_account()
            };
            assert_ne!(number(&ledger, &bytes), 20);
            assert_eq!(panel(&ledger), (0, 0));
            ledger.accounts[place].confiscation += 1;
            assert_eq!(number(&ledger, &bytes), 20);
            assert_eq!(panel(&ledger), (20, 0));
            ledger.begun = false;
            assert_eq!(number(&ledger, &bytes), 20);
        }
    }
}

#[test]
fn number_21() {
    for is_new in [false, true] {
        let fresh = Ledger::fresh(is_new);
        assert_eq!(fresh.is_new, is_new);
        for bytes in &one_of_each_kind(is_new)[1..] {
            assert_eq!(number(&fresh, bytes), 21);
        }
        assert_eq!(number(&fresh, &terms(START, 0, 0)), 0);
        assert_eq!(panel(&fresh), (0, 0));
    }
}

#[test]
fn an_open_account_before_the_first_terms() {
    let mut ledger = Ledger::fresh(false);
    ledger.year = u64::MAX;
    ledger.month = 99;
    ledger.accounts[3] = Account {
        opened: true,
        bank: 7,
        k: 2,
        pending: 1,
        ..Account::default()
    };
    assert_eq!(panel(&ledger), (0, 7));
    assert_eq!(number(&ledger, &usage(3, START, 0)), 21);
    accept(&mut ledger, &terms(START, 0, 0));
    assert_eq!(ledger.accounts[3].mddq, 1_500);
    assert_eq!(ledger.accounts[3].bcq, 62_505);
    assert_eq!((ledger.year, ledger.month, ledger.day), (2026, 4, 1));
}

#[test]
fn number_22() {
    for is_new in [false, true] {
        let ledger = told(is_new, ledger_on((2026, 4, 2)));
        for bytes in one_of_each_kind(is_new) {
            assert_eq!(number(&ledger, &bytes), 22);
        }
    }
}

#[test]
fn number_23() {
    // The first TERMS too is for April 1.
    assert_eq!(
        number(&Ledger::fresh(false), &terms((2026, 4, 2), 0, 0)),
        23
    );
    let day = (2026, 5, 1);
    let ledger = ledger_on(day);
    assert_eq!(number(&ledger, &terms(day, 0, 0)), 23);
    assert_eq!(number(&ledger, &enrol(0, 0, day, 0, 0)), 23);
    assert_eq!(number(&ledger, &close_month(day, [0; 4])), 23);
    assert_eq!(number(&ledger, &measure(9, day, 0)), 23);
    assert_eq!(
        number(&ledger_on((2026, 5, 31)), &close_day((2026, 5, 31))),
        23
    );

    // TERMS after an accepted posting that day, its own included.
    let mut ledger = ledger_on(START);
    accept(&mut ledger, &terms(START, 0, 0));
    assert_eq!(number(&ledger, &terms(START, 0, 0)), 23);
    let mut ledger = ledger_on(START);
    accept(&mut ledger, &usage(0, START, 1));
    assert_eq!(number(&ledger, &terms(START, 0, 0)), 23);
    let mut ledger = Ledger::fresh(false);
    ledger.touched = true;
    assert_eq!(number(&ledger, &terms(START, 0, 0)), 23);

    // The last day of all cannot be closed.
    let day = (2099, 12, 31);
    let ledger = ready_to_close(day, |_| {});
    assert_eq!(number(&ledger, &close_month(day, [0; 4])), 23);
    assert_eq!(number(&ledger, &close_day(day)), 23);
}

#[test]
fn number_24() {
    let ledger = ledger_on(START);
    assert_eq!(number(&ledger, &enrol(0, 1, START, 0, 0)), 24);
    assert_eq!(number(&ledger, &deliver(1, START, 0, 0)), 24);
    assert_eq!(number(&ledger, &transfer(0, 1, START, 1_000_000_000)), 24);
    assert_eq!(number(&ledger, &transfer(1, 0, START, 1_000_000_000)), 24);
    assert_eq!(number(&ledger, &trade(1, 0, START, 1)), 24);
    assert_eq!(number(&ledger, &usage(1, START, 1)), 24);
    let day = (2026, 4, 27);
    assert_eq!(number(&ledger_on(day), &measure(1, day, 1)), 24);
}

#[test]
fn numbers_25_and_26() {
    let mut ledger = ledger_on(START);
    // 25 comes before 28.
    assert_eq!(number(&ledger, &enrol(1, 2, START, 999, 1_000_000_000)), 25);
    assert_eq!(
        number(&ledger, &enrol(1, 2, START, 1_000, 1_000_000_000)),
        28
    );

    accept(&mut ledger, &deliver(0, START, 0, 0));
    assert_eq!(number(&ledger, &deliver(0, START, 0, 0)), 26);
    accept(&mut ledger, &usage(0, START, 0));
    assert_eq!(number(&ledger, &usage(0, START, 5)), 26);
    let day = (2026, 4, 27);
    let mut ledger = ledger_on(day);
    accept(&mut ledger, &measure(0, day, 4_200));
    assert_eq!(number(&ledger, &measure(0, day, 4_200)), 26);
}

#[test]
fn days_of_confiscated() {
    let number_on = |day| number(&told(true, ledger_on(day)), &confiscated(0, day, 7));
    // Of every day of a leap year, two.
    for month in 1..=12 {
        for d in 1..=31 {
            let day = (2028, month, d);
            if Date::new(2028, month.into(), d.into()).is_some() {
                let is_its_day = day == (2028, 1, 31) || day == (2028, 3, 31);
                assert_eq!(number_on(day), if is_its_day { 0 } else { 23 }, "{day:?}");
            }
        }
    }
    for day in [(2026, 1, 30), (2026, 2, 28), (2026, 3, 30), (2026, 4, 30)] {
        assert_eq!(number_on(day), 23, "{day:?}");
    }
    for year in [2000, 2026, 2099] {
        assert_eq!(number_on((year, 1, 31)), 0);
        assert_eq!(number_on((year, 3, 31)), 0);
    }
}

#[test]
fn the_order_of_confiscated() {
    for day in [JANUARY, MARCH] {
        let bytes = confiscated(1, day, 7);
        let marked = |opened, day| {
            let mut ledger = told(true, ledger_on(day));
            ledger.accounts[1] = Account {
                opened,
                confiscated: true,
                ..marked_account()
            };
            ledger
        };
        assert_eq!(number(&marked(true, day), &bytes), 26);
        assert_eq!(number(&marked(false, day), &bytes), 24);
        let off = (2026, 2, 28);
        let off_bytes = confiscated(1, off, 7);
        assert_eq!(number(&marked(true, off), &off_bytes), 23);
        assert_eq!(number(&marked(false, off), &off_bytes), 23);
        // 22 comes before 23, 21 before 22, 20 before 21, 1 to 7 before 20.
        let mut ledger = marked(false, day);
        assert_eq!(number(&ledger, &off_bytes), 22);
        ledger.begun = false;
        assert_eq!(number(&ledger, &off_bytes), 21);
        ledger.accounts[2].confiscation = 1_000_000_001;
        assert_eq!(number(&ledger, &off_bytes), 20);
        assert_eq!(number(&ledger, &confiscated(1, off, 1_000_000_001)), 6);
        // In an old ledger it is no kind at all, whatever else is wrong.
        ledger.is_new = false;
        assert_eq!(number(&ledger, &off_bytes), 2);
        assert_eq!(number(&ledger, &confiscated(16, (1, 2, 3), u32::MAX)), 2);
        assert_eq!(number(&told(false, marked(true, day)), &bytes), 2);
        let plain = confiscated(0, day, 7);
        assert_eq!(number(&ledger_on(day), &plain), 2);
        assert_eq!(number(&told(true, ledger_on(day)), &plain), 0);
    }
}

#[test]
fn a_second_confiscated() {
    for day in [JANUARY, MARCH] {
        for (first, second) in [(7, 7), (0, 0), (0, 7), (7, 0), (1_000_000_000, 1)] {
            let mut ledger = told(true, ready_to_close(day, |a| a.metered = false));
            ledger.accounts[1] = ledger.accounts[0];
            accept(&mut ledger, &confiscated(0, day, first));
            let again = confiscated(0, day, second);
            assert_eq!(number(&ledger, &again), 26);
            // Closings refused by 27, 23 and 29 clear nothing.
            assert_eq!(
                post_checked(&mut ledger, &close_month(day, [0; 4])).number,
                27
            );
            assert_eq!(number(&ledger, &again), 26);
            assert_eq!(post_checked(&mut ledger, &close_day(day)).number, 23);
            assert_eq!(number(&ledger, &again), 26);
            accept(&mut ledger, &usage(0, day, 1));
            accept(&mut ledger, &usage(1, day, 1));
            ledger.accounts[1].v1 = true;
            ledger.accounts[1].violation_days = 40_000;
            assert_eq!(
                post_checked(&mut ledger, &close_month(day, [0; 4])).number,
                29
            );
            assert_eq!(number(&ledger, &again), 26);
            let account = &ledger.accounts[0];
            assert_eq!(account.confiscation, u64::from(first));
            assert!(account.confiscated);
            // Once for each account.
            accept(&mut ledger, &confiscated(1, day, second));
            assert_eq!(ledger.accounts[1].confiscation, u64::from(second));
        }
    }
}

#[test]
fn what_confiscated_changes() {
    for day in [JANUARY, MARCH] {
        for units in [0, 7, 1_000_000_000] {
            let mut ledger = told(true, ledger_on(day));
            ledger.accounts[0].bank = 5_000_000;
            // An amount without its mark gives way; it is not added to.
            ledger.accounts[0].confiscation = 3;
            let mut expected = ledger.clone();
            let answer = accept(&mut ledger, &confiscated(0, day, units));
            assert_eq!(answer, Answer::default());
            expected.touched = true;
            expected.accounts[0].confiscated = true;
            expected.accounts[0].confiscation = units.into();
            assert_eq!(ledger, expected);
            assert_eq!(panel(&ledger), (0, 5_000_000));
        }
    }
}

#[test]
fn confiscated_and_the_days_other_postings() {
    for day in [JANUARY, MARCH] {
        let bytes = [confiscated(0, day, 7), deliver(0, day, 1_000, 0)];
        let mut ledgers = [0, 1].map(|first| {
            let mut ledger = told(true, ledger_on(day));
            accept(&mut ledger, &bytes[first]);
            accept(&mut ledger, &bytes[1 - first]);
            ledger
        });
        // The order does not matter.
        assert_eq!(ledgers[0], ledgers[1]);
        let ledger = &mut ledgers[0];
        let account = ledger.accounts[0];
        assert_eq!((account.bank, account.net), (985, 985));
        assert!(account.delivered && account.confiscated);
        assert_eq!(account.confiscation, 7);
        for again in bytes {
            assert_eq!(number(ledger, &again), 26);
        }
        accept(ledger, &usage(0, day, 1));
        accept(ledger, &trade(0, 0, day, 1_562_625));
        assert_eq!(ledger.accounts[0].confiscation, 7);
        assert!(ledger.accounts[0].confiscated);
    }
}

#[test]
fn number_27() {
    assert_eq!(number(&ledger_on(START), &close_day(START)), 27);
    let day = (2026, 4, 27);
    let ledger = ready_to_close(day, |account| account.measured = false);
    assert_eq!(number(&ledger, &close_day(day)), 27);
    let day = (2026, 4, 28);
    let ledger = ready_to_close(day, |account| account.measured = false);
    assert_eq!(number(&ledger, &close_day(day)), 0);
    let day = (2026, 4, 30);
    let ledger = ready_to_close(day, |account| account.metered = false);
    assert_eq!(number(&ledger, &close_month(day, [0; 4])), 27);
    // 27 of one account comes before 29 of another.
    let mut ledger = ready_to_close(day, |account| {
        account.bank = -1;
        account.violation_days = 40_000;
    });
    assert_eq!(number(&ledger, &close_month(day, [0; 4])), 29);
    ledger.accounts[1] = marked_account();
    assert_eq!(number(&ledger, &close_month(day, [0; 4])), 27);
}

#[test]
fn number_28() {
    let day = (2026, 6, 10);
    let mut ledger = ledger_on(day);
    ledger.accounts[1] = marked_account();
    // June: minimum 14 percent, maximum 60.
    let (minimum, maximum) = (14 * 62_505, 60 * 62_505);
    ledger.accounts[0].bank = minimum + 10;
    ledger.accounts[1].bank = maximum - 10;
    assert_eq!(number(&ledger, &transfer(0, 1, day, 10)), 0);
    assert_eq!(number(&ledger, &transfer(0, 1, day, 11)), 28);
    assert_eq!(number(&ledger, &trade(0, 1, day, 10)), 0);
    assert_eq!(number(&ledger, &trade(0, 1, day, 11)), 28);
    assert_eq!(number(&ledger, &trade(1, 0, day, 10)), 0);
    assert_eq!(number(&ledger, &trade(1, 0, day, 11)), 28);
    ledger.accounts[1].bank = maximum - 11;
    assert_eq!(number(&ledger, &transfer(0, 1, day, 11)), 28);
    ledger.accounts[0].bank = minimum + 11;
    assert_eq!(number(&ledger, &transfer(0, 1, day, 11)), 0);

    // Gas moved does not enter the month net.
    accept(&mut ledger, &trade(0, 1, day, 1));
    accept(&mut ledger, &trade(0, 0, day, 2));
    let account = &ledger.accounts[0];
    assert_eq!((account.net, account.sales, account.purchases), (0, 2, 1));
}

#[test]
fn number_29() {
    let day = (2026, 6, 10);
    let mut ledger = ledger_on(day);
    ledger.terms.retainage = 0;
    ledger.accounts[0].bank = 100_000_000_000;
    assert_eq!(number(&ledger, &deliver(0, day, 0, 0)), 0);
    assert_eq!(number(&ledger, &deliver(0, day, 1, 0)), 29);
    ledger.accounts[0].bank = -1_000_000_000;
    assert_eq!(number(&ledger, &deliver(0, day, 0, 1)), 29);
    ledger.accounts[0].bank = 0;
    ledger.accounts[0].net = -100_000_000_000;
    assert_eq!(number(&ledger, &deliver(0, day, 0, 1)), 29);
    assert_eq!(number(&ledger, &deliver(0, day, 1, 0)), 0);

    ledger.accounts[0].bank = 1_000_000;
    ledger.accounts[0].sales = 100_000_000_000;
    assert_eq!(number(&ledger, &trade(0, 0, day, 1)), 29);
    ledger.accounts[0].purchases = 99_999_999_999;
    assert_eq!(number(&ledger, &trade(0, 1, day, 1)), 0);
    assert_eq!(number(&ledger, &trade(0, 1, day, 2)), 29);
    // 28 comes before 29.
    assert_eq!(number(&ledger, &trade(0, 1, day, 1_000_000_000)), 28);
}

#[test]
fn number_29_at_closings() {
    let day = (2026, 4, 30);
    let close = close_month(day, [100_000; 4]);
    // Totals that would clear with this very closing.
    let ledger = ready_to_close(day, |account| {
        account.bank = -2;
        account.cash_ins = 99_999_999_998;
    });
    assert_eq!(number(&ledger, &close), 0);
    let ledger = ready_to_close(day, |account| {
        account.bank = -2;
        account.cash_ins = 99_999_999_999;
    });
    assert_eq!(number(&ledger, &close), 29);
    let ledger = ready_to_close(day, |account| {
        account.bank = 100_000_000_000;
        account.cash_outs = 25 * 62_505 + 1;
    });
    assert_eq!(number(&ledger, &close), 29);

    // Only owed plus the whole bill counts, not its parts: 10^14 each way.
    let month = |owed, sales, purchases| {
        ready_to_close(day, |account| {
            account.owed = owed;
            account.sales = sales;
            account.purchases = purchases;
        })
    };
    let all = 100_000_000_000;
    let ledger = month(1_000_000_000_000_000, all, all);
    assert_eq!(number(&ledger, &close), 0);
    let ledger = month(1_000_000_000_000_000, 1, 0);
    assert_eq!(number(&ledger, &close), 29);
    let ledger = month(-1_000_000_000_000_000, 0, 1);
    assert_eq!(number(&ledger, &close), 29);
    let ledger = month(-1_000_000_000_000_000, 1, 0);
    assert_eq!(number(&ledger, &close), 0);

    // One account refuses the whole closing.
    let mut ledger = month(0, 0, 0);
    ledger.accounts[15] = ledger.accounts[0];
    ledger.accounts[15].violation_days = 40_000;
    assert_eq!(number(&ledger, &close), 0);
    ledger.accounts[15].bank = -1;
    assert_eq!(number(&ledger, &close), 29);
}

#[test]
fn enrol_starts_amount_and_mark_at_0() {
    for is_new in [false, true] {
        let mut ledger = told(is_new, ledger_on(START));
        ledger.accounts[1].confiscation = 7;
        ledger.accounts[1].confiscated = true;
        let before = ledger.clone();
        accept(&mut ledger, &enrol(1, 2, START, 4_200, 0));
        assert_eq!(ledger.accounts[1], marked_account());
        assert_eq!(ledger.accounts[1].confiscation, 0);
        assert!(!ledger.accounts[1].confiscated);
        assert_eq!(ledger.is_new, is_new);
        // TERMS leaves both, and what the ledger was told.
        let mut ledger = before;
        accept(&mut ledger, &terms(START, 0, 0));
        assert_eq!(ledger.accounts[1].confiscation, 7);
        assert!(ledger.accounts[1].confiscated);
        assert_eq!(ledger.is_new, is_new);
    }
}

#[test]
fn enrol_forgets_what_a_closed_account_held() {
    let mut ledger = ledger_on(START);
    ledger.accounts[1] = Account {
        k: u64::MAX,
        carry: 5,
        owed: -5,
        over: 2,
        violation_days: 9,
        excused: true,
        v1: true,
        delivered: true,
        ..ledger.accounts[0]
    };
    ledger.accounts[1].opened = false;
    assert_eq!(post(&mut ledger, &enrol(1, 2, START, 4_200, 0)).number, 0);
    assert_eq!(ledger.accounts[1], marked_account());
    assert!(ledger.touched);
}
