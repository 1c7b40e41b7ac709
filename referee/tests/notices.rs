//! NOTICE: the letter that stands, the second letter that moves the gas, and
//! the end of TRANSFER in new ledgers.

mod common;

use common::*;
use referee::{
    check, entry_number, measurement_day, panel, partners, post, replay, write, Account, Answer,
    Ledger, Notice, Posting,
};

const NONE: Notice = Notice {
    stands: false,
    takes: false,
    other: 0,
    units: 0,
};
/// A day of August, whose banks are 54 to 85 percent of the BCQ.
const TODAY: Day = (2026, 8, 20);
const MINIMUM: i64 = 54 * 62_505;
const MAXIMUM: i64 = 85 * 62_505;
/// The last day of TRANSFER in a new ledger, and the first without.
const LAST: Day = (2027, 3, 31);
const RETIRED: Day = (2027, 4, 1);

fn number(ledger: &Ledger, bytes: &[u8]) -> u64 {
    post_checked(&mut ledger.clone(), bytes).number
}

/// A new ledger whose accounts 0 to 3 are open and have 100 units above
/// August's minimum.
fn four_on(day: Day) -> Ledger {
    let mut ledger = told(true, ledger_on(day));
    for account in &mut ledger.accounts[..4] {
        *account = Account {
            bank: MINIMUM + 100,
            ..marked_account()
        };
    }
    ledger
}

fn four() -> Ledger {
    four_on(TODAY)
}

fn letters(ledger: &Ledger) -> Vec<(usize, Notice)> {
    let all = ledger.accounts.iter().map(|account| account.notice);
    all.enumerate()
        .filter(|(_, notice)| *notice != NONE)
        .collect()
}

fn banks(ledger: &Ledger) -> [i64; 4] {
    std::array::from_fn(|place| ledger.accounts[place].bank - MINIMUM)
}

#[test]
fn as_an_entry() {
    for (flag, takes) in [(GIVES, false), (TAKES, true)] {
        let bytes = notice(15, 3, flag, START, 1_000_000_000);
        let letter = Notice {
            stands: true,
            takes,
            other: 3,
            units: 1_000_000_000,
        };
        let posting = Posting::Notice { writer: 15, letter };
        assert_eq!(decoded(true, &bytes), posting);
        assert_eq!(entry_number(false, &bytes), 2);
        assert_eq!(number(&told(false, four()), &bytes), 2);
    }
}

#[test]
fn numbers_4_to_7() {
    let set = |place: usize, value| {
        let mut bytes = notice(1, 2, TAKES, TODAY, 5);
        bytes[place] = value;
        bytes
    };
    let ledger = four();
    for (bytes, expected) in [
        (set(0, 12), 0),
        (set(3, 0), 0),
        (set(1, 16), 4),
        (set(2, 16), 4),
        (set(1, 255), 4),
        (set(3, 2), 5),
        (set(3, 3), 5),
        (set(3, 128), 5),
        (set(12, 5), 5),
        (set(16, 1), 5),
        (set(31, 1), 5),
        (notice(1, 2, GIVES, TODAY, 0), 6),
        (notice(1, 2, GIVES, TODAY, 1), 0),
        (notice(1, 2, GIVES, TODAY, 1_000_000_001), 6),
        (notice(1, 2, TAKES, TODAY, u32::MAX), 6),
        (notice(1, 1, GIVES, TODAY, 5), 7),
        (notice(0, 0, TAKES, TODAY, 5), 7),
        // 3 before 4, 4 before 5, 5 before 6, 6 before 7.
        (notice(16, 16, 2, (2026, 8, 32), 0), 3),
        (notice(16, 16, 2, TODAY, 0), 4),
        (notice(1, 1, 2, TODAY, 0), 5),
        (notice(1, 1, TAKES, TODAY, 0), 6),
    ] {
        assert_eq!(entry_number(true, &bytes), expected, "{bytes:?}");
        assert_eq!(number(&ledger, &bytes), expected, "{bytes:?}");
        assert_eq!(entry_number(false, &bytes), 2);
    }
}

#[test]
fn what_comes_before_7_and_24() {
    // 7 of the bytes comes before every number of the state.
    let mut ledger = Ledger::fresh(true);
    assert_eq!(number(&ledger, &notice(1, 1, GIVES, TODAY, 5)), 7);
    let bytes = notice(8, 9, GIVES, TODAY, 5);
    assert_eq!(number(&ledger, &bytes), 21);
    ledger.accounts[5].over = 3;
    assert_eq!(number(&ledger, &bytes), 20);
    let mut ledger = four();
    assert_eq!(number(&ledger, &bytes), 24);
    ledger.day += 1;
    assert_eq!(number(&ledger, &bytes), 22);
}

#[test]
fn a_letter_stands() {
    for flag in [GIVES, TAKES] {
        for units in [1, 100, 101, 1_000_000_000] {
            let before = four();
            let mut ledger = before.clone();
            // No limit is asked: neither has so much to give or to take.
            let answer = accept(&mut ledger, &notice(2, 3, flag, TODAY, units));
            assert_eq!(answer, Answer::default());
            let mut expected = Ledger {
                touched: true,
                ..before
            };
            expected.accounts[2].notice = letter(flag, 3, units.into());
            assert_eq!(ledger, expected);
        }
    }
}

#[test]
fn it_marks_the_day() {
    let mut ledger = told(true, ledger_on(START));
    ledger.accounts[1] = marked_account();
    accept(&mut ledger, &notice(0, 1, GIVES, START, 5));
    assert_eq!(number(&ledger, &terms(START, 0, 0)), 23);
}

#[test]
fn the_second_letter_moves_the_gas() {
    let gives = notice(0, 1, GIVES, TODAY, 70);
    let takes = notice(1, 0, TAKES, TODAY, 70);
    for [first, second] in [[gives, takes], [takes, gives]] {
        let before = four();
        let mut ledger = before.clone();
        accept(&mut ledger, &first);
        assert_eq!(banks(&ledger), [100; 4]);
        let answer = accept(&mut ledger, &second);
        assert_eq!(answer, Answer::default());
        assert_eq!(banks(&ledger), [30, 170, 100, 100]);
        assert_eq!(letters(&ledger), []);
        // As a TRANSFER does, month numbers untouched.
        let mut transferred = before;
        accept(&mut transferred, &transfer(0, 1, TODAY, 70));
        assert_eq!(ledger, transferred);
        // Both may write again, and the same again moves the same again.
        accept(&mut ledger, &first);
        assert_eq!(number(&ledger, &second), 28);
        assert_eq!(letters(&ledger).len(), 1);
    }
}

#[test]
fn letters_that_do_not_fit() {
    // B's letter, and what A writes to B.
    for (theirs, own) in [
        // Another quantity, above and below.
        (letter(TAKES, 0, 71), notice(0, 1, GIVES, TODAY, 70)),
        (letter(GIVES, 0, 69), notice(0, 1, TAKES, TODAY, 70)),
        // The same side.
        (letter(TAKES, 0, 70), notice(0, 1, TAKES, TODAY, 70)),
        (letter(GIVES, 0, 70), notice(0, 1, GIVES, TODAY, 70)),
        // To a third party, open or not, or to itself.
        (letter(TAKES, 2, 70), notice(0, 1, GIVES, TODAY, 70)),
        (letter(GIVES, 9, 70), notice(0, 1, TAKES, TODAY, 70)),
        (letter(TAKES, 1, 70), notice(0, 1, GIVES, TODAY, 70)),
        // None that stands, though its members would fit.
        (
            Notice {
                stands: false,
                ..letter(TAKES, 0, 70)
            },
            notice(0, 1, GIVES, TODAY, 70),
        ),
    ] {
        let mut ledger = four();
        ledger.accounts[1].notice = theirs;
        let mut expected = Ledger {
            touched: true,
            ..ledger.clone()
        };
        accept(&mut ledger, &own);
        expected.accounts[0].notice = letter(own[3], 1, 70);
        assert_eq!(ledger, expected, "{theirs:?}");
    }
}

#[test]
fn letters_of_others_are_not_looked_at() {
    // Account 2 has the letter that would fit, but account 1 is written to.
    let mut ledger = four();
    ledger.accounts[2].notice = letter(TAKES, 0, 40);
    accept(&mut ledger, &notice(0, 1, GIVES, TODAY, 40));
    let stand = [(0, letter(GIVES, 1, 40)), (2, letter(TAKES, 0, 40))];
    assert_eq!(letters(&ledger), stand);
    assert_eq!(banks(&ledger), [100; 4]);
    // Each finds its own.
    accept(&mut ledger, &notice(1, 0, TAKES, TODAY, 40));
    assert_eq!(letters(&ledger), [(2, letter(TAKES, 0, 40))]);
    accept(&mut ledger, &notice(0, 2, GIVES, TODAY, 40));
    assert_eq!(letters(&ledger), []);
    assert_eq!(banks(&ledger), [20, 140, 140, 100]);
}

#[test]
fn number_24() {
    let mut ledger = four();
    for (a, b) in [(0, 4), (4, 0), (4, 5)] {
        for flag in [GIVES, TAKES] {
            assert_eq!(number(&ledger, &notice(a, b, flag, TODAY, 5)), 24);
        }
    }
    // Before 26, and whatever letters the accounts hold.
    ledger.accounts[0].notice = letter(GIVES, 1, 5);
    ledger.accounts[4].notice = letter(TAKES, 0, 5);
    assert_eq!(number(&ledger, &notice(0, 4, GIVES, TODAY, 5)), 24);
    assert_eq!(number(&ledger, &notice(4, 0, GIVES, TODAY, 5)), 24);
}

#[test]
fn number_26() {
    let mut ledger = four();
    accept(&mut ledger, &notice(0, 1, GIVES, TODAY, 70));
    for bytes in [
        notice(0, 1, GIVES, TODAY, 70),
        notice(0, 1, TAKES, TODAY, 70),
        notice(0, 2, GIVES, TODAY, 1),
    ] {
        assert_eq!(number(&ledger, &bytes), 26);
    }
    // Even one that would match: account 2 waits for it.
    accept(&mut ledger, &notice(2, 0, TAKES, TODAY, 30));
    assert_eq!(number(&ledger, &notice(0, 2, GIVES, TODAY, 30)), 26);
    // And one that would match past a limit.
    accept(&mut ledger, &notice(3, 0, TAKES, TODAY, 1_000_000));
    assert_eq!(number(&ledger, &notice(0, 3, GIVES, TODAY, 1_000_000)), 26);
    // Without its own letter the same is accepted.
    accept(&mut ledger, &notice(1, 0, TAKES, TODAY, 70));
    accept(&mut ledger, &notice(0, 2, GIVES, TODAY, 30));
    assert_eq!(banks(&ledger), [0, 170, 130, 100]);
}

#[test]
fn two_letters_that_cross() {
    // Both stand, each other's counterpart, as a ledger handed in may have it.
    let mut ledger = four();
    ledger.accounts[0].notice = letter(GIVES, 1, 10);
    ledger.accounts[1].notice = letter(TAKES, 0, 10);
    for (a, b, flag) in [(0, 1, GIVES), (1, 0, TAKES)] {
        assert_eq!(number(&ledger, &notice(a, b, flag, TODAY, 10)), 26);
    }
}

#[test]
fn number_28() {
    for (giver, taker, units, expected) in [
        (100, MAXIMUM - MINIMUM - 101, 100, 0),
        (100, MAXIMUM - MINIMUM - 100, 100, 0),
        (100, MAXIMUM - MINIMUM - 99, 100, 28),
        (99, 0, 100, 28),
        (100, 0, 101, 28),
        (99, MAXIMUM - MINIMUM - 99, 100, 28),
        // A giver above its maximum, and a taker below its minimum and zero.
        (5_000_000, 0, 100, 0),
        (100, -MINIMUM - 50, 100, 0),
    ] {
        let mut ledger = four();
        ledger.accounts[0].bank = MINIMUM + giver;
        ledger.accounts[1].bank = MINIMUM + taker;
        let gives = notice(0, 1, GIVES, TODAY, units);
        let takes = notice(1, 0, TAKES, TODAY, units);
        for [first, second] in [[gives, takes], [takes, gives]] {
            let mut ledger = ledger.clone();
            accept(&mut ledger, &first);
            let waiting = ledger.clone();
            let answered = post_checked(&mut ledger, &second).number;
            assert_eq!(answered, expected, "{giver} {taker} {units}");
            if expected == 28 {
                assert_eq!(ledger, waiting);
            }
        }
        assert_eq!(number(&ledger, &transfer(0, 1, TODAY, units)), expected);
    }
}

#[test]
fn after_a_28() {
    let mut ledger = four();
    accept(&mut ledger, &notice(1, 0, TAKES, TODAY, 101));
    let own = notice(0, 1, GIVES, TODAY, 101);
    assert_eq!(post_checked(&mut ledger, &own).number, 28);
    assert_eq!(letters(&ledger), [(1, letter(TAKES, 0, 101))]);
    // B waits on, and gets 26 for another.
    assert_eq!(number(&ledger, &notice(1, 2, GIVES, TODAY, 1)), 26);
    // A is free to write another, which stands beside it.
    let mut other = ledger.clone();
    accept(&mut other, &notice(0, 1, GIVES, TODAY, 100));
    let stand = [(0, letter(GIVES, 1, 100)), (1, letter(TAKES, 0, 101))];
    assert_eq!(letters(&other), stand);
    assert_eq!(number(&other, &own), 26);
    // Or to one of the others.
    let mut third = ledger.clone();
    accept(&mut third, &notice(2, 0, TAKES, TODAY, 60));
    accept(&mut third, &notice(0, 2, GIVES, TODAY, 60));
    assert_eq!(banks(&third), [40, 100, 160, 100]);
    // Or the same again, when there is gas for it.
    accept(&mut ledger, &trade(0, 0, TODAY, 1));
    accept(&mut ledger, &own);
    assert_eq!(banks(&ledger), [0, 201, 100, 100]);
    assert_eq!(letters(&ledger), []);
}

#[test]
fn the_writers_members_stay_in_a_match() {
    // What the place of a letter that does not stand holds is no concern.
    let litter = Notice {
        stands: false,
        takes: true,
        other: usize::MAX,
        units: u64::MAX,
    };
    let mut ledger = four();
    ledger.accounts[0].notice = litter;
    ledger.accounts[1].notice = letter(TAKES, 0, 70);
    accept(&mut ledger, &notice(0, 1, GIVES, TODAY, 70));
    assert_eq!(letters(&ledger), [(0, litter)]);
    // A letter that comes to stand writes over all of it.
    accept(&mut ledger, &notice(0, 1, GIVES, TODAY, 70));
    assert_eq!(letters(&ledger), [(0, letter(GIVES, 1, 70))]);
}

#[test]
fn a_transfer_between_two_letters_moves_twice() {
    for (a, b, first, second) in [(0, 1, GIVES, TAKES), (1, 0, TAKES, GIVES)] {
        let mut ledger = four();
        accept(&mut ledger, &notice(a, b, first, TODAY, 40));
        let waiting = letters(&ledger);
        // It neither looks at letters nor clears them.
        accept(&mut ledger, &transfer(0, 1, TODAY, 40));
        assert_eq!(letters(&ledger), waiting);
        assert_eq!(banks(&ledger), [60, 140, 100, 100]);
        accept(&mut ledger, &notice(b, a, second, TODAY, 40));
        assert_eq!(banks(&ledger), [20, 180, 100, 100]);
        assert_eq!(letters(&ledger), []);
    }
}

#[test]
fn other_postings_leave_letters() {
    let mut ledger = four_on((2026, 8, 25));
    let day = (2026, 8, 25);
    ledger.accounts[0].notice = letter(GIVES, 1, 40);
    ledger.accounts[2].notice = letter(TAKES, 9, 7);
    let stand = letters(&ledger);
    for bytes in [
        deliver(0, day, 100, 0),
        trade(0, 0, day, 5),
        trade(2, 1, day, 5),
        transfer(2, 0, day, 5),
        measure(0, day, 4_200),
        usage(0, day, 5),
        holiday(day, (2026, 12, 25)),
    ] {
        accept(&mut ledger, &bytes);
        assert_eq!(letters(&ledger), stand);
    }
    let mut ledger = told(true, ledger_on(MARCH));
    ledger.accounts[0].notice = letter(GIVES, 1, 40);
    accept(&mut ledger, &confiscated(0, MARCH, 5));
    assert_eq!(letters(&ledger), [(0, letter(GIVES, 1, 40))]);
    let mut ledger = told(true, ledger_on(START));
    ledger.accounts[0].notice = letter(GIVES, 1, 40);
    accept(&mut ledger, &terms(START, 0, 0));
    assert_eq!(letters(&ledger), [(0, letter(GIVES, 1, 40))]);
}

#[test]
fn a_closing_clears_letters() {
    for day in [TODAY, (2026, 8, 31)] {
        for is_new in [false, true] {
            let mut ledger = told(is_new, ready_to_close(day, |_| {}));
            let ready = ledger.accounts[0];
            let unsent = Notice {
                stands: false,
                ..letter(TAKES, 16, 0)
            };
            for (place, notice) in [(0, letter(GIVES, 1, 40)), (2, unsent), (3, NONE)] {
                ledger.accounts[place] = Account { notice, ..ready };
            }
            // An account that is not open keeps what it holds.
            ledger.accounts[9].notice = letter(TAKES, 0, 5);
            ledger.accounts[10].notice = unsent;
            close(&mut ledger, day, [0; 4]);
            assert_eq!(
                letters(&ledger),
                [(9, letter(TAKES, 0, 5)), (10, unsent)],
                "{day:?} {is_new}"
            );
        }
    }
}

#[test]
fn letters_of_two_days_do_not_meet() {
    let mut ledger = four();
    for account in &mut ledger.accounts[..4] {
        account.delivered = true;
    }
    accept(&mut ledger, &notice(0, 1, GIVES, TODAY, 70));
    accept(&mut ledger, &close_day(TODAY));
    let next = (TODAY.0, TODAY.1, TODAY.2 + 1);
    accept(&mut ledger, &notice(1, 0, TAKES, next, 70));
    assert_eq!(letters(&ledger), [(1, letter(TAKES, 0, 70))]);
    assert_eq!(banks(&ledger), [100; 4]);
    // Nor is the first writer kept from another.
    accept(&mut ledger, &notice(0, 2, GIVES, next, 70));
    assert_eq!(letters(&ledger).len(), 2);
}

#[test]
fn a_refused_closing_leaves_letters() {
    let mut ledger = four();
    accept(&mut ledger, &notice(0, 1, GIVES, TODAY, 70));
    for bytes in [close_day(TODAY), close_month(TODAY, [0; 4])] {
        let refused = post_checked(&mut ledger, &bytes).number;
        assert!(matches!(refused, 23 | 27));
        assert_eq!(letters(&ledger), [(0, letter(GIVES, 1, 70))]);
    }
    accept(&mut ledger, &notice(1, 0, TAKES, TODAY, 70));
    assert_eq!(banks(&ledger), [30, 170, 100, 100]);
}

#[test]
fn enrol_begins_without_a_letter() {
    for held in [letter(GIVES, 0, 5), letter(TAKES, 7, 9)] {
        for stands in [false, true] {
            for is_new in [false, true] {
                let mut ledger = told(is_new, ledger_on(START));
                ledger.accounts[3].notice = Notice { stands, ..held };
                accept(&mut ledger, &enrol(3, 2, START, 4_200, 0));
                assert_eq!(ledger.accounts[3].notice, NONE);
            }
        }
    }
    // Nor does one begin with a letter that waited for it.
    let mut ledger = told(true, ledger_on(START));
    ledger.accounts[0].bank = 1_000;
    ledger.accounts[0].notice = letter(GIVES, 3, 5);
    accept(&mut ledger, &enrol(3, 2, START, 4_200, 0));
    assert_eq!(letters(&ledger), [(0, letter(GIVES, 3, 5))]);
    accept(&mut ledger, &notice(3, 0, TAKES, START, 5));
    assert_eq!(ledger.accounts[3].bank, 5);
}

/// Every way to ask for the ranges, of old and new ledgers, begun or not, with
/// the letter in an open account and in one that is not.
fn is_in_range(held: Notice) -> bool {
    let mut told_by = Vec::new();
    for case in 0..8 {
        let (is_new, begun, open) = (case & 1 == 0, case & 2 == 0, case & 4 == 0);
        let mut ledger = told(is_new, four());
        ledger.begun = begun;
        ledger.accounts[if open { 3 } else { 12 }].notice = held;
        told_by.push(ledger.in_range());
        told_by.push(panel(&ledger).0 != 20);
        told_by.push(partners(&ledger, 0, 1).number != 20);
        told_by.push(measurement_day(&ledger, 2026, 5) != 0);
        for bytes in [
            terms(START, 0, 0),
            deliver(0, TODAY, 0, 0),
            transfer(0, 1, TODAY, 5),
            close_day(TODAY),
        ] {
            told_by.push(number(&ledger, &bytes) != 20);
        }
        if is_new {
            let bytes = notice(0, 1, GIVES, TODAY, 5);
            told_by.push(number(&ledger, &bytes) != 20);
        }
    }
    assert!(told_by.windows(2).all(|pair| pair[0] == pair[1]));
    told_by[0]
}

#[test]
fn number_20() {
    for (other, units, fits) in [
        (0, 1, true),
        (15, 1_000_000_000, true),
        (3, 5, true),
        (16, 5, false),
        (255, 5, false),
        (256 + 1, 5, false),
        ((1 << 32) + 1, 5, false),
        (usize::MAX, 5, false),
        (1, 0, false),
        (1, 1_000_000_001, false),
        (1, 1 << 32, false),
        (1, (1 << 32) + 5, false),
        (1, u64::MAX, false),
    ] {
        for flag in [GIVES, TAKES] {
            let standing = letter(flag, other, units);
            assert_eq!(is_in_range(standing), fits, "{standing:?}");
            // Where none stands nothing is looked at.
            let unsent = Notice {
                stands: false,
                ..standing
            };
            assert!(is_in_range(unsent));
        }
    }
}

#[test]
fn number_36() {
    for (day, retired) in [
        ((2026, 4, 1), false),
        ((2026, 12, 31), false),
        ((2027, 3, 30), false),
        (LAST, false),
        (RETIRED, true),
        ((2027, 4, 2), true),
        ((2028, 1, 1), true),
        ((2028, 3, 31), true),
        ((2099, 12, 31), true),
    ] {
        let mut ledger = four_on(day);
        let month = ledger.date().unwrap().month();
        let minimum = (month.minimum() * 62_505) as i64;
        ledger.accounts[0].bank = minimum + 10;
        ledger.accounts[1].bank = minimum;
        let bytes = transfer(0, 1, day, 10);
        assert_eq!(number(&ledger, &bytes), if retired { 36 } else { 0 });
        // An old ledger never gets it.
        assert_eq!(number(&told(false, ledger.clone()), &bytes), 0);
        // The letters go on.
        accept(&mut ledger, &notice(0, 1, GIVES, day, 10));
        accept(&mut ledger, &notice(1, 0, TAKES, day, 10));
        assert_eq!(ledger.accounts[1].bank, minimum + 10);
    }
}

#[test]
fn the_order_of_36() {
    let bytes = transfer(8, 9, RETIRED, 1_000_000_000);
    let mut ledger = four_on(RETIRED);
    // Before 24, and before 28.
    assert_eq!(number(&ledger, &bytes), 36);
    assert_eq!(number(&told(false, ledger.clone()), &bytes), 24);
    let past = transfer(0, 1, RETIRED, 1_000_000_000);
    assert_eq!(number(&ledger, &past), 36);
    assert_eq!(number(&told(false, ledger.clone()), &past), 28);
    // After 22: the entry's date is not the ledger's.
    ledger.day = 2;
    assert_eq!(number(&ledger, &bytes), 22);
    assert_eq!(number(&four_on(LAST), &bytes), 22);
    assert_eq!(number(&ledger, &transfer(0, 1, LAST, 1)), 22);
    ledger.begun = false;
    assert_eq!(number(&ledger, &bytes), 21);
    ledger.accounts[4].bcq = u64::MAX;
    assert_eq!(number(&ledger, &bytes), 20);
    // What is wrong with the entry comes first.
    assert_eq!(number(&ledger, &transfer(8, 8, RETIRED, 5)), 7);
    assert_eq!(number(&ledger, &transfer(8, 9, RETIRED, 0)), 6);
}

#[test]
fn trades_are_not_retired() {
    let mut ledger = four_on(RETIRED);
    ledger.accounts[0].bank = 1_000;
    accept(&mut ledger, &trade(0, 0, RETIRED, 10));
    accept(&mut ledger, &trade(0, 1, RETIRED, 10));
}

#[test]
fn the_day_on_which_it_retires() {
    // From one day to the next, by a closing.
    let mut ledger = told(true, ready_to_close(LAST, |a| a.bank = 25 * 62_505));
    ledger.accounts[1] = ledger.accounts[0];
    ledger.accounts[1].bank = 20 * 62_505;
    accept(&mut ledger, &transfer(0, 1, LAST, 10));
    accept(&mut ledger, &notice(0, 1, GIVES, LAST, 10));
    close(&mut ledger, LAST, [0; 4]);
    assert_eq!(letters(&ledger), []);
    assert_eq!(number(&ledger, &transfer(0, 1, RETIRED, 10)), 36);
    assert_eq!(number(&ledger, &transfer(0, 1, LAST, 10)), 22);
    let mut old = told(false, ledger);
    accept(&mut old, &transfer(0, 1, RETIRED, 10));
}

#[test]
fn in_archives() {
    let list = [
        terms(START, 0, 0),
        enrol(0, 2, START, 4_200, 1_000),
        enrol(1, 2, START, 4_200, 1_000),
        notice(0, 1, GIVES, START, 300),
        notice(0, 1, GIVES, START, 300), // 26, archived all the same
        notice(1, 0, TAKES, START, 300),
        transfer(0, 1, RETIRED, 5), // 22 here, and archived too
    ]
    .concat();
    let mut out = vec![0; 16 + list.len()];
    let written = write(true, &list, &mut out);
    assert_eq!((written.number, written.length), (0, out.len()));
    assert_eq!(check(&out), (0, 0));
    let all = replay(&out);
    assert_eq!((all.accepted, all.refused), (5, 2));
    assert_eq!(all.ledger.accounts[0].bank, 700);
    assert_eq!(all.ledger.accounts[1].bank, 1_300);
    // As old: 2 at its index, from reader and writer.
    let written = write(false, &list, &mut vec![0; 500]);
    assert_eq!((written.number, written.index), (2, 3));
    out[3] = 49;
    assert_eq!(check(&out), (2, 3));
    assert_eq!(replay(&out).ledger, Ledger::fresh(false));
    // A letter to itself is 7 of the bytes.
    out[3] = 50;
    out[16 + 3 * 32 + 1] = 1;
    assert_eq!(check(&out), (7, 3));
}

#[test]
fn a_retired_transfer_in_archives() {
    // An archive whose ledger is at the day: 36 from the state, and no more.
    let list = [terms(RETIRED, 0, 0), transfer(0, 1, RETIRED, 5)].concat();
    for (is_new, expected) in [(false, 24), (true, 36)] {
        let mut out = vec![0; 16 + list.len()];
        assert_eq!(write(is_new, &list, &mut out).number, 0);
        assert_eq!(check(&out), (0, 0));
        let all = replay(&out);
        assert_eq!((all.number, all.accepted, all.refused), (0, 1, 1));
        let mut ledger = Ledger::fresh(is_new);
        accept(&mut ledger, &list[..32]);
        assert_eq!(number(&ledger, &list[32..]), expected);
        assert_eq!(all.ledger, ledger);
    }
}

/// 29 can come of no pair: what the limits leave is in range, whatever the
/// banks and BCQs of the ledger handed in.
#[test]
fn no_29() {
    let banks = [-1_000_000_000, 0, 2_000_000_000, 100_000_000_000];
    for (giver, taker) in banks.iter().flat_map(|g| banks.map(|t| (*g, t))) {
        for bcq in [0, 62_505, 30_000_000] {
            for units in [1, 1_000_000_000] {
                let mut ledger = four();
                for (place, bank) in [(0, giver), (1, taker)] {
                    ledger.accounts[place].bank = bank;
                    ledger.accounts[place].bcq = bcq;
                }
                accept(&mut ledger, &notice(0, 1, GIVES, TODAY, units));
                let second = notice(1, 0, TAKES, TODAY, units);
                let number = post(&mut ledger, &second).number;
                assert!(matches!(number, 0 | 28));
                assert!(ledger.in_range());
            }
        }
    }
}
