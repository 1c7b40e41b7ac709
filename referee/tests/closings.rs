//! Both closings, one rule at a time.

mod common;

use common::*;
use referee::{Account, Ledger, Report};

const BCQ: i64 = 62_505;

/// The report and the account after the closing of that day.
fn closed(day: Day, prices: [u32; 4], change: impl FnOnce(&mut Account)) -> (Report, Account) {
    closed_from(ready_to_close(day, change), day, prices)
}

fn closed_from(mut ledger: Ledger, day: Day, prices: [u32; 4]) -> (Report, Account) {
    let answer = close(&mut ledger, day, prices);
    assert!(answer.reports[1..]
        .iter()
        .all(|&report| report == Report::default()));
    assert!(!ledger.touched);
    (answer.reports[0], ledger.accounts[0])
}

fn mask(day: Day, change: impl FnOnce(&mut Account)) -> u64 {
    let (report, account) = closed(day, [0; 4], change);
    assert_eq!(account.violation_days, u64::from(report.mask != 0));
    report.mask
}

#[test]
fn v3_net_of_the_month() {
    let day = (2026, 4, 10);
    assert_eq!(mask(day, |a| a.net = 15 * BCQ), 0);
    assert_eq!(mask(day, |a| a.net = 15 * BCQ + 1), 4);
    assert_eq!(mask((2026, 10, 10), |a| a.net = 7 * BCQ + 1), 4);
    assert_eq!(mask((2026, 8, 10), |a| a.net = 20 * BCQ), 0);
}

#[test]
fn v4_withdrawal_of_the_month() {
    for (month, p) in [(11, 40), (12, 40), (1, 40), (2, 30), (3, 20)] {
        let day = (2026, month, 10);
        assert_eq!(mask(day, |a| a.net = -p * BCQ), 0);
        assert_eq!(mask(day, |a| a.net = -p * BCQ - 1), 8);
        let carried = |a: &mut Account, net| {
            a.carry = 1_000;
            a.net = net;
        };
        assert_eq!(mask(day, |a| carried(a, -p * BCQ + 1_000)), 0);
        assert_eq!(mask(day, |a| carried(a, -p * BCQ + 999)), 8);
        // The limit is never below 0.
        let all = |a: &mut Account, net| {
            a.carry = 100_000_000_000;
            a.net = net;
        };
        assert_eq!(mask(day, |a| all(a, 0)), 0);
        assert_eq!(mask(day, |a| all(a, -1)), 8);
    }
    assert_eq!(mask((2026, 10, 10), |a| a.net = -100_000_000_000), 0);
}

#[test]
fn v5_as_february_or_march_ends() {
    for day in [(2026, 2, 28), (2024, 2, 29), (2026, 3, 31)] {
        assert_eq!(mask(day, |a| a.net = -10 * BCQ), 0);
        assert_eq!(mask(day, |a| a.net = -10 * BCQ + 1), 16);
    }
    assert_eq!(mask((2024, 2, 28), |_| {}), 0);
    assert_eq!(mask((2026, 1, 31), |_| {}), 0);
}

#[test]
fn v6_on_two_days() {
    assert_eq!(mask((2026, 6, 30), |a| a.bank = 60 * BCQ), 0);
    assert_eq!(mask((2026, 6, 30), |a| a.bank = 60 * BCQ + 1), 32);
    assert_eq!(mask((2026, 6, 29), |a| a.bank = 60 * BCQ + 1), 0);
    assert_eq!(mask((2026, 8, 31), |a| a.bank = 85 * BCQ), 0);
    assert_eq!(mask((2026, 8, 31), |a| a.bank = 85 * BCQ + 1), 32);
    assert_eq!(mask((2026, 8, 31), |a| a.bank = 103 * BCQ), 32 + 128);
}

#[test]
fn v7_and_v8_and_their_cash() {
    let day = (2026, 9, 10);
    let (report, account) = closed(day, [0; 4], |a| a.bank = -7);
    assert_eq!(report.mask, 64);
    assert_eq!(report.cash, 75 * BCQ + 7);
    assert_eq!(account.bank, 75 * BCQ);
    assert_eq!(account.cash_ins, 75 * BCQ as u64 + 7);
    assert_eq!(account.net, 0);

    let (report, account) = closed(day, [0; 4], |a| a.bank = 102 * BCQ + 1);
    assert_eq!(report.mask, 128);
    assert_eq!(report.cash, -17 * BCQ - 1);
    assert_eq!(account.bank, 85 * BCQ);
    assert_eq!(account.cash_outs, 17 * BCQ as u64 + 1);

    // An excuse stops V8, not V7, and lasts while the bank is above.
    let (report, account) = closed(day, [0; 4], |a| {
        a.bank = 200 * BCQ;
        a.excused = true;
    });
    assert_eq!(report, Report::default());
    assert!(account.excused);
    let (_, account) = closed(day, [0; 4], |a| {
        a.bank = 85 * BCQ;
        a.excused = true;
    });
    assert!(!account.excused);
    let (report, account) = closed(day, [0; 4], |a| {
        a.bank = -1;
        a.excused = true;
    });
    assert_eq!(report.mask, 64);
    assert!(!account.excused);
}

#[test]
fn marks_of_the_day_and_the_month() {
    let all = |a: &mut Account| {
        a.v1 = true;
        a.v2 = true;
        a.net = -1;
        a.sales = 2;
        a.purchases = 3;
        a.cash_ins = 4;
        a.cash_outs = 5;
        a.usage = 6;
    };
    let (report, account) = closed((2026, 5, 30), [0; 4], all);
    assert_eq!(report.mask, 3);
    assert_eq!(account.violation_days, 1);
    assert!(!account.delivered && !account.v1 && !account.v2);
    assert!(account.measured && account.metered);
    assert_eq!((account.net, account.sales, account.purchases), (-1, 2, 3));
    assert_eq!((account.cash_ins, account.cash_outs), (4, 5));
    assert_eq!(account.usage, 6);
    let (report, account) = closed((2026, 5, 31), [0; 4], all);
    assert_eq!(report.mask, 3);
    let clean = Account {
        violation_days: 1,
        ..marked_account()
    };
    assert_eq!(account, clean);
}

#[test]
fn the_bill() {
    let day = (2026, 5, 31);
    let mut ledger = ready_to_close(day, |a| {
        a.usage = 7;
        a.cash_ins = 1_001;
        a.cash_outs = 2_003;
        a.sales = 33;
        a.purchases = 77;
        a.owed = -5;
        a.pending = 1;
    });
    ledger.terms.demand_rate = 11;
    ledger.terms.commodity_rate = 13;
    let answer = close(&mut ledger, day, [3_001, 2_999, 2_500, 3]);
    // The MDDQ is the one before the rework.
    let bill = 11 * 1_500 + 13 * 7 + 1_001 * 110 * 3_002 / 10_000 - 2_003 * 90 * 2_503 / 10_000
        + 33 * 3_001 / 100
        - 77 * 3_001 / 100;
    assert_eq!(answer.reports[0].bill, bill);
    assert_eq!(ledger.accounts[0].owed, bill - 5);

    // One unit cashed out at 111 mills is 0, not −1.
    let (report, _) = closed(day, [111, 111, 111, 0], |a| a.cash_outs = 1);
    assert_eq!(report.bill, 0);
    // Today's cash is in the bill.
    let (report, _) = closed((2026, 4, 30), [1_000, 0, 0, 0], |a| a.bank = -100);
    assert_eq!((report.cash, report.bill), (100, 1_100));
    // A day's closing bills nothing.
    let (report, _) = closed((2026, 5, 30), [0; 4], |a| a.sales = 1_000_000);
    assert_eq!(report.bill, 0);
}

#[test]
fn the_carry() {
    for (month, last, p) in [(11, 30, 40), (12, 31, 40), (1, 31, 40), (2, 28, 30)] {
        let day = (2026, month, last);
        let (_, account) = closed(day, [0; 4], |a| a.net = -p * BCQ - 12);
        assert_eq!(account.carry, 12);
        let (_, account) = closed(day, [0; 4], |a| a.net = -p * BCQ + 12);
        assert_eq!(account.carry, 0);
        let (_, account) = closed(day, [0; 4], |a| {
            a.carry = 500;
            a.net = -p * BCQ;
        });
        assert_eq!(account.carry, 500);
        // The limit takes the BCQ before the rework.
        let (_, account) = closed(day, [0; 4], |a| {
            a.net = -p * BCQ - 12;
            a.pending = 1;
        });
        assert_eq!(account.carry, 12);
    }
    for day in [(2026, 3, 31), (2026, 4, 30), (2026, 10, 31)] {
        let (_, account) = closed(day, [0; 4], |a| {
            a.carry = 500;
            a.net = -90 * BCQ;
        });
        assert_eq!(account.carry, 0);
    }
    // A day's closing keeps it.
    let (_, account) = closed((2026, 11, 29), [0; 4], |a| {
        a.carry = 500;
        a.net = -90 * BCQ;
    });
    assert_eq!(account.carry, 500);
}

#[test]
fn the_step_and_the_excuse() {
    let day = (2026, 5, 31);
    let (_, account) = closed(day, [0; 4], |a| a.pending = 1);
    assert_eq!((account.k, account.pending), (1, 1));
    assert_eq!((account.mddq, account.bcq), (750, 31_252));
    assert!(account.excused);
    let (_, account) = closed(day, [0; 4], |a| {
        a.pending = 3;
        a.over = 1;
    });
    assert_eq!((account.k, account.mddq, account.bcq), (3, 2_250, 93_757));
    assert_eq!(account.over, 1);
    assert!(!account.excused);
    // An excuse outlives the month while the bank is above the maximum.
    let (_, account) = closed(day, [0; 4], |a| {
        a.bank = 61 * BCQ;
        a.excused = true;
    });
    assert!(account.excused);
}

#[test]
fn the_forfeit() {
    for (day, p) in [((2026, 1, 31), 65), ((2026, 3, 31), 25)] {
        let (report, account) = closed(day, [0; 4], |a| a.bank = p * BCQ);
        assert_eq!((report.forfeit, account.bank), (0, p * BCQ));
        let (report, account) = closed(day, [0; 4], |a| a.bank = p * BCQ + 9);
        assert_eq!((report.forfeit, account.bank), (9, p * BCQ));
        // Over the reworked BCQ, excused or not.
        let (report, account) = closed(day, [0; 4], |a| {
            a.bank = p * BCQ;
            a.pending = 1;
            a.excused = true;
        });
        assert_eq!(report.forfeit, (p * BCQ - p * 31_252) as u64);
        assert_eq!(account.bank, p * 31_252);
        assert!(account.excused);
    }
    for day in [(2026, 2, 28), (2026, 1, 30), (2026, 12, 31)] {
        let (report, account) = closed(day, [0; 4], |a| a.bank = 90 * BCQ);
        assert_eq!((report.forfeit, account.bank), (0, 90 * BCQ));
    }
    // On January 31 cash-out comes first, then the forfeit.
    let (report, account) = closed((2026, 1, 31), [0; 4], |a| a.bank = 103 * BCQ);
    assert_eq!((report.cash, report.forfeit), (-5 * BCQ, 33 * BCQ as u64));
    assert_eq!(account.bank, 65 * BCQ);
}

/// The forfeit and the bank that the closing of a new ledger leaves, with
/// these units posted.
fn forfeited(day: Day, posted: Option<u32>, change: impl FnOnce(&mut Account)) -> (u64, i64) {
    let mut ledger = told(true, ready_to_close(day, change));
    if let Some(units) = posted {
        accept(&mut ledger, &confiscated(0, day, units));
    }
    let (report, account) = closed_from(ledger, day, [0; 4]);
    assert_eq!((account.confiscation, account.confiscated), (0, false));
    (report.forfeit, account.bank)
}

#[test]
fn the_forfeit_of_a_new_ledger() {
    for year in [2000, 2026, 2099] {
        // 65 and 25 times 62,505.
        for (month, kept) in [(1, 4_062_825), (3, 1_562_625)] {
            let day = (year, month, 31);
            let by = |excess, posted| forfeited(day, posted, |a| a.bank = kept + excess);
            // Excess above, equal to and below the amount.
            assert_eq!(by(9, Some(8)), (8, kept + 1));
            assert_eq!(by(9, Some(9)), (9, kept));
            assert_eq!(by(9, Some(10)), (9, kept));
            assert_eq!(by(9, Some(1_000_000_000)), (9, kept));
            assert_eq!(by(1, Some(1)), (1, kept));
            // 0 posted, and nothing posted.
            assert_eq!(by(9, Some(0)), (0, kept + 9));
            assert_eq!(by(9, None), (0, kept + 9));
            // No excess.
            assert_eq!(by(0, Some(5)), (0, kept));
            assert_eq!(by(-1, Some(5)), (0, kept - 1));
            assert_eq!(by(-kept, Some(5)), (0, 0));
        }
    }
    // The most of both.
    for day in [JANUARY, MARCH] {
        let by = |posted| {
            forfeited(day, posted, |a| {
                a.bank = 100_000_000_000;
                a.excused = true;
            })
        };
        assert_eq!(by(Some(1_000_000_000)), (1_000_000_000, 99_000_000_000));
        assert_eq!(by(None), (0, 100_000_000_000));
    }
}

#[test]
fn the_excess_is_measured_as_before() {
    // Over the reworked BCQ: a fall to 31,252, a rise to 93,757.
    for (day, bank, kept, excess) in [
        (JANUARY, 4_062_825, 2_031_380, 2_031_445),
        (MARCH, 1_562_625, 781_300, 781_325),
    ] {
        let falling = |posted| {
            forfeited(day, Some(posted), |a| {
                a.bank = bank;
                a.pending = 1;
            })
        };
        assert_eq!(falling(excess - 1), (u64::from(excess) - 1, kept + 1));
        assert_eq!(falling(excess), (u64::from(excess), kept));
        assert_eq!(falling(excess + 1), (u64::from(excess), kept));
        let rising = forfeited(day, Some(9), |a| {
            a.bank = bank + 9;
            a.pending = 3;
        });
        assert_eq!(rising, (0, bank + 9));
    }
    // After the cash of the day: from 103 percent down to 98 in January and
    // 45 in March, so 33 and 20 percent are in excess.
    for (day, cash, excess, kept) in [
        (JANUARY, -312_525, 2_062_665, 4_062_825),
        (MARCH, -3_625_290, 1_250_100, 1_562_625),
    ] {
        for (posted, forfeit) in [(excess - 1, excess - 1), (excess + 1, excess)] {
            let mut ledger = told(true, ready_to_close(day, |a| a.bank = 6_438_015));
            accept(&mut ledger, &confiscated(0, day, posted));
            let (report, account) = closed_from(ledger, day, [0; 4]);
            assert_eq!((report.cash, report.forfeit), (cash, u64::from(forfeit)));
            assert_eq!(account.bank, kept + i64::from(excess - forfeit));
        }
        // Cash-in ends below what is kept.
        let least = if day == JANUARY { 3_687_795 } else { 1_125_090 };
        assert_eq!(forfeited(day, Some(5), |a| a.bank = -1), (0, least));
    }
}

#[test]
fn the_recorded_amount_alone_bounds_the_forfeit() {
    for (day, kept) in [(JANUARY, 4_062_825), (MARCH, 1_562_625)] {
        for (confiscation, confiscated) in [(4, true), (4, false), (0, true), (0, false)] {
            let ledger = ready_to_close(day, |a| {
                a.bank = kept + 9;
                a.confiscation = confiscation;
                a.confiscated = confiscated;
            });
            let clean = Account {
                bank: kept + 9,
                violation_days: u64::from(day == MARCH), // V5
                ..marked_account()
            };
            let (report, account) = closed_from(told(true, ledger.clone()), day, [0; 4]);
            assert_eq!(report.forfeit, confiscation);
            let bank = kept + 9 - confiscation as i64;
            assert_eq!(account, Account { bank, ..clean });
            // An old ledger does not look at it.
            let (report, account) = closed_from(told(false, ledger), day, [0; 4]);
            assert_eq!(report.forfeit, 9);
            assert_eq!(
                account,
                Account {
                    bank: kept,
                    ..clean
                }
            );
        }
    }
}

#[test]
fn no_other_day_forfeits() {
    for (month, d) in [
        (1, 30),
        (2, 28),
        (3, 30),
        (4, 30),
        (6, 30),
        (8, 31),
        (12, 31),
    ] {
        let posted = |a: &mut Account| {
            a.bank = 90 * BCQ;
            a.confiscation = 1_000_000_000;
            a.confiscated = true;
        };
        assert_eq!(forfeited((2026, month, d), None, posted), (0, 90 * BCQ));
    }
}

#[test]
fn each_account_by_its_own_amount() {
    for (day, kept) in [(JANUARY, 4_062_825), (MARCH, 1_562_625)] {
        let mut ledger = told(true, ready_to_close(day, |a| a.bank = kept + 9));
        for place in [3, 7, 15] {
            ledger.accounts[place] = ledger.accounts[0];
        }
        ledger.accounts[15].bank = kept - 9;
        for (a, units) in [(0, 5), (7, 100), (15, 100)] {
            accept(&mut ledger, &confiscated(a, day, units));
        }
        let answer = accept(&mut ledger, &close_month(day, [0; 4]));
        let forfeits = answer.reports.map(|report| report.forfeit);
        assert_eq!(forfeits, [5, 0, 0, 0, 0, 0, 0, 9, 0, 0, 0, 0, 0, 0, 0, 0]);
        let banks = [0, 3, 7, 15].map(|place| ledger.accounts[place].bank);
        assert_eq!(banks, [kept + 4, kept + 9, kept, kept - 9]);
        assert!(ledger.is_new);
    }
}

#[test]
fn amount_and_mark_clear_for_open_accounts() {
    let days = [(2026, 5, 30), (2026, 5, 31), (2026, 1, 30), JANUARY, MARCH];
    for (is_new, day) in days.into_iter().flat_map(|day| [(false, day), (true, day)]) {
        let mut ledger = told(
            is_new,
            ready_to_close(day, |a| {
                a.confiscation = 7;
                a.confiscated = true;
            }),
        );
        ledger.accounts[2] = ledger.accounts[0];
        ledger.accounts[1] = Account {
            opened: false,
            bank: 6_000_000,
            ..ledger.accounts[0]
        };
        let kept = ledger.accounts[1];
        close(&mut ledger, day, [0; 4]);
        for place in [0, 2] {
            assert_eq!(ledger.accounts[place].confiscation, 0);
            assert!(!ledger.accounts[place].confiscated);
        }
        assert_eq!(ledger.accounts[1], kept);
        assert_eq!(ledger.is_new, is_new);
    }
}

#[test]
fn an_amount_is_for_its_day_alone() {
    let mut ledger = told(true, ready_to_close(JANUARY, |a| a.bank = 4_062_834));
    accept(&mut ledger, &confiscated(0, JANUARY, 1_000));
    let answer = close(&mut ledger, JANUARY, [0; 4]);
    assert_eq!(answer.reports[0].forfeit, 9);
    // What was posted above the excess is not kept for March.
    (ledger.month, ledger.day) = (3, 31);
    accept(&mut ledger, &deliver(0, MARCH, 0, 0));
    accept(&mut ledger, &usage(0, MARCH, 0));
    let mut second = ledger.clone();
    let answer = close(&mut ledger, MARCH, [0; 4]);
    assert_eq!(answer.reports[0].forfeit, 0);
    // March has its own posting.
    accept(&mut second, &confiscated(0, MARCH, 4));
    let answer = close(&mut second, MARCH, [0; 4]);
    assert_eq!(answer.reports[0].forfeit, 4);
    assert_eq!(second.accounts[0].bank, 4_062_821);
}

#[test]
fn the_date_moves_on() {
    for (day, next) in [
        ((2026, 4, 1), (2026, 4, 2)),
        ((2026, 4, 30), (2026, 5, 1)),
        ((2026, 12, 31), (2027, 1, 1)),
        ((2028, 2, 28), (2028, 2, 29)),
        ((2028, 2, 29), (2028, 3, 1)),
    ] {
        // No open account at all.
        let mut ledger = ledger_on(day);
        ledger.accounts[0] = Account::default();
        ledger.touched = true;
        let before = ledger.clone();
        let answer = close(&mut ledger, day, [0; 4]);
        assert_eq!(answer.reports, [Report::default(); 16]);
        assert_eq!((ledger.year, ledger.month, ledger.day), next);
        assert!(!ledger.touched);
        assert_eq!(ledger.accounts, before.accounts);
    }
}
