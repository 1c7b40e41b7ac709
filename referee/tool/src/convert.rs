//! Ledgers and answers from one implementation's types to the other's, number by number.

use nedrulov as library;

pub fn to_library(ledger: &referee::Ledger) -> library::Ledger {
    let terms = &ledger.terms;
    library::Ledger {
        begun: ledger.begun,
        touched: ledger.touched,
        is_new: ledger.is_new,
        date: library::Date {
            year: ledger.year,
            month: ledger.month,
            day: ledger.day,
        },
        terms: library::Terms {
            no_notice: terms.no_notice,
            design_day: terms.design_day,
            storage: terms.storage,
            retainage: terms.retainage,
            demand_rate: terms.demand_rate,
            commodity_rate: terms.commodity_rate,
        },
        holidays: holidays_to_library(&ledger.holidays),
        accounts: ledger.accounts.map(|account| account_to_library(&account)),
    }
}

/// All places, those past the count too.
fn holidays_to_library(holidays: &referee::Holidays) -> library::Holidays {
    library::Holidays {
        count: holidays.count,
        dates: holidays.dates.map(|named| library::Date {
            year: named.year,
            month: named.month,
            day: named.day,
        }),
    }
}

fn account_to_library(account: &referee::Account) -> library::Account {
    library::Account {
        opened: account.opened,
        excused: account.excused,
        today: library::Today {
            delivered: account.delivered,
            v1: account.v1,
            v2: account.v2,
            confiscated: account.confiscated,
            confiscation: account.confiscation,
            notice: notice_to_library(&account.notice),
        },
        bank: account.bank,
        mdq: account.mdq,
        step: library::Step {
            k: account.k,
            pending: account.pending,
            over: account.over,
            under: account.under,
        },
        capacity: library::Capacity {
            mddq: account.mddq,
            bcq: account.bcq,
        },
        month: month_to_library(account),
        carry: account.carry,
        owed: account.owed,
        violation_days: account.violation_days,
    }
}

/// All members, those of none that stands too.
fn notice_to_library(notice: &referee::Notice) -> library::Notice {
    library::Notice {
        stands: notice.stands,
        takes: notice.takes,
        other: notice.other,
        units: notice.units,
    }
}

fn month_to_library(account: &referee::Account) -> library::ThisMonth {
    library::ThisMonth {
        totals: library::Totals {
            net: account.net,
            sales: account.sales,
            purchases: account.purchases,
            cash_ins: account.cash_ins,
            cash_outs: account.cash_outs,
            usage: account.usage,
        },
        measured: account.measured,
        metered: account.metered,
    }
}

pub fn to_referee(ledger: &library::Ledger) -> referee::Ledger {
    let terms = &ledger.terms;
    referee::Ledger {
        begun: ledger.begun,
        touched: ledger.touched,
        is_new: ledger.is_new,
        year: ledger.date.year,
        month: ledger.date.month,
        day: ledger.date.day,
        terms: referee::Terms {
            no_notice: terms.no_notice,
            design_day: terms.design_day,
            storage: terms.storage,
            retainage: terms.retainage,
            demand_rate: terms.demand_rate,
            commodity_rate: terms.commodity_rate,
        },
        holidays: holidays_to_referee(&ledger.holidays),
        accounts: ledger.accounts.map(|account| account_to_referee(&account)),
    }
}

fn holidays_to_referee(holidays: &library::Holidays) -> referee::Holidays {
    referee::Holidays {
        count: holidays.count,
        dates: holidays.dates.map(|date| referee::Named {
            year: date.year,
            month: date.month,
            day: date.day,
        }),
    }
}

fn account_to_referee(account: &library::Account) -> referee::Account {
    let (step, month, today) = (&account.step, &account.month, &account.today);
    let totals = &month.totals;
    referee::Account {
        opened: account.opened,
        bank: account.bank,
        mdq: account.mdq,
        k: step.k,
        pending: step.pending,
        over: step.over,
        under: step.under,
        mddq: account.capacity.mddq,
        bcq: account.capacity.bcq,
        net: totals.net,
        sales: totals.sales,
        purchases: totals.purchases,
        cash_ins: totals.cash_ins,
        cash_outs: totals.cash_outs,
        usage: totals.usage,
        carry: account.carry,
        owed: account.owed,
        violation_days: account.violation_days,
        confiscation: today.confiscation,
        notice: referee::Notice {
            stands: today.notice.stands,
            takes: today.notice.takes,
            other: today.notice.other,
            units: today.notice.units,
        },
        delivered: today.delivered,
        measured: month.measured,
        metered: month.metered,
        v1: today.v1,
        v2: today.v2,
        confiscated: today.confiscated,
        excused: account.excused,
    }
}

pub fn answer(answer: &referee::Answer) -> library::Answer {
    library::Answer {
        number: answer.number,
        reports: answer.reports.map(|report| library::Report {
            mask: report.mask,
            cash: report.cash,
            forfeit: report.forfeit,
            bill: report.bill,
        }),
    }
}

pub fn partner_list(list: &referee::PartnerList) -> library::PartnerList {
    library::PartnerList {
        number: list.number,
        count: list.count as u64,
        accounts: list.accounts,
    }
}

#[cfg(test)]
mod tests {
    use super::*;
    use crate::ledgers::any_ledger;
    use crate::random::Random;
    use std::collections::HashSet;

    #[test]
    fn fresh_is_fresh() {
        for is_new in [false, true] {
            let (own, ours) = (referee::Ledger::fresh(is_new), library::fresh(is_new));
            assert_eq!(to_library(&own), ours);
            assert_eq!(to_referee(&ours), own);
            assert_eq!((own.is_new, ours.is_new), (is_new, is_new));
        }
    }

    #[test]
    fn any_ledger_comes_back() {
        let mut random = Random::new(1);
        for _ in 0..2_000 {
            let ledger = any_ledger(&mut random);
            assert_eq!(to_referee(&to_library(&ledger)), ledger);
        }
    }

    /// A different number in every field: none is lost, and none taken for another.
    #[test]
    fn no_two_numbers_are_swapped() {
        let mut ledger = referee::Ledger::fresh(false);
        let a = &mut ledger.accounts[3];
        (a.bank, a.mdq, a.k, a.pending, a.over, a.under) = (901, 902, 903, 904, 905, 906);
        (a.mddq, a.bcq, a.net, a.sales, a.purchases) = (907, 908, 909, 910, 911);
        (a.cash_ins, a.cash_outs, a.usage) = (912, 913, 914);
        (a.carry, a.owed, a.violation_days, a.confiscation) = (915, 916, 917, 918);
        (a.notice.other, a.notice.units) = (919, 920);
        ledger.holidays.count = 921;
        for (place, date) in (0..).zip(&mut ledger.holidays.dates) {
            let first = 922 + 3 * place;
            (date.year, date.month, date.day) = (first, first + 1, first + 2);
        }
        let there = format!("{:#?}", to_library(&ledger));
        let names = |text: &str| -> HashSet<String> {
            let lines = text.lines().map(|line| line.trim().to_string());
            lines.filter(|line| line.contains(": 9")).collect()
        };
        assert_eq!(names(&there).len(), 20 + 1 + 3 * 16);
        assert_eq!(names(&there), names(&format!("{ledger:#?}")));
        assert_eq!(to_referee(&to_library(&ledger)), ledger);
    }

    /// Their names tell day from month; here the places are told from each other.
    #[test]
    fn dates_keep_their_places() {
        for place in 0..16 {
            let mut ledger = referee::Ledger::fresh(true);
            ledger.holidays.count = 3;
            ledger.holidays.dates[place].month = u64::MAX;
            let there = to_library(&ledger);
            assert_eq!(there.holidays.count, 3);
            for (at, date) in there.holidays.dates.iter().enumerate() {
                let month = if at == place { u64::MAX } else { 0 };
                assert_eq!((date.year, date.month, date.day), (0, month, 0));
            }
            assert_eq!(to_referee(&there), ledger);
        }
    }

    #[test]
    fn marks_keep_their_names() {
        for place in 0..13 {
            let mut ledger = referee::Ledger::fresh(false);
            let a = &mut ledger.accounts[15];
            let marks = [
                &mut ledger.begun,
                &mut ledger.touched,
                &mut ledger.is_new,
                &mut a.opened,
                &mut a.delivered,
                &mut a.measured,
                &mut a.metered,
                &mut a.v1,
                &mut a.v2,
                &mut a.confiscated,
                &mut a.excused,
                &mut a.notice.stands,
                &mut a.notice.takes,
            ];
            *marks.into_iter().nth(place).unwrap() = true;
            let text = format!("{:#?}", to_library(&ledger));
            let back = format!("{ledger:#?}");
            let on = |text: &str| -> Vec<String> {
                let lines = text.lines().filter(|line| line.contains("true"));
                lines.map(|line| line.trim().to_string()).collect()
            };
            assert_eq!(on(&text), on(&back));
            assert_eq!(to_referee(&to_library(&ledger)), ledger);
        }
    }
}
