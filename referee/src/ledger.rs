//! The ledger, the ranges of its numbers, and the panel.

use crate::calendar::Date;
use crate::holidays::Holidays;
use crate::notices::Notice;
use crate::number;
use crate::tariff::{self, RUN_MAX};
use std::ops::RangeInclusive;

pub use crate::tariff::{Prices, Terms};

pub const ACCOUNTS: usize = 16;

const BANK: RangeInclusive<i64> = -1_000_000_000..=100_000_000_000;
const NET: RangeInclusive<i64> = -100_000_000_000..=100_000_000_000;
const OWED: RangeInclusive<i64> = -1_000_000_000_000_000..=1_000_000_000_000_000;
const STEPS: RangeInclusive<u64> = 1..=100;
const MONTH_MAX: u64 = 100_000_000_000;
const MDDQ_MAX: u64 = 300_000;
const BCQ_MAX: u64 = 30_000_000;
const VIOLATION_DAYS_MAX: u64 = 40_000;
pub(crate) const MDQ_MAX: u64 = 300_000;
pub(crate) const MCF_MAX: u64 = 100_000_000;
pub(crate) const CONFISCATION_MAX: u64 = 1_000_000_000;

/// A supplier's account. Gas is in units unless said otherwise.
#[derive(Clone, Copy, PartialEq, Eq, Debug, Default)]
pub struct Account {
    pub opened: bool,
    pub bank: i64,
    /// Dth.
    pub mdq: u64,
    /// The step in force.
    pub k: u64,
    /// The step that takes over at the month's end.
    pub pending: u64,
    /// Measurements running above the step.
    pub over: u64,
    /// Measurements running below the step.
    pub under: u64,
    /// Dth.
    pub mddq: u64,
    /// Dth.
    pub bcq: u64,

    /// The month's deliveries less back-casts, after retainage.
    pub net: i64,
    /// The month's company sales to the account.
    pub sales: u64,
    /// The month's company purchases from the account.
    pub purchases: u64,
    pub cash_ins: u64,
    pub cash_outs: u64,
    /// The month's consumption, Mcf.
    pub usage: u64,

    /// Excess withdrawal carried from the month before.
    pub carry: u64,
    /// Mills.
    pub owed: i64,
    pub violation_days: u64,
    /// The amount that CONFISCATED posted today.
    pub confiscation: u64,
    /// The letter of today that waits for its counterpart.
    pub notice: Notice,

    /// Mark of the day: DELIVER was accepted.
    pub delivered: bool,
    /// Mark of the month: MEASURE was accepted.
    pub measured: bool,
    /// Mark of the month: USAGE was accepted.
    pub metered: bool,
    /// Mark of the day: the delivery broke V1.
    pub v1: bool,
    /// Mark of the day: the delivery broke V2.
    pub v2: bool,
    /// Mark of the day: CONFISCATED was accepted.
    pub confiscated: bool,
    /// The step fell, and the bank need not fit at once.
    pub excused: bool,
}

impl Account {
    /// Whether every number is in its range. Steps are bounded only while the
    /// account is open, and a letter only while it stands; marks have no range.
    pub fn in_range(&self) -> bool {
        let month = [
            self.sales,
            self.purchases,
            self.cash_ins,
            self.cash_outs,
            self.carry,
        ];
        BANK.contains(&self.bank)
            && NET.contains(&self.net)
            && month.iter().all(|&number| number <= MONTH_MAX)
            && self.usage <= MCF_MAX
            && OWED.contains(&self.owed)
            && self.violation_days <= VIOLATION_DAYS_MAX
            && self.confiscation <= CONFISCATION_MAX
            && self.notice.in_range()
            && (!self.opened || STEPS.contains(&self.k) && STEPS.contains(&self.pending))
            && self.over <= RUN_MAX
            && self.under <= RUN_MAX
            && self.mdq <= MDQ_MAX
            && self.mddq <= MDDQ_MAX
            && self.bcq <= BCQ_MAX
    }

    /// p percent of the account's BCQ, in units.
    pub(crate) fn percent(&self, p: u64) -> i64 {
        tariff::percent(p, self.bcq)
    }

    /// MDDQ and BCQ from the step and the terms.
    pub(crate) fn rework(&mut self, terms: &Terms) {
        self.mddq = terms.mddq(self.k);
        self.bcq = terms.bcq(self.mddq);
    }
}

/// The whole ledger. Every number is open, so that any ledger can be built,
/// also one that is out of range.
#[derive(Clone, PartialEq, Eq, Debug)]
pub struct Ledger {
    pub begun: bool,
    /// Something was accepted today.
    pub touched: bool,
    /// Kept from the fresh ledger on: CONFISCATED exists, and bounds the
    /// forfeit; HOLIDAY and NOTICE exist; TRANSFER ends.
    pub is_new: bool,
    pub year: u64,
    pub month: u64,
    pub day: u64,
    pub terms: Terms,
    pub holidays: Holidays,
    pub accounts: [Account; ACCOUNTS],
}

impl Ledger {
    /// No terms, no date, no holiday, no open account.
    pub fn fresh(is_new: bool) -> Ledger {
        Ledger {
            begun: false,
            touched: false,
            is_new,
            year: 0,
            month: 0,
            day: 0,
            terms: Terms::default(),
            holidays: Holidays::default(),
            accounts: [Account::default(); ACCOUNTS],
        }
    }

    /// Number 20 is for a ledger that is not. Terms and date are free until
    /// the ledger has begun; the dates held are not.
    pub fn in_range(&self) -> bool {
        self.accounts.iter().all(Account::in_range)
            && self.holidays.in_range()
            && (!self.begun || self.terms.in_range() && self.date().is_some())
    }

    /// The ledger's date, if its three numbers are one.
    pub fn date(&self) -> Option<Date> {
        Date::new(self.year, self.month, self.day)
    }

    pub(crate) fn set_date(&mut self, date: Date) {
        self.year = date.year();
        self.month = date.month().number();
        self.day = date.day();
    }

    pub(crate) fn open_accounts(&self) -> impl Iterator<Item = &Account> {
        self.accounts.iter().filter(|account| account.opened)
    }
}

/// The panel's number and figure: the sum of open banks, or 20 and 0.
pub fn panel(ledger: &Ledger) -> (u64, i64) {
    if ledger.in_range() {
        let figure = ledger.open_accounts().map(|account| account.bank).sum();
        (number::ACCEPTED, figure)
    } else {
        (number::BAD_LEDGER, 0)
    }
}
