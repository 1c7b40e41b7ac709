//! What the accepted closings of one gas year showed, account by account.

use crate::calendar::{day_of_gas_year, gas_month, gas_year_name, gas_year_of};
use crate::entry::{Day, Entry, Kind};
use crate::replay::Step;
use nedrulov::{band, Band, Ledger, Report, ACCOUNTS, MONTHS};

/// One account on one closed day.
pub struct BankDay {
    pub date: Day,
    /// Days since April 1.
    pub offset: usize,
    /// After the closing, in units.
    pub bank: i64,
    /// In Dth, as the closing found it.
    pub bcq: u64,
    pub report: Report,
    /// What an entry of the day told as confiscated, in units.
    pub confiscated: Option<u64>,
}

impl BankDay {
    /// The month's least and largest bank.
    fn band(&self) -> Band {
        band(self.date.month.into(), self.bcq)
    }

    pub fn minimum(&self) -> i64 {
        self.band().minimum as i64
    }

    pub fn maximum(&self) -> i64 {
        self.band().maximum as i64
    }

    pub fn is_violation_day(&self) -> bool {
        self.report.mask != 0
    }
}

/// An account over the year. Closings follow each other day by day, so the days have no gap.
pub struct Course {
    pub account: usize,
    pub days: Vec<BankDay>,
}

impl Course {
    pub fn violation_days(&self) -> u64 {
        let days = self.days.iter();
        days.filter(|day| day.is_violation_day()).count() as u64
    }

    pub fn has_confiscations(&self) -> bool {
        self.days.iter().any(|day| day.confiscated.is_some())
    }
}

/// Filled step by step as an archive is replayed.
pub struct GasYear {
    pub year: u16,
    /// Of all accounts; those that were at no closing of the year have no days.
    accounts: [Course; ACCOUNTS],
    /// Total gas in bank after each month's closing, from April on.
    pub totals: [Option<i64>; MONTHS],
    /// First and last date of an accepted posting in the whole archive.
    pub span: Option<(Day, Day)>,
    /// The year's last accepted posting.
    pub last: Option<Last>,
    /// Postings of the year.
    pub accepted: u64,
    pub refused: u64,
}

/// A posting and the ledger after it.
pub struct Last {
    pub entry: Entry,
    pub ledger: Ledger,
}

impl Last {
    /// Whether nothing of the gas year can follow.
    pub fn ends_the_year(&self) -> bool {
        self.entry.kind == Kind::CloseMonth && self.entry.date.month == 3
    }
}

impl GasYear {
    pub fn new(year: u16) -> GasYear {
        let course = |account| Course {
            account,
            days: Vec::new(),
        };
        GasYear {
            year,
            accounts: std::array::from_fn(course),
            totals: [None; MONTHS],
            span: None,
            last: None,
            accepted: 0,
            refused: 0,
        }
    }

    pub fn add(&mut self, step: &Step) {
        let of_year = gas_year_of(posting_day(step)) == self.year;
        if !step.accepted() {
            self.refused += u64::from(of_year);
            return;
        }
        let date = step.entry.date;
        self.span = Some((self.span.map_or(date, |(first, _)| first), date));
        if of_year {
            self.add_accepted(step);
        }
    }

    fn add_accepted(&mut self, step: &Step) {
        self.accepted += 1;
        self.last = Some(Last {
            entry: step.entry,
            ledger: *step.after,
        });
        if step.entry.kind.is_closing() {
            self.add_closing(step);
        }
    }

    fn add_closing(&mut self, step: &Step) {
        let date = step.entry.date;
        let offset = day_of_gas_year(date);
        for course in &mut self.accounts {
            let account = course.account;
            let found = &step.before.accounts[account];
            if found.opened {
                course.days.push(BankDay {
                    date,
                    offset,
                    bank: step.after.accounts[account].bank,
                    bcq: found.capacity.bcq,
                    report: step.answer.reports[account],
                    confiscated: found.today.confiscated.then_some(found.today.confiscation),
                });
            }
        }
        if step.entry.kind == Kind::CloseMonth {
            self.totals[gas_month(date.month)] = Some(nedrulov::panel(*step.after).figure);
        }
    }

    /// Of the accounts that were open at a closing of the year, in order.
    pub fn courses(&self) -> impl Iterator<Item = &Course> {
        let accounts = self.accounts.iter();
        accounts.filter(|course| !course.days.is_empty())
    }

    pub fn name(&self) -> String {
        gas_year_name(self.year)
    }

    /// Whether the archive has accepted postings of other gas years too.
    pub fn is_part_of_archive(&self) -> bool {
        let differs = |date| gas_year_of(date) != self.year;
        self.span
            .is_some_and(|(first, last)| differs(first) || differs(last))
    }

    pub fn last_closing(&self) -> Option<Day> {
        let course = self.courses().next()?;
        course.days.last().map(|day| day.date)
    }
}

/// The day on which an entry was posted: a refused one may bear any date, but the ledger has its own as soon as it has
/// begun.
fn posting_day(step: &Step) -> Day {
    let ledger = step.before;
    match step.accepted() || !ledger.begun {
        true => step.entry.date,
        false => Day {
            year: ledger.date.year as u16,
            month: ledger.date.month as u8,
            day: ledger.date.day as u8,
        },
    }
}
