//! The statement of a supplier: its bank, its debt and its violation days, added up from entries and answers.

use crate::archive::Refusal;
use crate::entry::{Day, Entry, Kind};
use crate::movements::{Cause, Movement, Movements};
use crate::replay::{replay, Step};
use crate::words::violation_list;
use nedrulov::{Ledger, Report, ACCOUNTS};

/// The terms of one supplier's bank, added up from entries and answers (never read from the ledger).
/// Every term is a size; `terms` takes away what left the bank. Only deliveries, being net, have a sign.
#[derive(Clone, Debug, Default, PartialEq, Eq)]
pub struct Statement {
    pub account: usize,
    pub opening: i64,
    pub deliveries: i64,
    pub sales: i64,
    pub purchases: i64,
    pub transfers_in: i64,
    pub transfers_out: i64,
    pub cash_ins: i64,
    pub cash_outs: i64,
    pub forfeits: i64,
    /// No term: what is confiscated moves no gas by itself.
    pub confiscations: Vec<Confiscation>,
    pub bills: Vec<Bill>,
    pub violation_days: u64,
    /// Days on which each of V1 to V8 was reported.
    pub violations: [u64; 8],
    /// What the ledger says, to hold beside the sums.
    pub bank: i64,
    pub owed: i64,
    pub days: u64,
}

#[derive(Clone, Copy, Debug, PartialEq, Eq)]
pub struct Bill {
    pub date: Day,
    pub mills: i64,
}

/// What the storage provider confiscated on a day, and what the closing of that day then forfeited.
#[derive(Clone, Copy, Debug, PartialEq, Eq)]
pub struct Confiscation {
    pub date: Day,
    pub units: i64,
    /// None where the day is not closed.
    pub forfeit: Option<i64>,
}

impl Statement {
    /// The terms by name, in units. What leaves the bank is negative, so that they add up.
    pub fn terms(&self) -> [(&'static str, i64); 9] {
        [
            ("opening", self.opening),
            (
                "deliveries less back-casts, after retainage",
                self.deliveries,
            ),
            ("company sales to it", self.sales),
            ("company purchases from it", -self.purchases),
            ("transfers in", self.transfers_in),
            ("transfers out", -self.transfers_out),
            ("cash-ins", self.cash_ins),
            ("cash-outs", -self.cash_outs),
            ("forfeits", -self.forfeits),
        ]
    }

    pub fn sum(&self) -> i64 {
        self.terms().iter().map(|(_, units)| units).sum()
    }

    pub fn owed_sum(&self) -> i64 {
        self.bills.iter().map(|bill| bill.mills).sum()
    }

    /// The sums over the days on which gas was confiscated.
    pub fn confiscated_and_forfeited(&self) -> [i64; 2] {
        let days = self.confiscations.iter();
        let forfeits = days.clone().filter_map(|day| day.forfeit);
        [days.map(|day| day.units).sum(), forfeits.sum()]
    }

    /// Whether bank, debt and violation days are what the ledger says.
    pub fn agrees(&self) -> bool {
        self.sum() == self.bank && self.owed_sum() == self.owed && self.violation_days == self.days
    }

    fn add(&mut self, movement: Movement) {
        let units = movement.units;
        match movement.cause {
            Cause::Opening => self.opening += units,
            Cause::Delivery => self.deliveries += units,
            Cause::Sale => self.sales += units,
            Cause::Purchase => self.purchases -= units,
            Cause::TransferIn => self.transfers_in += units,
            Cause::TransferTo(_) => self.transfers_out -= units,
            Cause::CashIn => self.cash_ins += units,
            Cause::CashOut => self.cash_outs -= units,
            Cause::Forfeit => self.forfeits -= units,
        }
    }

    fn add_confiscation(&mut self, entry: &Entry) {
        self.confiscations.push(Confiscation {
            date: entry.date,
            units: i64::from(entry.words[0]),
            forfeit: None,
        });
    }

    /// The closing of a day that something was confiscated on.
    fn close_confiscation(&mut self, date: Day, report: &Report) {
        let today = self.confiscations.last_mut().filter(|c| c.date == date);
        if let Some(confiscation) = today {
            confiscation.forfeit = Some(report.forfeit as i64);
        }
    }

    fn add_violations(&mut self, mask: u64) {
        if mask != 0 {
            self.violation_days += 1;
        }
        for v in violation_list(mask) {
            self.violations[v - 1] += 1;
        }
    }
}

/// The statements of all suppliers, and the ledger that they are held against.
pub struct Books {
    pub statements: Vec<Statement>,
    pub ledger: Ledger,
    /// When the whole archive enrols each account, if it does.
    pub enrolments: [Option<Day>; ACCOUNTS],
}

/// Of every account that was ever enrolled, in order; `until`: entries dated up to and with that day.
pub fn statements(archive: &[u8], until: Option<Day>) -> Result<Vec<Statement>, Refusal> {
    Ok(books(archive, until)?.statements)
}

pub fn books(archive: &[u8], until: Option<Day>) -> Result<Books, Refusal> {
    let mut sums = Sums::default();
    let mut at_day: Option<Ledger> = None;
    let mut enrolments = [None; ACCOUNTS];
    let last = replay(archive, |step| {
        if step.accepted() && step.entry.kind == Kind::Enrol {
            enrolments[usize::from(step.entry.a)] = Some(step.entry.date);
        }
        // Accepted entries stand in the order of their dates, and refused ones move nothing.
        let later = step.accepted() && until.is_some_and(|day| step.entry.date > day);
        if later && at_day.is_none() {
            at_day = Some(*step.before);
        }
        if at_day.is_none() {
            sums.add(step);
        }
    })?;
    let ledger = at_day.unwrap_or(last);
    Ok(Books {
        statements: sums.statements(&ledger),
        ledger,
        enrolments,
    })
}

/// What the steps of a replay add up to.
#[derive(Default)]
pub struct Sums {
    movements: Movements,
    accounts: [Statement; ACCOUNTS],
}

impl Sums {
    pub fn add(&mut self, step: &Step) {
        for movement in self.movements.of(step) {
            self.accounts[movement.account].add(movement);
        }
        for (account, mills) in self.movements.bills(step) {
            let date = step.entry.date;
            self.accounts[account].bills.push(Bill { date, mills });
        }
        for (statement, report) in self.accounts.iter_mut().zip(&step.answer.reports) {
            statement.add_violations(report.mask);
        }
        if step.accepted() {
            self.add_confiscations(step);
        }
    }

    fn add_confiscations(&mut self, step: &Step) {
        let entry = &step.entry;
        match entry.kind {
            Kind::Confiscated => self.accounts[usize::from(entry.a)].add_confiscation(entry),
            Kind::CloseMonth => {
                for (statement, report) in self.accounts.iter_mut().zip(&step.answer.reports) {
                    statement.close_confiscation(entry.date, report);
                }
            }
            _ => {}
        }
    }

    /// Beside the ledger that the steps came to.
    pub fn statements(self, ledger: &Ledger) -> Vec<Statement> {
        let beside_ledger = |account: usize| {
            let held = &ledger.accounts[account];
            Statement {
                account,
                bank: held.bank,
                owed: held.owed,
                days: held.violation_days,
                ..self.accounts[account].clone()
            }
        };
        self.movements.enrolled().map(beside_ledger).collect()
    }
}
