//! What an accepted entry moves, told from the entry and its answer alone.

use crate::entry::{Entry, Kind};
use crate::letters::{Letter, Letters};
use crate::replay::Step;
use nedrulov::{amount, Report, ACCOUNTS};

/// Why gas comes into a bank or leaves it.
#[derive(Clone, Copy, Debug, PartialEq, Eq)]
pub enum Cause {
    Opening,
    Delivery,
    /// The company sells to the supplier.
    Sale,
    /// The company buys from the supplier.
    Purchase,
    TransferIn,
    /// To the account named.
    TransferTo(usize),
    CashIn,
    CashOut,
    Forfeit,
}

impl Cause {
    pub fn name(self) -> &'static str {
        match self {
            Cause::Opening => "opening",
            Cause::Delivery => "delivery",
            Cause::Sale => "company sale",
            Cause::Purchase => "company purchase",
            Cause::TransferIn | Cause::TransferTo(_) => "transfer",
            Cause::CashIn => "cash-in",
            Cause::CashOut => "cash-out",
            Cause::Forfeit => "forfeit",
        }
    }
}

/// Gas that comes into an account's bank; what leaves it is negative.
#[derive(Clone, Copy, Debug, PartialEq, Eq)]
pub struct Movement {
    pub account: usize,
    pub cause: Cause,
    pub units: i64,
}

/// What entries leave behind for those after them: who is enrolled, the retainage of the last terms, and the letters that
/// stand.
#[derive(Default)]
pub struct Movements {
    retainage: u64,
    enrolled: [bool; ACCOUNTS],
    letters: Letters,
}

impl Movements {
    /// The movements of the next step, none if it was refused.
    pub fn of(&mut self, step: &Step) -> Vec<Movement> {
        if !step.accepted() {
            return Vec::new();
        }
        match step.entry.kind {
            Kind::Terms => self.retainage = u64::from(step.entry.words[3]),
            Kind::Enrol => self.enrolled[usize::from(step.entry.a)] = true,
            _ => {}
        }
        let ended = self.letters.ended_by(step);
        match step.entry.kind {
            Kind::Notice => answered(&ended),
            kind if kind.is_closing() => closing(step),
            _ => posting(&step.entry, self.retainage),
        }
    }

    pub fn is_enrolled(&self, account: usize) -> bool {
        self.enrolled[account]
    }

    pub fn enrolled(&self) -> impl Iterator<Item = usize> + '_ {
        (0..ACCOUNTS).filter(|account| self.is_enrolled(*account))
    }

    /// Account and mills of each bill that the step brings: one for every enrolled account as a month closes.
    pub fn bills<'a>(&'a self, step: &'a Step) -> impl Iterator<Item = (usize, i64)> + 'a {
        let billed = step.accepted() && step.entry.kind == Kind::CloseMonth;
        let bill = |account: usize| (account, step.answer.reports[account].bill);
        self.enrolled().filter(move |_| billed).map(bill)
    }
}

fn posting(entry: &Entry, retainage: u64) -> Vec<Movement> {
    let (a, b) = (usize::from(entry.a), usize::from(entry.b));
    let [first, second] = [entry.words[0], entry.words[1]].map(u64::from);
    let units = first as i64;
    let one = |cause, units| Movement {
        account: a,
        cause,
        units,
    };
    match entry.kind {
        Kind::Enrol => vec![one(Cause::Opening, second as i64)],
        Kind::Deliver => vec![one(Cause::Delivery, amount(retainage, first, second))],
        Kind::Trade if entry.flags == 0 => vec![one(Cause::Sale, units)],
        Kind::Trade => vec![one(Cause::Purchase, -units)],
        Kind::Transfer => transfer(a, b, units).into(),
        _ => Vec::new(),
    }
}

fn transfer(giver: usize, taker: usize, units: i64) -> [Movement; 2] {
    [
        Movement {
            account: giver,
            cause: Cause::TransferTo(taker),
            units: -units,
        },
        Movement {
            account: taker,
            cause: Cause::TransferIn,
            units,
        },
    ]
}

/// The gas of a letter moves as its answer comes; one that stands moves none.
fn answered(letters: &[Letter]) -> Vec<Movement> {
    let moved = |letter: &Letter| transfer(letter.giver(), letter.taker(), letter.units);
    letters.iter().flat_map(moved).collect()
}

fn closing(step: &Step) -> Vec<Movement> {
    let mut moved = Vec::new();
    for (account, report) in step.answer.reports.iter().enumerate() {
        let of_account = |(cause, units)| Movement {
            account,
            cause,
            units,
        };
        moved.extend(reported_movements(report).map(of_account));
    }
    moved
}

/// Cash and forfeit as a closing reports them of an account.
pub fn reported_movements(report: &Report) -> impl Iterator<Item = (Cause, i64)> {
    let cash = match report.cash {
        0 => None,
        1.. => Some((Cause::CashIn, report.cash)),
        _ => Some((Cause::CashOut, report.cash)),
    };
    let forfeit = match report.forfeit {
        0 => None,
        units => Some((Cause::Forfeit, -(units as i64))),
    };
    cash.into_iter().chain(forfeit)
}
