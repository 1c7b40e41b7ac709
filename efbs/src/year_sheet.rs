//! A gas year's sheet: the bank of each account after each month, where there is one.

use crate::calendar::{gas_month, gas_year_of};
use crate::entry::Kind;
use crate::replay::Step;
use nedrulov::{ACCOUNTS, MONTHS};

pub type Cells = [[Option<i64>; MONTHS]; ACCOUNTS];

/// Which cells have a bank, noted step by step: those of the accounts that were open as the month closed.
pub struct OpenAtClosings {
    year: u16,
    open: [[bool; MONTHS]; ACCOUNTS],
}

impl OpenAtClosings {
    pub fn new(year: u16) -> OpenAtClosings {
        OpenAtClosings {
            year,
            open: [[false; MONTHS]; ACCOUNTS],
        }
    }

    pub fn add(&mut self, step: &Step) {
        let date = step.entry.date;
        let closes = step.accepted() && step.entry.kind == Kind::CloseMonth;
        if closes && gas_year_of(date) == self.year {
            for (row, account) in self.open.iter_mut().zip(&step.after.accounts) {
                row[gas_month(date.month)] = account.opened;
            }
        }
    }

    /// The library's sheet of the archive, without the zeros that stand for no bank.
    pub fn cells(&self, archive: &[u8]) -> Cells {
        let banks = nedrulov::year_sheet(archive, self.year.into());
        std::array::from_fn(|account| {
            std::array::from_fn(|month| self.open[account][month].then_some(banks[account][month]))
        })
    }
}
