//! The letter that stands in a supplier's record, and the two letters that
//! make a transfer.

use crate::calendar::Date;
use crate::ledger::ACCOUNTS;
use std::ops::RangeInclusive;

/// From the gas year that begins in this April on, a new ledger takes a
/// transfer by two letters only.
const RETIRED_FROM: u64 = 2027;

const UNITS: RangeInclusive<u64> = 1..=1_000_000_000;

/// A letter, or the place where none stands: its other members then mean
/// nothing, and may be anything.
#[derive(Clone, Copy, PartialEq, Eq, Debug, Default)]
pub struct Notice {
    pub stands: bool,
    /// Whoever wrote it takes the gas; else gives it.
    pub takes: bool,
    /// The party that it was written to.
    pub other: usize,
    pub units: u64,
}

impl Notice {
    pub(crate) fn in_range(&self) -> bool {
        !self.stands || self.other < ACCOUNTS && UNITS.contains(&self.units)
    }

    /// Whether a letter that this account writes has its counterpart here.
    pub(crate) fn is_counterpart(&self, writer: usize, letter: &Notice) -> bool {
        self.stands
            && self.other == writer
            && self.takes != letter.takes
            && self.units == letter.units
    }

    /// Who gives and who takes by a letter of this account.
    pub(crate) fn parties(&self, writer: usize) -> [usize; 2] {
        if self.takes {
            [self.other, writer]
        } else {
            [writer, self.other]
        }
    }
}

/// Whether a ledger takes no TRANSFER any more; an old one always does.
pub(crate) fn is_transfer_retired(is_new: bool, date: Date) -> bool {
    is_new && date.gas_year() >= RETIRED_FROM
}

#[cfg(test)]
mod tests {
    use super::*;

    #[test]
    fn the_first_day_without_transfers() {
        for (year, month, day, retired) in [
            (2000, 1, 1, false),
            (2026, 4, 1, false),
            (2026, 12, 31, false),
            (2027, 1, 1, false),
            (2027, 3, 31, false),
            (2027, 4, 1, true),
            (2027, 4, 2, true),
            (2028, 1, 1, true),
            (2028, 3, 31, true),
            (2099, 12, 31, true),
        ] {
            let date = Date::new(year, month, day).expect("a date that exists");
            assert_eq!(is_transfer_retired(true, date), retired);
            assert!(!is_transfer_retired(false, date));
        }
    }

    #[test]
    fn who_gives_and_who_takes() {
        let letter = |takes| Notice {
            stands: true,
            takes,
            other: 7,
            units: 5,
        };
        assert_eq!(letter(false).parties(2), [2, 7]);
        assert_eq!(letter(true).parties(2), [7, 2]);
    }
}
