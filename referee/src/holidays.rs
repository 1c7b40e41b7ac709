//! The dates that HOLIDAY named, and the business days that they leave.

use crate::calendar::{Date, Month};
use crate::ledger::Ledger;
use crate::number;

/// How many dates a ledger holds at most.
pub const HOLIDAYS: usize = 16;

/// The day of the month from which on meters are read.
const FIRST_DAY: u64 = 25;
/// The longest month ends with it; dates that do not exist drop out.
const LAST_DAY: u64 = 31;

/// A date by its three numbers, which need not be one: a ledger may hold any.
#[derive(Clone, Copy, PartialEq, Eq, Debug, Default)]
pub struct Named {
    pub year: u64,
    pub month: u64,
    pub day: u64,
}

impl Named {
    /// The date, if there is such a day in 2000 to 2099.
    pub fn date(self) -> Option<Date> {
        Date::new(self.year, self.month, self.day)
    }
}

impl From<Date> for Named {
    fn from(date: Date) -> Named {
        Named {
            year: date.year(),
            month: date.month().number(),
            day: date.day(),
        }
    }
}

/// The dates that a ledger holds, in the order of posting: as many places as
/// the count says, from the first. The other places may have anything.
#[derive(Clone, Copy, PartialEq, Eq, Debug, Default)]
pub struct Holidays {
    pub count: u64,
    pub dates: [Named; HOLIDAYS],
}

impl Holidays {
    /// The places that count. There are no more than all, whatever the count.
    pub fn held(&self) -> &[Named] {
        let count = self.count.min(HOLIDAYS as u64) as usize;
        &self.dates[..count]
    }

    /// Monday to Friday, and not named.
    pub fn is_business_day(&self, date: Date) -> bool {
        date.is_weekday() && !self.held().contains(&date.into())
    }

    /// The first business day of a month from the 25th on. None if all are
    /// named, or if the year is not in 2000 to 2099.
    pub fn measurement_day(&self, year: u64, month: Month) -> Option<Date> {
        (FIRST_DAY..=LAST_DAY)
            .filter_map(|day| Date::new(year, month.number(), day))
            .find(|&date| self.is_business_day(date))
    }

    pub fn is_measurement_day(&self, date: Date) -> bool {
        self.measurement_day(date.year(), date.month()) == Some(date)
    }

    /// Number 20 is for a list that is not. A month without a business day
    /// could only be one of a held date, so that no other is asked.
    pub fn in_range(&self) -> bool {
        let measurable = |date: Date| self.measurement_day(date.year(), date.month()).is_some();
        self.count <= HOLIDAYS as u64
            && self
                .held()
                .iter()
                .all(|named| named.date().is_some_and(measurable))
    }

    /// The list with one more date at its end, or the number that refuses it.
    pub(crate) fn with(&self, named: Named, today: Date) -> Result<Holidays, u64> {
        let ahead = named.date().filter(|&date| date > today);
        let date = ahead.ok_or(number::NOT_AHEAD)?;
        let held = self.held();
        if held.len() == HOLIDAYS || held.contains(&named) {
            return Err(number::NO_PLACE);
        }
        let next = Holidays::of(held.iter().copied().chain([named]));
        match next.measurement_day(date.year(), date.month()) {
            Some(_) => Ok(next),
            None => Err(number::NO_BUSINESS_DAY),
        }
    }

    /// What is left of the list when a month begins on this date.
    pub(crate) fn kept_from(&self, first: Date) -> Holidays {
        let held = self.held().iter().copied();
        Holidays::of(held.filter(|named| named.date() >= Some(first)))
    }

    /// A list stored anew: its places past the count are zeros.
    fn of(dates: impl Iterator<Item = Named>) -> Holidays {
        let mut list = Holidays::default();
        for (place, named) in list.dates.iter_mut().zip(dates) {
            *place = named;
            list.count += 1;
        }
        list
    }
}

/// The measurement day of a month by what the ledger holds, whether or not it
/// has begun; 0 for a ledger that is out of range and for a month that is not
/// in 2000 to 2099.
pub fn measurement_day(ledger: &Ledger, year: u64, month: u64) -> u64 {
    if !ledger.in_range() {
        return 0;
    }
    Month::new(month)
        .and_then(|month| ledger.holidays.measurement_day(year, month))
        .map_or(0, Date::day)
}

#[cfg(test)]
mod tests {
    use super::*;

    fn date(year: u64, month: u64, day: u64) -> Date {
        Date::new(year, month, day).expect("a date that exists")
    }

    #[test]
    fn one_measurement_day_in_each_month() {
        let none = Holidays::default();
        for year in 2000..=2099 {
            for month in 1..=12 {
                let days: Vec<Date> = (1..=31)
                    .filter_map(|day| Date::new(year, month, day))
                    .filter(|&date| none.is_measurement_day(date))
                    .collect();
                assert_eq!(days.len(), 1, "{year}-{month}");
                let found = days[0].day();
                assert!((25..=27).contains(&found) && days[0].is_weekday());
                assert!((25..found).all(|day| !date(year, month, day).is_weekday()));
            }
        }
        assert!(none.is_measurement_day(date(2026, 4, 27))); // the 25th is a Saturday
        assert!(none.is_measurement_day(date(2026, 5, 25))); // a Monday
        assert!(none.is_measurement_day(date(2026, 10, 26))); // the 25th is a Sunday
        assert!(none.is_measurement_day(date(2027, 12, 27))); // the 25th is a Saturday
    }

    /// All business days from the 25th on but one are named, for each of them.
    #[test]
    fn the_one_day_that_is_left() {
        for (year, month) in (2000..=2099).flat_map(|year| (1..=12).map(move |month| (year, month)))
        {
            let days: Vec<Date> = (25..=31)
                .filter_map(|day| Date::new(year, month, day))
                .filter(|date| date.is_weekday())
                .collect();
            for &left in &days {
                let others = days.iter().filter(|&&day| day != left);
                let list = Holidays::of(others.map(|&day| day.into()));
                assert!(list.in_range());
                assert!(list.is_measurement_day(left));
                let all = Holidays::of(days.iter().map(|&day| day.into()));
                assert!(!all.in_range());
                assert_eq!(all.measurement_day(year, left.month()), None);
            }
        }
    }

    #[test]
    fn a_list_stored_anew() {
        let dates = (1..=20).map(|day| date(2026, 5, day).into());
        let list = Holidays::of(dates);
        assert_eq!(list.count, 16);
        assert_eq!(list.dates[15], date(2026, 5, 16).into());
        let rest = list.kept_from(date(2026, 5, 14));
        assert_eq!(rest.count, 3);
        assert_eq!(rest.dates[..3], list.dates[13..]);
        assert_eq!(rest.dates[3..], [Named::default(); 13]);
    }
}
