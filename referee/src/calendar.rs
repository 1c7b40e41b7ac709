//! Dates from 2000 to 2099, and the month with its percentages.

/// A month of the year, 1 to 12.
#[derive(Clone, Copy, PartialEq, Eq, PartialOrd, Ord, Debug)]
pub struct Month(u8);

/// One row of the tariff sheet, April to March.
type GasYear = [u64; 12];

const MINIMUM: GasYear = [0, 0, 14, 34, 54, 75, 88, 95, 78, 59, 36, 18];
const MAXIMUM: GasYear = [25, 60, 60, 60, 85, 85, 98, 98, 98, 98, 65, 45];
const MMBQ: GasYear = [15, 20, 20, 20, 20, 13, 7, 5, 10, 10, 10, 10];

impl Month {
    pub const JANUARY: Month = Month(1);
    pub const FEBRUARY: Month = Month(2);
    pub const MARCH: Month = Month(3);
    pub const APRIL: Month = Month(4);
    pub const MAY: Month = Month(5);
    pub const JUNE: Month = Month(6);
    pub const JULY: Month = Month(7);
    pub const AUGUST: Month = Month(8);
    pub const SEPTEMBER: Month = Month(9);
    pub const OCTOBER: Month = Month(10);
    pub const NOVEMBER: Month = Month(11);
    pub const DECEMBER: Month = Month(12);

    pub fn new(number: u64) -> Option<Month> {
        match number {
            1..=12 => Some(Month(number as u8)),
            _ => None,
        }
    }

    /// 1 for January to 12 for December.
    pub fn number(self) -> u64 {
        u64::from(self.0)
    }

    /// Place in the gas year: 0 for April to 11 for March.
    pub fn in_gas_year(self) -> usize {
        (usize::from(self.0) + 8) % 12
    }

    /// Minimum bank, percent of BCQ.
    pub fn minimum(self) -> u64 {
        MINIMUM[self.in_gas_year()]
    }

    /// Maximum bank, percent of BCQ.
    pub fn maximum(self) -> u64 {
        MAXIMUM[self.in_gas_year()]
    }

    /// MMBQ, percent of BCQ.
    pub fn mmbq(self) -> u64 {
        MMBQ[self.in_gas_year()]
    }

    /// Withdrawal maximum, percent of BCQ: November to March only.
    pub fn withdrawal_maximum(self) -> Option<u64> {
        match self {
            Month::NOVEMBER | Month::DECEMBER | Month::JANUARY => Some(40),
            Month::FEBRUARY => Some(30),
            Month::MARCH => Some(20),
            _ => None,
        }
    }

    /// Withdrawal minimum, percent of BCQ: February and March only.
    pub fn withdrawal_minimum(self) -> Option<u64> {
        match self {
            Month::FEBRUARY | Month::MARCH => Some(10),
            _ => None,
        }
    }

    fn length(self, year: u64) -> u64 {
        match self {
            Month::FEBRUARY if is_leap(year) => 29,
            Month::FEBRUARY => 28,
            Month::APRIL | Month::JUNE | Month::SEPTEMBER | Month::NOVEMBER => 30,
            _ => 31,
        }
    }
}

fn is_leap(year: u64) -> bool {
    year.is_multiple_of(4) && (!year.is_multiple_of(100) || year.is_multiple_of(400))
}

const FIRST_YEAR: u64 = 2000;
const LAST_YEAR: u64 = 2099;

/// 1 January 2000 was a Saturday. Weekdays count from Monday, 0, to Sunday, 6.
const FIRST_WEEKDAY: u64 = 5;
const FRIDAY: u64 = 4;

/// A date that exists, from 1 January 2000 to 31 December 2099.
#[derive(Clone, Copy, PartialEq, Eq, PartialOrd, Ord, Debug)]
pub struct Date {
    year: u64,
    month: Month,
    day: u64,
}

impl Date {
    pub fn new(year: u64, month: u64, day: u64) -> Option<Date> {
        let month = Month::new(month)?;
        let exists =
            (FIRST_YEAR..=LAST_YEAR).contains(&year) && (1..=month.length(year)).contains(&day);
        exists.then_some(Date { year, month, day })
    }

    pub fn year(self) -> u64 {
        self.year
    }

    pub fn month(self) -> Month {
        self.month
    }

    pub fn day(self) -> u64 {
        self.day
    }

    /// Whether this is that day of that month, in whatever year.
    pub fn is(self, month: Month, day: u64) -> bool {
        self.month == month && self.day == day
    }

    pub fn is_month_end(self) -> bool {
        self.day == self.month.length(self.year)
    }

    /// The day after; none after 31 December 2099.
    pub fn tomorrow(self) -> Option<Date> {
        let (year, month) = (self.year, self.month.number());
        if !self.is_month_end() {
            Date::new(year, month, self.day + 1)
        } else if self.month != Month::DECEMBER {
            Date::new(year, month + 1, 1)
        } else {
            Date::new(year + 1, 1, 1)
        }
    }

    /// The year in which the gas year of this date began on April 1.
    pub fn gas_year(self) -> u64 {
        if self.month >= Month::APRIL {
            self.year
        } else {
            self.year - 1
        }
    }

    /// Monday to Friday.
    pub fn is_weekday(self) -> bool {
        self.weekday() <= FRIDAY
    }

    fn weekday(self) -> u64 {
        // Every fourth year from 2000 on is a leap year, up to 2099.
        let years = self.year - FIRST_YEAR;
        let days_before_year = 365 * years + years.div_ceil(4);
        let days_before_month: u64 = (1..self.month.0)
            .map(|month| Month(month).length(self.year))
            .sum();
        (FIRST_WEEKDAY + days_before_year + days_before_month + self.day - 1) % 7
    }
}

#[cfg(test)]
mod tests {
    use super::*;

    fn date(year: u64, month: u64, day: u64) -> Date {
        Date::new(year, month, day).expect("a date that exists")
    }

    #[test]
    fn dates_that_exist() {
        assert!(Date::new(2000, 2, 29).is_some());
        assert!(Date::new(2024, 2, 29).is_some());
        assert!(Date::new(2099, 12, 31).is_some());
        for (year, month, day) in [
            (1999, 12, 31),
            (2100, 1, 1),
            (2026, 0, 1),
            (2026, 13, 1),
            (2026, 4, 0),
            (2026, 4, 31),
            (2026, 2, 29),
            (u64::MAX, u64::MAX, u64::MAX),
        ] {
            assert_eq!(Date::new(year, month, day), None);
        }
    }

    #[test]
    fn every_day_of_the_century() {
        let mut days = 1;
        let mut today = date(2000, 1, 1);
        let mut weekday = FIRST_WEEKDAY;
        while let Some(tomorrow) = today.tomorrow() {
            assert!(tomorrow > today);
            weekday = (weekday + 1) % 7;
            assert_eq!(tomorrow.weekday(), weekday);
            assert_eq!(tomorrow.day() == 1, today.is_month_end());
            today = tomorrow;
            days += 1;
        }
        assert_eq!(days, 36_525);
        assert_eq!(today, date(2099, 12, 31));
    }

    #[test]
    fn known_weekdays() {
        assert_eq!(date(2000, 1, 1).weekday(), 5); // Saturday
        assert_eq!(date(2024, 2, 29).weekday(), 3); // Thursday
        assert_eq!(date(2026, 4, 25).weekday(), 5); // Saturday
        assert_eq!(date(2026, 12, 25).weekday(), 4); // Friday
        assert_eq!(date(2099, 12, 31).weekday(), 3); // Thursday
    }

    #[test]
    fn five_weekdays_of_seven() {
        // From a Saturday to the Friday after.
        let week: Vec<bool> = (25..=30)
            .map(|day| date(2026, 4, day))
            .chain([date(2026, 5, 1)])
            .map(Date::is_weekday)
            .collect();
        assert_eq!(week, [false, false, true, true, true, true, true]);
    }

    #[test]
    fn the_months_percentages() {
        // Month, minimum, maximum, MMBQ, withdrawal maximum and minimum.
        let sheet = [
            (Month::JANUARY, 59, 98, 10, Some(40), None),
            (Month::FEBRUARY, 36, 65, 10, Some(30), Some(10)),
            (Month::MARCH, 18, 45, 10, Some(20), Some(10)),
            (Month::APRIL, 0, 25, 15, None, None),
            (Month::MAY, 0, 60, 20, None, None),
            (Month::JUNE, 14, 60, 20, None, None),
            (Month::JULY, 34, 60, 20, None, None),
            (Month::AUGUST, 54, 85, 20, None, None),
            (Month::SEPTEMBER, 75, 85, 13, None, None),
            (Month::OCTOBER, 88, 98, 7, None, None),
            (Month::NOVEMBER, 95, 98, 5, Some(40), None),
            (Month::DECEMBER, 78, 98, 10, Some(40), None),
        ];
        for (place, (month, minimum, maximum, mmbq, most, least)) in sheet.into_iter().enumerate() {
            assert_eq!(month.number(), place as u64 + 1);
            assert_eq!(month.in_gas_year(), (place + 9) % 12);
            assert_eq!(month.minimum(), minimum);
            assert_eq!(month.maximum(), maximum);
            assert_eq!(month.mmbq(), mmbq);
            assert_eq!(month.withdrawal_maximum(), most);
            assert_eq!(month.withdrawal_minimum(), least);
        }
    }
}
