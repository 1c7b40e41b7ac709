//! On which day each month of a gas year is measured, and the year's holidays. The library tells the day.

use crate::calendar::{gas_month, gas_year_of, months};
use crate::entry::{Day, Kind};
use crate::named_day::NamedDay;
use crate::replay::Step;
use nedrulov::{Ledger, MONTHS};

/// By the holidays that a ledger holds; none of a month outside 2000 to 2099.
pub fn measuring_day(ledger: &Ledger, year: u32, month: u8) -> Option<Day> {
    let day = nedrulov::measurement_day(*ledger, year.into(), month.into());
    (day != 0).then_some(Day {
        year: year as u16,
        month,
        day: day as u8,
    })
}

/// The measuring day of a month.
#[derive(Clone, Copy, Debug, PartialEq, Eq)]
pub struct Measuring {
    pub date: Day,
    /// The day that it would be without holidays, if that is another.
    pub moved_from: Option<Day>,
}

impl Measuring {
    fn of(date: Day) -> Measuring {
        // A fresh ledger holds no holidays.
        let plain = measuring_day(&nedrulov::fresh(true), date.year.into(), date.month);
        Measuring {
            date,
            moved_from: plain.filter(|plain| *plain != date),
        }
    }
}

/// A gas year's, noted step by step.
pub struct MeasuringDays {
    year: u16,
    /// By the holidays held as each month closed.
    closed: [Option<Day>; MONTHS],
    holidays: Vec<Day>,
}

impl MeasuringDays {
    pub fn new(year: u16) -> MeasuringDays {
        MeasuringDays {
            year,
            closed: [None; MONTHS],
            holidays: Vec::new(),
        }
    }

    pub fn add(&mut self, step: &Step) {
        match step.entry.kind {
            _ if !step.accepted() => {}
            Kind::CloseMonth => self.add_closing(step),
            Kind::Holiday => self.add_holiday(step),
            _ => {}
        }
    }

    fn add_closing(&mut self, step: &Step) {
        let date = step.entry.date;
        if gas_year_of(date) == self.year {
            let day = measuring_day(step.before, date.year.into(), date.month);
            self.closed[gas_month(date.month)] = day;
        }
    }

    /// Noted in the year that it is in, whenever it is named.
    fn add_holiday(&mut self, step: &Step) {
        let named = NamedDay::of(&step.entry).date();
        let of_year = named.filter(|date| gas_year_of(*date) == self.year);
        self.holidays.extend(of_year);
    }

    /// From April to March. Months that are not closed go by the holidays of the last ledger; those before its first have
    /// no measuring day.
    pub fn months(&self, last: &Ledger) -> [Option<Measuring>; MONTHS] {
        let calendar = months(self.year);
        std::array::from_fn(|place| {
            let (year, month) = calendar[place];
            let now = (last.date.year, last.date.month);
            let is_to_come = last.begun && (u64::from(year), u64::from(month)) >= now;
            let expected = || measuring_day(last, year, month).filter(|_| is_to_come);
            self.closed[place].or_else(expected).map(Measuring::of)
        })
    }

    /// Those that were named, in the order of the calendar.
    pub fn holidays(&self) -> Vec<Day> {
        let mut holidays = self.holidays.clone();
        holidays.sort();
        holidays
    }
}
