//! Where days and amounts lie in a chart. All measures are those of the drawing itself.

use super::gas_year::{BankDay, Course};

pub const WIDTH: f64 = 930.0;
/// Of the plot.
pub const LEFT: f64 = 78.0;
pub const RIGHT: f64 = WIDTH - 150.0;
/// Where the words to the left of the plot end.
pub const NAMES: f64 = LEFT - 8.0;
/// From the plot down to the lanes, if any: months and BCQ.
pub const FOOT: f64 = 50.0;
pub const FLAG_ROW: f64 = 18.0;
pub const UNITS_PER_DTH: i64 = 100;

const PLOT_HEIGHT: f64 = 250.0;
/// Room inside the plot above the highest and below the lowest amount, for signs.
const ABOVE: f64 = 32.0;
const BELOW: f64 = 22.0;

pub struct Scale {
    pub top: f64,
    days: usize,
    pub low: i64,
    pub high: i64,
}

impl Scale {
    /// Of an account, over a year of so many days.
    pub fn of(course: &Course, days: usize) -> Scale {
        let banks = course.days.iter().map(|day| day.bank);
        let low = banks.clone().min().unwrap_or(0).min(0);
        let maxima = course.days.iter().map(BankDay::maximum);
        let high = banks.chain(maxima).max().unwrap_or(0);
        // At least a Dth high, so that an empty bank of no capacity has a scale too.
        let high = high.max(low + UNITS_PER_DTH);
        Scale {
            top: 6.0,
            days,
            low,
            high,
        }
    }

    /// The same, moved down to leave room for rows of flags.
    pub fn below_flags(self, rows: usize) -> Scale {
        Scale {
            top: self.top + rows as f64 * FLAG_ROW,
            ..self
        }
    }

    /// Where a day begins.
    pub fn x(&self, offset: usize) -> f64 {
        LEFT + (RIGHT - LEFT) * offset as f64 / self.days as f64
    }

    /// A day's bank stands in the middle of its day, inside the band of its own month.
    pub fn mid(&self, offset: usize) -> f64 {
        (self.x(offset) + self.x(offset + 1)) / 2.0
    }

    pub fn y(&self, units: i64) -> f64 {
        let share = (self.high - units) as f64 / (self.high - self.low) as f64;
        self.top + ABOVE + (PLOT_HEIGHT - ABOVE - BELOW) * share
    }

    pub fn bottom(&self) -> f64 {
        self.top + PLOT_HEIGHT
    }

    pub fn point(&self, day: &BankDay) -> (f64, f64) {
        (self.mid(day.offset), self.y(day.bank))
    }
}

/// Adjoining days for which a value is the same.
pub struct Stretch<T> {
    pub from: usize,
    /// The day after the last.
    pub to: usize,
    pub value: T,
}

pub fn stretches<T: PartialEq>(course: &Course, value: impl Fn(&BankDay) -> T) -> Vec<Stretch<T>> {
    let mut all: Vec<Stretch<T>> = Vec::new();
    for day in &course.days {
        let (value, to) = (value(day), day.offset + 1);
        match all.last_mut().filter(|stretch| stretch.value == value) {
            Some(stretch) => stretch.to = to,
            None => all.push(Stretch {
                from: day.offset,
                to,
                value,
            }),
        }
    }
    all
}
