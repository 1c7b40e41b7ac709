//! The days on which closings reported something of an account, violations, cash or a forfeit, or gas was confiscated.

use super::gas_year::{BankDay, Course};
use super::html::{escape, table, Row};
use super::signs::{Sign, ALL};
use crate::entry::Day;
use crate::shown::gas;
use crate::words::{numbered_violation, violation_list};

/// Adjoining days with the same violations and no movement of gas, or one day with one.
struct Run {
    first: Day,
    last: Day,
    last_offset: usize,
    days: u64,
    mask: u64,
    /// Cash-in, cash-out and forfeit.
    moved: [Option<i64>; 3],
    confiscated: Option<i64>,
    bank: i64,
}

impl Run {
    fn of(day: &BankDay) -> Run {
        let moved = [Sign::CashIn, Sign::CashOut, Sign::Forfeit];
        Run {
            first: day.date,
            last: day.date,
            last_offset: day.offset,
            days: 1,
            mask: day.report.mask,
            moved: moved.map(|sign| sign.moved(day)),
            confiscated: Sign::Confiscated.moved(day),
            bank: day.bank,
        }
    }

    fn goes_on_with(&self, next: &Run) -> bool {
        let adjoins = next.last_offset == self.last_offset + 1;
        let is_still = |run: &Run| run.moved == [None; 3] && run.confiscated.is_none();
        adjoins && is_still(self) && is_still(next) && next.mask == self.mask
    }

    fn take(&mut self, next: Run) {
        *self = Run {
            first: self.first,
            days: self.days + 1,
            ..next
        };
    }

    /// With what was confiscated, where the table has a column for it.
    fn row(&self, confiscations: bool) -> Row {
        let when = match self.days {
            1 => self.first.to_string(),
            days => format!("{} to {} ({days} days)", self.first, self.last),
        };
        let amount = |units: Option<i64>| units.map_or("–".to_string(), gas);
        Row::of(
            [when, named(self.mask)]
                .into_iter()
                .chain(self.moved.map(amount))
                .chain(confiscations.then(|| amount(self.confiscated)))
                .chain([gas(self.bank)])
                .collect(),
        )
    }
}

/// "V2 daily withdrawal; V7 bank below zero"; a dash for none.
pub fn named(mask: u64) -> String {
    let names = violation_list(mask)
        .into_iter()
        .map(|v| escape(&numbered_violation(v)));
    match mask {
        0 => "–".to_string(),
        _ => names.collect::<Vec<_>>().join("; "),
    }
}

fn runs(course: &Course) -> Vec<Run> {
    let mut runs: Vec<Run> = Vec::new();
    let told = |day: &&BankDay| ALL.iter().any(|sign| sign.moved(day).is_some());
    for next in course.days.iter().filter(told).map(Run::of) {
        match runs.last_mut().filter(|run| run.goes_on_with(&next)) {
            Some(run) => run.take(next),
            None => runs.push(next),
        }
    }
    runs
}

/// The table under a chart, so that every sign in it can be read.
pub fn table_of(course: &Course) -> String {
    let runs = runs(course);
    if runs.is_empty() {
        return "<p class=\"quiet\">No violation day, no cash and no forfeit in this year.</p>\n"
            .to_string();
    }
    let confiscations = course.has_confiscations();
    let heads: Vec<&str> = ["Closing of", "Violations", "Cash-in", "Cash-out", "Forfeit"]
        .into_iter()
        .chain(confiscations.then_some("Confiscated"))
        .chain(["Bank after"])
        .collect();
    let rows: Vec<Row> = runs.iter().map(|run| run.row(confiscations)).collect();
    let caption = match confiscations {
        true => "Reported by closings, and confiscated before them; gas in Dth",
        false => "Reported by closings; gas in Dth",
    };
    table("reported", caption, &heads, &rows)
}
