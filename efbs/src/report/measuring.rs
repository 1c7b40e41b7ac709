//! The days on which the year's months are measured, and the holidays among them.

use super::html::{escape, table, Row};
use super::page::long_date;
use crate::calendar::weekday;
use crate::entry::Day;
use crate::measuring::{Measuring, MeasuringDays};
use crate::rules::Rules;
use crate::words::month_name;
use nedrulov::Ledger;
use std::iter;

pub fn measuring(days: &MeasuringDays, ledger: &Ledger, rules: Rules) -> String {
    let months: Vec<Measuring> = days.months(ledger).into_iter().flatten().collect();
    if months.is_empty() {
        return String::new();
    }
    let (rule, holidays) = match rules.is_new() {
        true => (
            " that is no holiday. A month that is not closed goes by the holidays named so far",
            holidays(&days.holidays()),
        ),
        false => ("", String::new()),
    };
    format!(
        "<section>\n<h2>Measuring days</h2>\n<p>Each month is measured on its first Monday to Friday from the 25th on{rule}.</p>\n{}{holidays}</section>\n",
        days_by_month(&months)
    )
}

fn days_by_month(months: &[Measuring]) -> String {
    let line = |head: &str, cell: fn(&Measuring) -> String| {
        let cells = months.iter().map(cell);
        Row::of(iter::once(head.to_string()).chain(cells).collect())
    };
    let mut rows = vec![line("Measured on", |day| short(day.date))];
    if months.iter().any(|day| day.moved_from.is_some()) {
        rows.push(line("Moved from", |day| {
            day.moved_from.map_or("–".to_string(), short)
        }));
    }
    let names = months.iter().map(|day| escape(month_name(day.date.month)));
    let heads: Vec<String> = iter::once("Month".to_string()).chain(names).collect();
    let (first, last) = (&heads[1], &heads[heads.len() - 1]);
    table("days", &format!("{first} to {last}"), &heads, &rows)
}

/// "Mon 27".
fn short(date: Day) -> String {
    format!("{} {}", &weekday(date)[..3], date.day)
}

fn holidays(dates: &[Day]) -> String {
    let named = dates.iter().map(|date| {
        let (weekday, date) = (weekday(*date), long_date(*date));
        format!("<span class=\"unbroken\">{weekday}, {date}</span>")
    });
    match dates.is_empty() {
        true => "<p>No holiday of this gas year is named.</p>\n".to_string(),
        false => format!(
            "<p>Holidays of this gas year: {}.</p>\n",
            named.collect::<Vec<_>>().join("; ")
        ),
    }
}
