//! The suppliers at a glance.

use super::gas_year::{Course, GasYear};
use super::html::{row, table, Row};
use crate::entry::Day;
use crate::shown::{gas, whole};

/// Each supplier after the year's last closing.
pub fn overview(year: &GasYear, last: Day) -> String {
    let heads = [
        "Supplier",
        "Bank, Dth",
        "BCQ, Dth",
        "Bank of BCQ",
        "Violation days",
        "Month’s band",
    ];
    let rows: Vec<Row> = year.courses().filter_map(overview_row).collect();
    let caption = format!("After the closing of {last}; violation days since April 1");
    format!(
        "<section>\n<h2>Suppliers</h2>\n{}</section>\n",
        table("overview", &caption, &heads, &rows)
    )
}

fn overview_row(course: &Course) -> Option<Row> {
    let (account, day) = (course.account, course.days.last()?);
    // A bank in units over a BCQ in Dth is a percentage.
    let share = match day.bcq {
        0 => "–".to_string(),
        bcq => format!("{:.1} %", day.bank as f64 / bcq as f64),
    };
    Some(row([
        format!("<a href=\"#account-{account}\">Account {account}</a>"),
        gas(day.bank),
        whole(day.bcq),
        share,
        whole(course.violation_days()),
        gauge(day.minimum(), day.maximum(), day.bank),
    ]))
}

/// The bank as a bar against the band, on a scale that ends a little above both.
fn gauge(minimum: i64, maximum: i64, bank: i64) -> String {
    let end = bank.max(maximum).max(1) as f64 * 1.08;
    let at = |units: i64| 160.0 * units.max(0) as f64 / end;
    let place = match bank {
        _ if bank < minimum => "below",
        _ if bank > maximum => "above",
        _ => "within",
    };
    format!(
        "<svg class=\"gauge\" viewBox=\"0 0 160 16\" aria-hidden=\"true\"><path class=\"zero\" d=\"M0 15.5H160\"/>\
         <path class=\"band\" d=\"M{0:.1} 1H{1:.1}V15H{0:.1}Z\"/><path class=\"edge\" d=\"M{0:.1} 1V15M{1:.1} 1V15\"/>\
         <path class=\"fill\" d=\"M0 6H{2:.1}V10H0Z\"/></svg> {place}",
        at(minimum),
        at(maximum),
        at(bank)
    )
}
