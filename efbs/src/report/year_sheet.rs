//! The year sheet as a table.

use super::gas_year::{Course, GasYear};
use super::html::{escape, table, Row};
use crate::calendar::calendar_month;
use crate::shown::gas;
use crate::words::month_name;
use crate::year_sheet::Cells;
use nedrulov::MONTHS;
use std::iter;
use std::ops::Range;

const HALF: usize = MONTHS / 2;

/// The sheet in two halves, which fit a page at any size of bank.
pub fn year_sheet(year: &GasYear, sheet: &Cells) -> String {
    if year.last_closing().is_none() {
        return String::new();
    }
    let body = match year.totals.iter().any(Option::is_some) {
        true => half_sheet(year, sheet, 0..HALF) + &half_sheet(year, sheet, HALF..MONTHS),
        false => "<p>No month of this gas year is closed yet.</p>\n".to_string(),
    };
    format!(
        "<section>\n<h2>Year sheet</h2>\n<p>Banks just after each month’s closing, in Dth. The totals are the panel \
         figures of those days; a dash stands where a month is not closed or an account not yet enrolled.</p>\n{body}</section>\n"
    )
}

fn half_sheet(year: &GasYear, sheet: &Cells, months: Range<usize>) -> String {
    let totals = &year.totals[months.clone()];
    let account_row = |course: &Course| {
        let banks = &sheet[course.account][months.clone()];
        bank_row(format!("Account {}", course.account), banks)
    };
    let mut rows: Vec<Row> = year.courses().map(account_row).collect();
    rows.push(bank_row("Total".to_string(), totals).into_sum());
    let names = months.map(|month| escape(month_name(calendar_month(month))));
    let heads: Vec<String> = iter::once("Bank after".to_string()).chain(names).collect();
    let caption = format!("{} to {}", heads[1], heads[HALF]);
    table("sheet", &caption, &heads, &rows)
}

/// A dash stands where there is no bank.
fn bank_row(head: String, banks: &[Option<i64>]) -> Row {
    let cells = banks.iter().map(|bank| bank.map_or("–".to_string(), gas));
    Row::of(iter::once(head).chain(cells).collect())
}
