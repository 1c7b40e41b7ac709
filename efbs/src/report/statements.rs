//! The statement of each supplier: what can be added up, beside what the ledger says.

use super::gas_year::GasYear;
use super::html::{escape, row, table, time, Row};
use crate::calendar::{gas_year_name, gas_year_of};
use crate::shown::{gas, money, whole};
use crate::statement::{Bill, Confiscation, Statement};
use crate::words::numbered_violation;

pub fn statements(year: &GasYear, statements: &[Statement]) -> String {
    if statements.is_empty() {
        return String::new();
    }
    let reach = match year.span {
        Some((first, last)) if year.is_part_of_archive() => format!(
            " They run over the whole archive, from {} to {}, <strong>and not over the gas year {} alone</strong>.",
            time(first),
            time(last),
            year.name()
        ),
        _ => " They run over the whole archive, which has no other gas year.".to_string(),
    };
    format!(
        "<section>\n<h2>Statements</h2>\n<p>Added up from the archive’s accepted entries and what their closings reported, \
         beside what the ledger says.{reach}</p>\n{}</section>\n",
        statements.iter().map(one_statement).collect::<String>()
    )
}

fn one_statement(statement: &Statement) -> String {
    let (class, verdict) = match statement.agrees() {
        true => ("agrees", "✓ sums and ledger agree"),
        false => ("differs", "✗ sums and ledger differ"),
    };
    format!(
        "<article class=\"statement\">\n<h3>Account {} <span class=\"{class}\">{verdict}</span></h3>\n\
         <div class=\"tables\">\n{}</div>\n</article>\n",
        statement.account,
        tables(statement)
    )
}

/// The tables of one statement: its gas, its violation days, its bills by gas year, and what was confiscated, if
/// anything was.
fn tables(statement: &Statement) -> String {
    let mut all = gas_terms(statement) + &days_by_kind(statement);
    let mut rest = statement.bills.as_slice();
    while let Some(first) = rest.first() {
        let year = gas_year_of(first.date);
        let length = rest
            .iter()
            .take_while(|bill| gas_year_of(bill.date) == year)
            .count();
        let (bills, later) = rest.split_at(length);
        all += &bills_of(year, bills, later.is_empty().then_some(statement));
        rest = later;
    }
    if statement.bills.is_empty() {
        all += &table(
            "sums",
            "Bills",
            &["No month was closed", "Dollars"],
            &owed(statement),
        );
    }
    all + &forfeits(statement)
}

fn gas_terms(of: &Statement) -> String {
    let line = |what: &str, units: i64| row([escape(what), gas(units)]);
    let mut rows: Vec<Row> = of.terms().map(|(name, units)| line(name, units)).into();
    rows.push(line("Sum", of.sum()).into_sum());
    rows.push(line("Bank in the ledger", of.bank).into_sum());
    table("sums", "Gas in bank", &["Term", "Dth"], &rows)
}

/// What was forfeited beside what was confiscated.
fn forfeits(of: &Statement) -> String {
    if of.confiscations.is_empty() {
        return String::new();
    }
    let day = |day: &Confiscation| {
        let forfeit = day.forfeit.map_or("not closed".to_string(), gas);
        row([day.date.to_string(), gas(day.units), forfeit])
    };
    let mut rows: Vec<Row> = of.confiscations.iter().map(day).collect();
    let [confiscated, forfeited] = of.confiscated_and_forfeited().map(gas);
    rows.push(row(["Sum".to_string(), confiscated, forfeited]).into_sum());
    let heads = ["Closing of", "Confiscated, Dth", "Forfeited, Dth"];
    table("sums", "Forfeits", &heads, &rows)
}

fn days_by_kind(of: &Statement) -> String {
    let kind = |(index, days): (usize, &u64)| {
        let v = index + 1;
        row([escape(&numbered_violation(v)), whole(*days)])
    };
    let mut rows: Vec<Row> = of.violations.iter().enumerate().map(kind).collect();
    rows.push(row(["Days with any".to_string(), whole(of.violation_days)]).into_sum());
    rows.push(row(["Days in the ledger".to_string(), whole(of.days)]).into_sum());
    table("sums", "Violation days", &["Kind", "Days"], &rows)
}

/// The bills of one gas year; under the last, what is owed.
fn bills_of(year: u16, bills: &[Bill], last_of: Option<&Statement>) -> String {
    let mut rows: Vec<Row> = bills
        .iter()
        .map(|bill| row([bill.date.to_string(), money(bill.mills)]))
        .collect();
    rows.extend(last_of.map(owed).into_iter().flatten());
    let caption = format!("Bills of {}", gas_year_name(year));
    table("sums", &caption, &["Closing of", "Dollars"], &rows)
}

fn owed(of: &Statement) -> [Row; 2] {
    [
        row(["Sum of all bills".to_string(), money(of.owed_sum())]).into_sum(),
        row(["Owed in the ledger".to_string(), money(of.owed)]).into_sum(),
    ]
}
