//! The year's suppliers: all at a glance, then one by one.

use super::chart::chart;
use super::gas_year::{Course, GasYear};
use super::html::{time, violation_days};
use super::legend::legend;
use super::overview::overview;
use super::reported;
use crate::calendar::year_after;

pub fn suppliers(year: &GasYear) -> String {
    let Some(last) = year.last_closing() else {
        return no_closings(year);
    };
    let charts: String = year
        .courses()
        .map(|course| supplier(course, year))
        .collect();
    format!(
        "{}<section>\n<h2>Banks day by day</h2>\n{}{charts}</section>\n",
        overview(year, last),
        legend(year)
    )
}

fn no_closings(year: &GasYear) -> String {
    let span = match year.span {
        Some((first, last)) => {
            format!(
                "Its accepted postings run from {} to {}.",
                time(first),
                time(last)
            )
        }
        None => "It has no accepted posting at all.".to_string(),
    };
    format!(
        "<section class=\"notice\">\n<h2>No closings in this gas year</h2>\n<p>The archive has no accepted closing of an \
         open account from April {} to March {}, so there is no bank to draw and no year sheet. {span}</p>\n</section>\n",
        year.year,
        year_after(year.year)
    )
}

fn supplier(course: &Course, year: &GasYear) -> String {
    let (account, days) = (course.account, course.violation_days());
    format!(
        "<article id=\"account-{account}\">\n<h3>Account {account} <span>{}</span></h3>\n<figure>\n{}</figure>\n{}</article>\n",
        violation_days(days),
        chart(course, year),
        reported::table_of(course)
    )
}
