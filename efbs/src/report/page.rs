//! The page's frame: its head with the panel figure, and its foot.

use super::gas_year::{GasYear, Last};
use super::html::escape;
use crate::calendar::year_after;
use crate::entry::Day;
use crate::rules::Rules;
use crate::shown::{gas, whole};
use crate::words::month_name;

const STYLE: &str = include_str!("style.css");

pub fn document(year: &str, body: &str) -> String {
    format!(
        "<!DOCTYPE html>\n<html lang=\"en\">\n<head>\n<meta charset=\"utf-8\">\n\
         <meta name=\"viewport\" content=\"width=device-width, initial-scale=1\">\n\
         <title>Gas bank report {year}</title>\n<style>\n{STYLE}</style>\n</head>\n<body>\n<main>\n{body}</main>\n</body>\n</html>\n"
    )
}

/// The panel figure as the year's last posting left it, and what it stands on.
pub fn panel(year: &GasYear, rules: Rules) -> String {
    let open = year.last.as_ref().map_or(0, open_accounts);
    let counts = [
        (open, "open supplier", "open suppliers"),
        (
            year.accepted,
            "posting of the year accepted",
            "postings of the year accepted",
        ),
        (
            year.refused,
            "posting of the year refused",
            "postings of the year refused",
        ),
    ];
    let count = |(number, one, several): (u64, &str, &str)| {
        let name = if number == 1 { one } else { several };
        format!("<div><dt>{name}</dt><dd>{}</dd></div>\n", whole(number))
    };
    format!(
        "<header>\n<p class=\"over\">Rider EFBS · bank recorder</p>\n<h1>Gas bank report, gas year <span class=\"unbroken\">{}</span></h1>\n\
         <p>April {} to March {}</p>\n{}</header>\n<section class=\"panel\" aria-label=\"Panel figure\">\n\
         <div class=\"figure\"><p>Total gas in bank</p>\n{}</div>\n\
         <dl>\n{}</dl>\n</section>\n<p class=\"hint\">Charts and tables that are wider than the window can be moved sideways.</p>\n",
        year.name(),
        year.year,
        year_after(year.year),
        rules.note().map_or(String::new(), |note| format!("<p>{note}</p>\n")),
        figure(year.last.as_ref()),
        counts.map(count).concat()
    )
}

fn open_accounts(last: &Last) -> u64 {
    let accounts = last.ledger.accounts.iter();
    accounts.filter(|account| account.opened).count() as u64
}

/// The figure with its date.
fn figure(last: Option<&Last>) -> String {
    let Some(last) = last else {
        return "<p class=\"number\">–</p>\n<p>the archive has no accepted posting of this gas year</p>"
            .to_string();
    };
    let when = match last.ends_the_year() {
        true => "at the end of the gas year",
        false => "after the gas year’s last posting in the archive",
    };
    format!(
        "<p class=\"number\">{} <span>Dth</span></p>\n<p>{when}, <span class=\"unbroken\">{}</span></p>",
        gas(nedrulov::panel(last.ledger).figure),
        long_date(last.entry.date)
    )
}

/// "31 March 2027".
pub fn long_date(date: Day) -> String {
    let name = escape(month_name(date.month));
    format!("{} {name} {}", date.day, date.year)
}

pub fn foot() -> String {
    "<footer>\n<p>The ledger counts gas in hundredths of a Dth, this page shows Dth; MDQ, MDDQ and BCQ are whole Dth; \
     money is counted in thousandths of a dollar. The minimum and maximum of a month are percentages \
     of the BCQ in force on the day.</p>\n\
     <p>Every figure comes of the archive’s entries, posted in file order to a fresh ledger. To check them: \
     <code>efbs statement</code> prints the sums above, and <code>efbs journal</code> writes every accepted posting for a \
     plain-text accounting program to add up.</p>\n</footer>\n"
        .to_string()
}
