//! Statements of account for suppliers, with the ledger's own figures beside the sums.

use super::never_enrolled;
use crate::amounts::{gas, grouped, money};
use crate::entry::Day;
use crate::failure::Failure;
use crate::rules::Rules;
use crate::shown;
use crate::statement::{books, Books, Confiscation, Statement};
use crate::words::numbered_violation;
use std::io::Write;

pub fn write(
    archive: &[u8],
    account: Option<usize>,
    until: Option<Day>,
    out: &mut dyn Write,
) -> Result<(), Failure> {
    let books = books(archive, until)?;
    let reach = until.map(|day| format!("Entries dated up to and with {day}.\n"));
    let rules = Rules::of_ledger(&books.ledger).note();
    let head = reach
        .into_iter()
        .chain(rules.map(|note| format!("{note}\n")));
    let (page, agree) = match account {
        Some(account) => one(&books, account, until)?,
        None => all(&books),
    };
    let page = head.collect::<String>() + &page;
    out.write_all(page.trim_start().as_bytes())?;
    match agree {
        true => Ok(()),
        false => Err(Failure::Told(
            "a sum and the ledger differ, which must not be. Keep the archive and tell the makers."
                .to_string(),
        )),
    }
}

/// A supplier's page, and whether it agrees with the ledger.
fn one(books: &Books, account: usize, until: Option<Day>) -> Result<(String, bool), Failure> {
    let found = books.statements.iter().find(|s| s.account == account);
    let missing = || match (books.enrolments[account], until) {
        (Some(enrolled), Some(until)) => Failure::Told(format!(
            "account {account} is not yet enrolled on {until}; it is enrolled on {enrolled}."
        )),
        _ => never_enrolled(account),
    };
    let statement = found.ok_or_else(missing)?;
    Ok((page(statement), statement.agrees()))
}

/// Every supplier's page and the sum of all, and whether they agree with the ledger.
fn all(books: &Books) -> (String, bool) {
    let sum: i64 = books.statements.iter().map(Statement::sum).sum();
    let panel = nedrulov::panel(books.ledger).figure;
    let pages: String = books.statements.iter().map(page).collect();
    let total = compared("sum of their banks", "panel figure", [sum, panel].map(gas));
    let agree = books.statements.iter().all(Statement::agrees) && sum == panel;
    (
        pages + "\nALL SUPPLIERS\n" + &head("Bank", "Dth") + &total,
        agree,
    )
}

fn page(statement: &Statement) -> String {
    let title = format!("\nSUPPLIER {}\n", statement.account);
    let bank = bank(statement) + &forfeits(statement);
    title + &bank + &bills(statement) + &violations(statement)
}

fn bank(s: &Statement) -> String {
    let rows: String = s
        .terms()
        .iter()
        .map(|(name, units)| row(name, &gas(*units)))
        .collect();
    let sums = compared("sum", "bank in the ledger", [s.sum(), s.bank].map(gas));
    head("Bank", "Dth") + &rows + &sums
}

/// What was forfeited beside what was confiscated, of a supplier that had gas confiscated.
fn forfeits(s: &Statement) -> String {
    if s.confiscations.is_empty() {
        return String::new();
    }
    let day = |c: &Confiscation| {
        let forfeit = c.forfeit.map_or("not closed".to_string(), shown::gas);
        two_columns(&c.date.to_string(), &shown::gas(c.units), &forfeit)
    };
    let rows: String = s.confiscations.iter().map(day).collect();
    let [confiscated, forfeited] = s.confiscated_and_forfeited().map(shown::gas);
    let head = format!(
        "\n  {:<30}{:>18}{:>18}\n",
        "Forfeits, Dth", "confiscated", "forfeited"
    );
    head + &rows + &two_columns("sum", &confiscated, &forfeited)
}

fn two_columns(name: &str, first: &str, second: &str) -> String {
    format!("    {name:<28}{first:>18}{second:>18}\n")
}

fn bills(s: &Statement) -> String {
    let bill = |bill: &crate::statement::Bill| row(&bill.date.to_string(), &money(bill.mills));
    let rows: String = s.bills.iter().map(bill).collect();
    let sums = compared(
        "sum",
        "owed in the ledger",
        [s.owed_sum(), s.owed].map(money),
    );
    head("Bills", "$") + &rows + &sums
}

fn violations(s: &Statement) -> String {
    let reported = (1..).zip(s.violations).filter(|(_, days)| *days > 0);
    let rows: String = reported
        .map(|(v, days)| row(&numbered_violation(v), &days.to_string()))
        .collect();
    let days = [s.violation_days, s.days].map(|days| days.to_string());
    let sums = compared(
        "days with any of them",
        "violation days in the ledger",
        days,
    );
    head("Violations", "days") + &rows + &sums
}

fn head(title: &str, unit: &str) -> String {
    format!("\n  {title:<48}{unit:>18}\n")
}

fn row(name: &str, number: &str) -> String {
    format!("    {name:<46}{:>18}\n", grouped(number))
}

/// A sum, and below it the ledger's figure with a word on whether they agree.
fn compared(sum: &str, held: &str, figures: [String; 2]) -> String {
    let remark = match figures[0] == figures[1] {
        true => "agrees",
        false => "DIFFERS",
    };
    let held = row(held, &figures[1]);
    format!("{}{}  {remark}\n", row(sum, &figures[0]), held.trim_end())
}

#[cfg(test)]
mod tests {
    use super::*;

    fn books() -> Books {
        let mut ledger = nedrulov::fresh(false);
        ledger.accounts[2].opened = true;
        ledger.accounts[2].bank = 1_000;
        ledger.accounts[2].step.k = 1;
        ledger.accounts[2].step.pending = 1;
        let statement = Statement {
            account: 2,
            opening: 1_000,
            bank: 1_000,
            ..Statement::default()
        };
        let mut enrolments = [None; nedrulov::ACCOUNTS];
        enrolments[2] = "2026-04-01".parse().ok();
        enrolments[4] = "2026-05-01".parse().ok();
        Books {
            statements: vec![statement],
            ledger,
            enrolments,
        }
    }

    #[test]
    fn agreement_is_told() {
        let (page, agree) = all(&books());
        assert!(agree && page.matches("  agrees\n").count() == 4);
        assert!(!page.contains("DIFFERS"));
    }

    #[test]
    fn forfeits_stand_beside_confiscations() {
        let mut books = books();
        let day = |date: &str, units, forfeit| Confiscation {
            date: date.parse().expect("a date"),
            units,
            forfeit,
        };
        books.statements[0].confiscations = vec![
            day("2027-01-31", 123_456, Some(100_000)),
            day("2027-03-31", 0, None),
        ];
        let (page, agree) = all(&books);
        assert!(agree, "no term of the bank");
        for line in [
            "  Forfeits, Dth                        confiscated         forfeited\n",
            "    2027-01-31                            1,234.56          1,000.00\n",
            "    2027-03-31                                0.00        not closed\n",
            "    sum                                   1,234.56          1,000.00\n",
        ] {
            assert!(page.contains(line), "{page}");
        }
    }

    #[test]
    fn every_difference_is_told() {
        let changes: [fn(&mut Books); 4] = [
            |books| books.statements[0].bank += 1,
            |books| books.statements[0].owed += 1,
            |books| books.statements[0].days += 1,
            |books| books.ledger.accounts[2].bank += 1,
        ];
        for change in changes {
            let mut books = books();
            change(&mut books);
            let (page, agree) = all(&books);
            assert!(!agree && page.matches("  DIFFERS\n").count() == 1, "{page}");
        }
    }

    #[test]
    fn accounts_that_are_not_enrolled() {
        let until = "2026-04-30".parse().ok();
        assert!(one(&books(), 2, until).is_ok_and(|(_, agree)| agree));
        for (account, told) in [(3, "never enrolled"), (4, "it is enrolled on 2026-05-01")] {
            let failed = one(&books(), account, until);
            assert!(matches!(failed, Err(Failure::Told(why)) if why.contains(told)));
        }
    }
}
