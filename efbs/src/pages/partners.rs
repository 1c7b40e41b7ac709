//! Who can take a seller's gas, as a page or as JSON.

use crate::failure::Failure;
use crate::json::{array, number_or_null, object, string_or_null};
use crate::partners::{partners, Held, Partner, Partners};
use crate::replay::replay;
use crate::shown::gas;
use crate::words::month_name;
use std::io::{self, Write};

const NAMES: [&str; 4] = ["account", "bank, Dth", "maximum, Dth", "headroom, Dth"];

pub fn write(
    archive: &[u8],
    seller: u64,
    quantity: u64,
    json: bool,
    out: &mut dyn Write,
) -> Result<(), Failure> {
    let ledger = replay(archive, |_| ())?;
    let found = partners(&ledger, seller, quantity);
    let refused = found.number != 0;
    match json {
        true => write_json(&found, out)?,
        // The failure tells all that there is to tell.
        false if refused => {}
        false => write_page(&found, out)?,
    }
    match found.why.filter(|_| refused) {
        Some(why) => Err(Failure::Told(why)),
        None => Ok(()),
    }
}

/// Gas in whole units.
fn write_json(found: &Partners, out: &mut dyn Write) -> io::Result<()> {
    let held = found.held;
    let list: Vec<_> = found.list.iter().map(in_json).collect();
    let members = [
        ("number", found.number.to_string()),
        ("date", string_or_null(found.date)),
        ("month", number_or_null(found.date.map(|date| date.month))),
        ("seller", found.seller.to_string()),
        ("bank", number_or_null(held.map(|held| held.bank))),
        ("minimum", number_or_null(held.map(|held| held.minimum))),
        ("quantity", found.quantity.to_string()),
        ("partners", array(&list)),
        ("why", string_or_null(found.why.as_deref())),
    ];
    writeln!(out, "{}", object(&members))
}

fn in_json(partner: &Partner) -> String {
    object(&[
        ("account", partner.account.to_string()),
        ("bank", partner.bank.to_string()),
        ("maximum", partner.maximum.to_string()),
        ("headroom", partner.headroom.to_string()),
    ])
}

fn write_page(found: &Partners, out: &mut dyn Write) -> io::Result<()> {
    if let Some(date) = found.date {
        let month = month_name(date.month);
        writeln!(out, "Day: {date}, with the limits of {month}")?;
    }
    if let Some(Held { bank, minimum }) = found.held {
        let [bank, minimum] = [bank, minimum].map(gas);
        let seller = found.seller;
        writeln!(
            out,
            "Seller: account {seller}, bank {bank} Dth, minimum {minimum} Dth"
        )?;
    }
    // As it was understood, so that nobody takes units for Dth.
    writeln!(out, "Quantity: {} Dth\n", gas(found.quantity as i64))?;
    match &found.why {
        Some(why) => writeln!(out, "Nobody can take it: {why}"),
        None => write_table(&found.list, out),
    }
}

fn write_table(list: &[Partner], out: &mut dyn Write) -> io::Result<()> {
    let mut lines = vec![NAMES.map(str::to_string)];
    lines.extend(list.iter().map(|partner| {
        let [bank, maximum, headroom] = [partner.bank, partner.maximum, partner.headroom].map(gas);
        [partner.account.to_string(), bank, maximum, headroom]
    }));
    let longest = |column: usize| lines.iter().map(|cells| cells[column].len()).max();
    let widths: [usize; 4] = std::array::from_fn(|column| longest(column).unwrap_or(0));
    for cells in &lines {
        let cells = cells.iter().zip(&widths);
        let line = cells.map(|(cell, width)| format!("{cell:>width$}"));
        writeln!(out, "{}", line.collect::<Vec<_>>().join("  "))?;
    }
    Ok(())
}

#[cfg(test)]
mod tests {
    use super::*;

    fn found() -> Partners {
        let partner = |account, bank| Partner {
            account,
            bank,
            maximum: 2_940_000_000,
            headroom: 2_940_000_000 - bank,
        };
        Partners {
            number: 0,
            date: "2026-11-05".parse().ok(),
            seller: 3,
            held: Some(Held {
                bank: 123_456,
                minimum: 5,
            }),
            quantity: 100,
            list: vec![partner(12, -2_940_000_000), partner(4, 100)],
            why: None,
        }
    }

    fn page(found: &Partners) -> String {
        let mut out = Vec::new();
        write_page(found, &mut out).expect("memory");
        String::from_utf8(out).expect("UTF-8")
    }

    #[test]
    fn columns_are_as_wide_as_their_figures() {
        assert_eq!(
            page(&found()),
            "Day: 2026-11-05, with the limits of November\n\
             Seller: account 3, bank 1,234.56 Dth, minimum 0.05 Dth\n\
             Quantity: 1.00 Dth\n\
             \n\
             account       bank, Dth   maximum, Dth  headroom, Dth\n\
             \x20    12  -29,400,000.00  29,400,000.00  58,800,000.00\n\
             \x20     4            1.00  29,400,000.00  29,399,999.00\n"
        );
    }

    #[test]
    fn a_reason_stands_in_the_place_of_the_table() {
        let nobody = Partners {
            list: vec![],
            why: Some("no other account is open.".to_string()),
            ..found()
        };
        assert!(page(&nobody).ends_with("\n\nNobody can take it: no other account is open.\n"));
    }
}
