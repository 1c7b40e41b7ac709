//! The year sheet: banks after each month's closing, and the days on which the months are measured.

use crate::amounts::gas;
use crate::archive::Refusal;
use crate::calendar::{months, year_after};
use crate::failure::Failure;
use crate::measuring::{Measuring, MeasuringDays};
use crate::movements::Movements;
use crate::replay::replay;
use crate::shown;
use crate::words::month_name;
use crate::year_sheet::OpenAtClosings;
use nedrulov::MONTHS;
use std::io::{self, Write};

/// A gas year's banks of the accounts that the archive ever enrolls; none where there is no bank.
struct Sheet {
    year: u16,
    rows: Vec<(usize, [Option<i64>; MONTHS])>,
    measuring: [Option<Measuring>; MONTHS],
}

impl Sheet {
    fn cells(&self) -> impl Iterator<Item = &Option<i64>> {
        self.rows.iter().flat_map(|(_, banks)| banks)
    }
}

pub fn write(archive: &[u8], year: u16, csv: bool, out: &mut dyn Write) -> Result<(), Failure> {
    let sheet = sheet(archive, year)?;
    match csv {
        true => write_csv(&sheet, out)?,
        false => {
            write_page(&sheet, out)?;
            write_measuring(&sheet, out)?;
        }
    }
    Ok(())
}

fn sheet(archive: &[u8], year: u16) -> Result<Sheet, Refusal> {
    let mut movements = Movements::default();
    let mut closings = OpenAtClosings::new(year);
    let mut measuring = MeasuringDays::new(year);
    let ledger = replay(archive, |step| {
        movements.of(step);
        closings.add(step);
        measuring.add(step);
    })?;
    let cells = closings.cells(archive);
    let rows = movements
        .enrolled()
        .map(|account| (account, cells[account]));
    Ok(Sheet {
        year,
        rows: rows.collect(),
        measuring: measuring.months(&ledger),
    })
}

fn write_csv(sheet: &Sheet, out: &mut dyn Write) -> io::Result<()> {
    let names = months(sheet.year).map(|(year, month)| format!(",{year:04}-{month:02}"));
    writeln!(out, "account{}", names.concat())?;
    for (account, banks) in &sheet.rows {
        let cells = banks.map(|bank| format!(",{}", bank.map(gas).unwrap_or_default()));
        writeln!(out, "{account}{}", cells.concat())?;
    }
    let date = |day: Measuring| day.date.to_string();
    let days = sheet
        .measuring
        .map(|day| format!(",{}", day.map(date).unwrap_or_default()));
    writeln!(out, "measuring day{}", days.concat())
}

fn write_page(sheet: &Sheet, out: &mut dyn Write) -> io::Result<()> {
    let (year, next) = (sheet.year, year_after(sheet.year));
    writeln!(
        out,
        "Banks in Dth after each month's closing, April {year} to March {next}\n"
    )?;
    if sheet.cells().all(Option::is_none) {
        return writeln!(
            out,
            "The archive closes no month of an enrolled account in this gas year."
        );
    }
    write_table(sheet, out)?;
    match sheet.cells().any(Option::is_none) {
        true => writeln!(
            out,
            "\nA dash stands where a month is not closed or an account not yet enrolled."
        ),
        false => Ok(()),
    }
}

/// The line below the banks; a star stands at a day that holidays moved.
fn write_measuring(sheet: &Sheet, out: &mut dyn Write) -> io::Result<()> {
    let known: Vec<Measuring> = sheet.measuring.into_iter().flatten().collect();
    if known.is_empty() {
        return Ok(());
    }
    let shown = |day: &Measuring| {
        let star = day.moved_from.map_or("", |_| "*");
        format!("{} {}{star}", day.date.day, month_name(day.date.month))
    };
    let days: Vec<String> = known.iter().map(shown).collect();
    writeln!(out, "\nMeasuring days: {}", days.join(", "))?;
    match known.iter().any(|day| day.moved_from.is_some()) {
        true => writeln!(out, "A star stands where holidays moved the day."),
        false => Ok(()),
    }
}

fn write_table(sheet: &Sheet, out: &mut dyn Write) -> io::Result<()> {
    let names = months(sheet.year).map(|(_, month)| month_name(month).to_string());
    let mut lines = vec![("account".to_string(), names)];
    for (account, banks) in &sheet.rows {
        let cells = banks.map(|bank| bank.map_or("-".to_string(), shown::gas));
        lines.push((account.to_string(), cells));
    }
    let longest = |column: usize| lines.iter().map(|(_, cells)| cells[column].len()).max();
    let widths: [usize; MONTHS] = std::array::from_fn(|column| longest(column).unwrap_or(0));
    for (name, cells) in &lines {
        let cells = cells
            .iter()
            .zip(&widths)
            .map(|(cell, width)| format!("  {cell:>width$}"));
        writeln!(out, "{name:>7}{}", cells.collect::<String>())?;
    }
    Ok(())
}
