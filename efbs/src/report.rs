//! A gas year of an archive as one HTML page: the panel figure, a chart of each supplier's bank, the year sheet, the
//! measuring days, the letters without an answer and the statements. The page needs nothing beside itself: no script, no
//! picture, no font from elsewhere.

mod axes;
mod chart;
mod flags;
mod gas_year;
mod html;
mod lanes;
mod legend;
mod letters;
mod measuring;
mod overview;
mod page;
mod reported;
mod scale;
mod signs;
mod statements;
mod suppliers;
mod year_sheet;

use crate::archive::Refusal;
use crate::letters::Fates;
use crate::measuring::MeasuringDays;
use crate::replay::replay;
use crate::rules::Rules;
use crate::statement::Sums;
use crate::year_sheet::OpenAtClosings;
use gas_year::GasYear;

/// The page of the gas year from April of `year` to March of the next.
pub fn report(archive: &[u8], year: u16) -> Result<String, Refusal> {
    let mut gas_year = GasYear::new(year);
    let mut sums = Sums::default();
    let mut closings = OpenAtClosings::new(year);
    let mut days = MeasuringDays::new(year);
    let mut fates = Fates::default();
    let ledger = replay(archive, |step| {
        gas_year.add(step);
        closings.add(step);
        days.add(step);
        fates.add(step);
        sums.add(step);
    })?;
    let rules = Rules::of_archive(archive);
    let parts = [
        page::panel(&gas_year, rules),
        suppliers::suppliers(&gas_year),
        year_sheet::year_sheet(&gas_year, &closings.cells(archive)),
        measuring::measuring(&days, &ledger, rules),
        letters::letters(&fates.list(), year),
        statements::statements(&gas_year, &sums.statements(&ledger)),
        page::foot(),
    ];
    Ok(page::document(&gas_year.name(), &parts.concat()))
}
