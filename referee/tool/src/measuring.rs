//! Days and measurements, for the cases (b): every day of a year, every edge of a step, runs of three.

use crate::amounts::measurements;
use crate::both::Both;
use crate::boundaries::marked;
use crate::entries::{self, day_of};
use crate::gas_year::TERMS;
use crate::holidays::plain_day;
use crate::random::Random;
use crate::run::{Run, Same};
use referee::{Account, Date};

/// Every day of a year, and days that do not exist: measured, confiscated, closed by either kind, begun.
pub fn one_year_of_days(random: &mut Random, run: &mut Run) -> Same {
    // Seeds in a row go through all years.
    let year = 1_999 + (random.seed % 102) as u16;
    let is_new = random.one_in(2);
    for month in 0..=13 {
        for day in 0..=32 {
            let Some(date) = Date::new(year.into(), month, day) else {
                let bytes = entries::close_day((year, month as u8, day as u8));
                Both::fresh(is_new).post(run, &bytes)?;
                continue;
            };
            one_day(run, is_new, date)?;
        }
    }
    Ok(())
}

fn one_day(run: &mut Run, is_new: bool, date: Date) -> Same {
    let day = day_of(date);
    let mut ledger = marked(is_new, date);
    for place in [0, 15] {
        let account = &mut ledger.accounts[place];
        (account.delivered, account.metered) = (true, true);
    }
    Both::fresh(is_new).post(run, &entries::terms(day, TERMS))?;
    for bytes in [
        entries::close_day(day),
        entries::close_month(day, [3_000; 4]),
    ] {
        // Not measured at first: refused on the measurement day alone.
        let mut both = Both::of(&ledger);
        if both.post(run, &bytes)?.number == 27 {
            both.post(run, &entries::measure(0, day, 4_200))?;
            both.post(run, &bytes)?;
            both.post(run, &entries::measure(15, day, 4_200))?;
            both.post(run, &bytes)?;
        }
    }
    Both::of(&ledger).post(run, &entries::measure(0, day, 4_200))?;
    Both::of(&ledger).post(run, &entries::confiscated(0, day, 77))?;
    Ok(())
}

/// A measurement day that some rule could treat apart.
fn measurement_day(random: &mut Random) -> Date {
    let (year, month) = (2000 + random.below(100), 1 + random.below(12));
    plain_day(year, month).expect("one in each month")
}

/// MEASURE at every edge of some steps, with all runs.
pub fn steps(random: &mut Random, run: &mut Run) -> Same {
    let any = random.between(3, 98) as u64;
    for k in [1, 2, any, 99, 100] {
        let date = measurement_day(random);
        for (over, under) in (0..9).map(|runs| (runs / 3, runs % 3)) {
            let mut ledger = marked(random.one_in(2), date);
            let account = &mut ledger.accounts[0];
            (account.k, account.pending, account.over, account.under) = (k, k, over, under);
            for mdq in measurements(k as i64) {
                let mdq = mdq.clamp(0, 300_001) as u32;
                Both::of(&ledger).post(run, &entries::measure(0, day_of(date), mdq))?;
            }
        }
    }
    Ok(())
}

/// Four months of nothing but measurements at the edges, with their closings.
pub fn runs_of_three(random: &mut Random, run: &mut Run) -> Same {
    let first = Date::new(2026, 4, 1).expect("a date that exists");
    let mut ledger = marked(random.one_in(2), first);
    ledger.accounts[15] = Account::default();
    ledger.accounts[0].k = random.between(1, 6) as u64;
    let mut both = Both::of(&ledger);
    let edge = random.pick(&[1, 2, 3, 4, 8, 9, 10]);
    while let Some(date) = both.referee.date().filter(|date| date.month().number() < 9) {
        let day = day_of(date);
        both.post(run, &entries::deliver(0, day, 100, 0))?;
        if both.referee.holidays.is_measurement_day(date) {
            // The same edge each month, now and then another.
            let edge = if random.one_in(5) {
                random.below(18) as usize
            } else {
                edge
            };
            let mdq = measurements(both.referee.accounts[0].k as i64)[edge];
            both.post(run, &entries::measure(0, day, mdq.clamp(0, 300_000) as u32))?;
        }
        if date.is_month_end() {
            both.post(run, &entries::usage(0, day, 5))?;
        }
        both.post(run, &entries::close(date, [3_000, 3_100, 2_900, 50]))?;
    }
    Ok(())
}
