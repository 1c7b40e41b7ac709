//! HOLIDAY and the days that it moves, for the cases (b): its bytes, its dates, its places, months that run dry,
//! measurements on moved days, and what a month's end keeps.

use crate::both::Both;
use crate::boundaries::marked;
use crate::entries::{self, day_of};
use crate::holidays::{self, fitting, list_of, litter, weekdays, words_of};
use crate::ledgers::{any_date, any_ledger, ready_ledger};
use crate::random::Random;
use crate::run::{Run, Same};
use referee::{Date, Holidays, Ledger};

pub fn namings(random: &mut Random, run: &mut Run) -> Same {
    bytes(random, run)?;
    for _ in 0..2 {
        dates(random, run)?;
        places(random, run)?;
        run_dry(random, run)?;
        months_ends(random, run)?;
    }
    moved_days(random, run)?;
    questions(random, run)
}

/// A ledger of the marked case that holds these dates.
fn holding(is_new: bool, date: Date, holidays: Holidays) -> Ledger {
    let mut ledger = marked(is_new, date);
    ledger.holidays = holidays;
    ledger
}

/// Each byte set that it does not use, and days of its own that do not exist.
fn bytes(random: &mut Random, run: &mut Run) -> Same {
    let date = any_date(random);
    let words = holidays::ahead(random, date);
    let sound = entries::holiday(day_of(date), words);
    for is_new in [false, true] {
        let ledger = holding(is_new, date, fitting(random, date));
        Both::of(&ledger).post(run, &sound)?;
        for place in [1, 2, 3, 20, 23, 24, 28, 31] {
            let mut bytes = sound;
            bytes[place] = random.pick(&[1, 15, 16, 255]);
            Both::of(&ledger).post(run, &bytes)?;
        }
        let (year, month, _) = day_of(date);
        for day in [(year, month, 32), (year, 13, 1), (2100, 1, 1)] {
            Both::of(&ledger).post(run, &entries::holiday(day, words))?;
        }
    }
    Ok(())
}

/// The days around today and around its month's end, with no place taken, some, and all.
fn dates(random: &mut Random, run: &mut Run) -> Same {
    let today = any_date(random);
    let mut named = vec![words_of(today)];
    let mut near = today;
    for _ in 0..3 {
        near = near.tomorrow().unwrap_or(near);
        named.push(words_of(near));
    }
    let [year, month, day] = words_of(today);
    named.extend([0, 1, 25, 28, 29, 30, 31, 32].map(|day| [year, month, day]));
    named.extend([[year, month, day - 1], [year, month - 1, day]]);
    named.extend([[year - 1, month, day], [year + 1, month, day]]);
    named.extend([[year, month % 12 + 1, 1], [year + 1, 1, 1], [2099, 12, 31]]);
    let is_new = !random.one_in(8);
    for list in [Holidays::default(), fitting(random, today)] {
        let ledger = holding(is_new, today, list);
        for &words in &named {
            Both::of(&ledger).post(run, &entries::holiday(day_of(today), words))?;
        }
        for _ in 0..8 {
            let words = holidays::hostile(random, &ledger);
            Both::of(&ledger).post(run, &entries::holiday(day_of(today), words))?;
        }
    }
    Ok(())
}

/// One date after another up to the seventeenth, each also a second time.
fn places(random: &mut Random, run: &mut Run) -> Same {
    let today = any_date(random);
    let mut list = Holidays::default();
    if random.one_in(2) {
        litter(random, &mut list, today);
    }
    let mut both = Both::of(&holding(true, today, list));
    for _ in 0..30 {
        let words = match random.below(8) {
            0 => holidays::hostile(random, &both.referee),
            _ => holidays::ahead(random, today),
        };
        let bytes = entries::holiday(day_of(today), words);
        let number = both.post(run, &bytes)?.number;
        if number == 34 && both.referee.holidays.count == 16 {
            break;
        }
        Both::of(&both.referee).post(run, &bytes)?;
    }
    Ok(())
}

/// All business days of a month from the 25th on in any order, with weekends between, in this month or before it.
fn run_dry(random: &mut Random, run: &mut Run) -> Same {
    let (year, month) = (2000 + random.below(100), 1 + random.below(12));
    let first = Date::new(year, month, 1).expect("a date that exists");
    let today = match random.below(3) {
        0 => Date::new(year, month, 1 + random.below(24)).unwrap_or(first),
        1 => Date::new(year, 1, 1).unwrap_or(first),
        _ => Date::new(2000, 1, 1).unwrap_or(first),
    };
    let mut days: Vec<Date> = (24..=31)
        .filter_map(|day| Date::new(year, month, day))
        .filter(|date| date.is_weekday() || random.one_in(2))
        .collect();
    for at in 1..days.len() {
        days.swap(at, random.below(at as u64 + 1) as usize);
    }
    let mut both = Both::of(&holding(true, today, Holidays::default()));
    for &date in &days {
        both.post(run, &entries::holiday(day_of(today), words_of(date)))?;
        both.measurement_day(run, year, month)?;
    }
    // Once more: those held are repeated now, and one is the last.
    for &date in &days {
        both.post(run, &entries::holiday(day_of(today), words_of(date)))?;
    }
    Ok(())
}

/// From the 24th of a month to its end, with some of its days named: every day is measured and closed, or tried.
fn moved_days(random: &mut Random, run: &mut Run) -> Same {
    // Seeds in a row go through all months.
    let (year, month) = (2000 + random.seed / 12 % 100, 1 + random.seed % 12);
    let start = Date::new(year, month, 24).expect("a date that exists");
    let days = weekdays(year, month);
    let first = random.below(days.len() as u64) as usize;
    let is_new = !random.one_in(4);
    // An old ledger is handed them.
    let mut list = list_of(if is_new { &[] } else { &days[..first] });
    if random.one_in(2) {
        litter(random, &mut list, start);
    }
    let mut both = Both::of(&holding(is_new, start, list));
    for &day in &days[..first] {
        let words = words_of(day);
        both.post(run, &entries::holiday(day_of(start), words))?;
    }
    while let Some(date) = both.referee.date().filter(|date| date.day() >= 24) {
        if !one_day(random, run, &mut both, date)? {
            break;
        }
    }
    Ok(())
}

/// A day with its closing before MEASURE, after that of one account and after both; false if it cannot be closed.
fn one_day(
    random: &mut Random,
    run: &mut Run,
    both: &mut Both,
    date: Date,
) -> Result<bool, String> {
    let day = day_of(date);
    for account in [0, 15] {
        both.post(run, &entries::deliver(account, day, 10, 0))?;
        if date.is_month_end() {
            both.post(run, &entries::usage(account, day, 5))?;
        }
    }
    let closing = entries::close(date, [3_000; 4]);
    let unmeasured = Both::of(&both.referee).post(run, &closing)?.number;
    for account in [0, 15] {
        both.post(run, &entries::measure(account, day, 4_200))?;
        Both::of(&both.referee).post(run, &closing)?;
    }
    if unmeasured == 0 && random.one_in(3) {
        let words = holidays::hostile(random, &both.referee);
        both.post(run, &entries::holiday(day, words))?;
    }
    Ok(both.post(run, &closing)?.number == 0)
}

/// CLOSE MONTH of lists with the days around the new date, littered or not, and one that is refused.
fn months_ends(random: &mut Random, run: &mut Run) -> Same {
    let date = month_end(random);
    let ledger = at_months_end(random, date);
    let closing = entries::close(date, [3_000, 3_100, 2_900, 50]);
    for is_new in [false, true] {
        let mut ledger = ledger.clone();
        ledger.is_new = is_new;
        let mut both = Both::of(&ledger);
        both.post(run, &closing)?;
        if let Some(next) = both.referee.date() {
            let words = holidays::ahead(random, next);
            both.post(run, &entries::holiday(day_of(next), words))?;
        }
        ledger.accounts[0].metered = false;
        Both::of(&ledger).post(run, &closing)?;
        Both::of(&ledger).post(run, &entries::close_day(day_of(date)))?;
    }
    Ok(())
}

fn month_end(random: &mut Random) -> Date {
    let (year, month) = (2000 + random.below(100), 1 + random.below(12));
    let mut days = (28..=31).filter_map(|day| Date::new(year, month, day));
    let found = days.find(|date| date.is_month_end());
    found.expect("one in each month")
}

/// Ready to close, with dates on both sides of the first day of the next month, in any order.
fn at_months_end(random: &mut Random, date: Date) -> Ledger {
    let next = date.tomorrow().unwrap_or(date);
    let after = next.tomorrow().unwrap_or(next);
    let count = random.pick(&[0, 1, 3, 8, 16]);
    let any = any_date(random);
    let past = Date::new(date.year(), date.month().number(), 1).unwrap_or(date);
    let choices = random.pick(&[
        [date, next, after, any],
        [next, after, next, after],
        [date, past, date, past],
    ]);
    let dates: Vec<Date> = (0..count).map(|_| random.pick(&choices)).collect();
    let mut ledger = holding(true, date, list_of(&dates));
    for place in [0, 15] {
        let account = &mut ledger.accounts[place];
        (account.delivered, account.measured, account.metered) = (true, true, true);
    }
    if random.one_in(2) {
        litter(random, &mut ledger.holidays, date);
    }
    ledger
}

/// The measurement days of a year and of months that there are not, of ledgers in range and of others.
fn questions(random: &mut Random, run: &mut Run) -> Same {
    // Seeds in a row go through all years.
    let year = 1_999 + random.seed % 102;
    let date = Date::new(year, 1 + random.below(12), 1).unwrap_or_else(|| any_date(random));
    let mut sound = ready_ledger(random, date);
    sound.begun = random.one_in(2);
    let any = any_ledger(random);
    for ledger in [Ledger::fresh(random.one_in(2)), sound, any] {
        let both = Both::of(&ledger);
        for month in (0..=13).chain([256 + 4, (1 << 32) + 4, u64::MAX]) {
            both.ask(run, year, month)?;
        }
        for year in [0, 65_536 + 2_026, (1 << 32) + 2_026, u64::MAX] {
            both.ask(run, year, 1 + random.below(12))?;
        }
    }
    Ok(())
}
