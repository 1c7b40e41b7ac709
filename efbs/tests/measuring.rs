//! Measuring days of small archives, and of the sample year with holidays.

mod common;

use common::{holiday_sample, pack, sample};
use efbs::entry::Day;
use efbs::measuring::{Measuring, MeasuringDays};
use efbs::replay::replay;
use nedrulov::MONTHS;

const TERMS: &str = "\
rules new
2026-04-01 terms no-notice=120000 design-day=480000 storage=5000400 retainage=0.00% demand-rate=0.000 commodity-rate=0.000
";
const PLAIN: [u8; MONTHS] = [27, 25, 25, 27, 25, 25, 26, 25, 25, 25, 25, 25];

fn measured(archive: &[u8], year: u16) -> ([Option<Measuring>; MONTHS], Vec<Day>) {
    let mut days = MeasuringDays::new(year);
    let ledger = replay(archive, |step| days.add(step)).expect("the archive is right");
    (days.months(&ledger), days.holidays())
}

/// The days of the months that have one, and those that holidays moved with the day before.
fn days(months: &[Option<Measuring>]) -> (Vec<u8>, Vec<(Day, Day)>) {
    let known = months.iter().flatten();
    let moved = known
        .clone()
        .filter_map(|day| Some((day.date, day.moved_from?)));
    (known.map(|day| day.date.day).collect(), moved.collect())
}

fn day(text: &str) -> Day {
    text.parse().expect("a date")
}

/// No account is open, so a closing lacks nothing.
fn closings(month: u8, length: u8) -> String {
    let days = (1..length).map(|day| format!("2026-{month:02}-{day:02} close-day\n"));
    let prices = "average-cost=0.000 highest-price=0.000 lowest-price=0.000 pipeline-charges=0.000";
    days.collect::<String>() + &format!("2026-{month:02}-{length} close-month {prices}\n")
}

#[test]
fn without_holidays_only_weekends_count() {
    for archive in [pack(TERMS), sample()] {
        let (months, holidays) = measured(&archive, 2026);
        assert_eq!(days(&months), (PLAIN.to_vec(), vec![]));
        assert_eq!(holidays, []);
    }
}

#[test]
fn the_sample_year_has_two_that_moved() {
    let (months, holidays) = measured(&holiday_sample(), 2026);
    let (found, moved) = days(&months);
    let mut due = PLAIN;
    (due[1], due[8]) = (26, 28);
    assert_eq!(found, due);
    let pairs = [("2026-05-26", "2026-05-25"), ("2026-12-28", "2026-12-25")];
    assert_eq!(moved, pairs.map(|(to, from)| (day(to), day(from))));
    assert_eq!(holidays.len(), 7);
    assert_eq!(holidays.last(), Some(&day("2027-01-01")));
}

#[test]
fn holidays_of_another_year_are_noted_there() {
    let text = "2026-04-01 holiday on=2027-05-25\n2026-04-01 holiday on=2026-05-25\n2026-04-01 holiday on=2026-05-25\n";
    let archive = pack(&[TERMS, text].concat());
    let (months, holidays) = measured(&archive, 2026);
    assert_eq!(holidays, [day("2026-05-25")]);
    assert_eq!(days(&months).1, [(day("2026-05-26"), day("2026-05-25"))]);
    let (months, holidays) = measured(&archive, 2027);
    assert_eq!(holidays, [day("2027-05-25")]);
    assert_eq!(days(&months).1, [(day("2027-05-26"), day("2027-05-25"))]);
}

/// The holiday is held as April closes and gone after it.
#[test]
fn a_closed_month_keeps_the_day_that_it_had() {
    let named = "2026-04-01 holiday on=2026-04-27\n";
    for rest in [
        String::new(),
        closings(4, 30),
        closings(4, 30) + &closings(5, 31),
    ] {
        let (months, holidays) = measured(&pack(&[TERMS, named, &rest].concat()), 2026);
        assert_eq!(days(&months).1, [(day("2026-04-28"), day("2026-04-27"))]);
        assert_eq!(holidays, [day("2026-04-27")]);
    }
}

#[test]
fn years_that_no_ledger_is_about() {
    let none = [None; MONTHS];
    assert_eq!(measured(&pack(TERMS), 2025).0, none);
    assert_eq!(measured(&pack("rules new"), 2026).0, none);
    assert_eq!(measured(&pack("2026-04-01 close-day"), 2026).0, none);
    assert_eq!(measured(&pack(TERMS), 2100).0, none);
    assert_eq!(measured(&pack(TERMS), u16::MAX).0, none);
    let (months, _) = measured(&pack(TERMS), 2099);
    assert_eq!(days(&months).0.len(), 9, "April to December");
}
