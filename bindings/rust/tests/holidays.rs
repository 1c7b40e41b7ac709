//! Holidays and measurement days through the static library.
use nedrulov::*;

const SAMPLE: &[u8] = include_bytes!("../../../crates/sheets/stdin");

fn entry(kind: u8, today: Date, words: [u32; 3]) -> Vec<u8> {
    let mut entry = vec![kind, 0, 0, 0];
    entry.extend_from_slice(&(today.year as u16).to_le_bytes());
    entry.extend_from_slice(&[today.month as u8, today.day as u8]);
    words.iter().for_each(|word| entry.extend_from_slice(&word.to_le_bytes()));
    entry.resize(ENTRY_BYTES, 0);
    entry
}

fn holiday(today: Date, date: Date) -> Vec<u8> {
    entry(11, today, [date.year, date.month, date.day].map(|number| number as u32))
}

fn date(year: u64, month: u64, day: u64) -> Date {
    Date { year, month, day }
}

/// A new ledger, or an old one, that has begun on 1 April 2026, the sample's first day, without accounts.
fn begun(is_new: bool) -> Ledger {
    let mut ledger = fresh(is_new);
    let sections = u16::from_le_bytes([SAMPLE[4], SAMPLE[5]]) as usize;
    assert_eq!(post(&mut ledger, &SAMPLE[8 + 8 * sections..][..ENTRY_BYTES]).number, 0);
    ledger
}

#[test]
fn named_days_move_the_measurement_day() {
    let mut ledger = begun(true);
    let today = ledger.date;
    assert_eq!(measurement_day(ledger, 2026, 4), 27);
    for (day, moved) in [(27, 28), (28, 29), (29, 30)] {
        assert_eq!(post(&mut ledger, &holiday(today, date(2026, 4, day))).number, 0);
        assert_eq!(measurement_day(ledger, 2026, 4), moved);
    }
    let mut dates = [Date::default(); HOLIDAYS];
    dates[..3].copy_from_slice(&[27, 28, 29].map(|day| date(2026, 4, day)));
    assert_eq!(ledger.holidays, Holidays { count: 3, dates });
    let before = ledger;
    for (named, number) in [
        (date(2026, 4, 30), 35),
        (date(2026, 4, 28), 34),
        (today, 33),
        (date(2026, 4, 31), 33),
        (date(65_536 + 2026, 5, 1), 33),
    ] {
        let answer = post(&mut ledger, &holiday(today, named));
        assert_eq!(answer, Answer { number, reports: [Report::default(); ACCOUNTS] });
        assert_eq!(ledger, before);
    }
}

#[test]
fn old_ledgers_know_no_holiday() {
    let mut ledger = begun(false);
    let today = ledger.date;
    let entry = holiday(today, date(2026, 12, 25));
    assert_eq!((entry_number(false, &entry), entry_number(true, &entry)), (2, 0));
    assert_eq!(post(&mut ledger, &entry).number, 2);
    assert_eq!(ledger, begun(false));
}

#[test]
fn a_month_drops_what_has_passed() {
    let mut ledger = begun(true);
    let named = [date(2026, 4, 3), date(2026, 5, 1), date(2026, 4, 30), date(2026, 5, 25)];
    let first = ledger.date;
    for named in named {
        assert_eq!(post(&mut ledger, &holiday(first, named)).number, 0);
    }
    ledger.holidays.dates[9] = date(u64::MAX, 7, 7);
    for day in 1..30 {
        assert_eq!(post(&mut ledger, &entry(8, date(2026, 4, day), [0; 3])).number, 0);
        assert_eq!((ledger.holidays.count, ledger.holidays.dates[9].day), (4, 7));
    }
    assert_eq!(post(&mut ledger, &entry(9, date(2026, 4, 30), [0; 3])).number, 0);
    let mut dates = [Date::default(); HOLIDAYS];
    dates[..2].copy_from_slice(&[named[1], named[3]]);
    assert_eq!(ledger.holidays, Holidays { count: 2, dates });
    assert_eq!(measurement_day(ledger, 2026, 5), 26);
}

#[test]
fn measurement_days_of_any_numbers() {
    let ledger = fresh(true);
    for (year, month) in [(1999, 12), (2100, 1), (2026, 0), (2026, 13), (u64::MAX, 4), (2026, u64::MAX), (0, 0)] {
        assert_eq!(measurement_day(ledger, year, month), 0, "{year}-{month}");
    }
    for (year, month) in (2000..2100).flat_map(|year| (1..=12).map(move |month| (year, month))) {
        assert!((25..=27).contains(&measurement_day(ledger, year, month)), "{year}-{month}");
    }
    let mut damaged = ledger;
    damaged.holidays.count = 17;
    assert_eq!(measurement_day(damaged, 2026, 4), 0);
    damaged = ledger;
    damaged.accounts[15].carry = u64::MAX;
    assert_eq!(measurement_day(damaged, 2026, 4), 0);
}
