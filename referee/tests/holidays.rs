//! HOLIDAY: its refusals, the dates that a ledger holds, and the measurement
//! day that they move.

mod common;

use common::*;
use referee::{
    check, entry_number, measurement_day, panel, partners, replay, write, Account, Answer, Date,
    Holidays, Ledger, Named, Posting,
};

/// A Friday, and the Monday after it.
const CHRISTMAS: Day = (2026, 12, 25);
const MOVED: Day = (2026, 12, 28);
/// A Wednesday in a month that has no rules of its own.
const TODAY: Day = (2026, 5, 20);

const NOTHING: Named = Named {
    year: 0,
    month: 0,
    day: 0,
};

fn number(ledger: &Ledger, bytes: &[u8]) -> u64 {
    post_checked(&mut ledger.clone(), bytes).number
}

fn new_on(day: Day) -> Ledger {
    told(true, ledger_on(day))
}

/// A new ledger of that day that holds these dates.
fn holding(day: Day, dates: &[Day]) -> Ledger {
    Ledger {
        holidays: held(dates),
        ..new_on(day)
    }
}

/// Sixteen dates of the autumn, the first of them a Thursday.
fn sixteen() -> Vec<Day> {
    (1..=16).map(|day| (2026, 10, day)).collect()
}

/// Something in every place past the count that would be refused there.
fn with_garbage(mut ledger: Ledger) -> Ledger {
    let count = ledger.holidays.count as usize;
    for (place, date) in ledger.holidays.dates.iter_mut().enumerate().skip(count) {
        date.year = u64::MAX - place as u64;
        date.month = 13;
    }
    ledger
}

fn weekdays_from_the_25th(year: u16, month: u8) -> Vec<Day> {
    let dates = (25..=31).map(|day| (year, month, day));
    let exist = |&(year, month, day): &Day| Date::new(year.into(), month.into(), day.into());
    dates
        .filter(|day| exist(day).is_some_and(Date::is_weekday))
        .collect()
}

#[test]
fn as_an_entry() {
    let bytes = holiday(START, CHRISTMAS);
    assert_eq!(decoded(true, &bytes), Posting::Holiday(named(CHRISTMAS)));
    // No word is out of range, and each is taken whole.
    for words in [
        [0; 3],
        [u32::MAX; 3],
        [65_536 + 2026, 256 + 4, 256 + 1],
        [1, 0, u32::MAX],
    ] {
        let bytes = holiday_words(START, words);
        let [year, month, day] = words.map(u64::from);
        let whole = Named { year, month, day };
        assert_eq!(decoded(true, &bytes), Posting::Holiday(whole));
        assert_eq!(entry_number(true, &bytes), 0);
        assert_eq!(entry_number(false, &bytes), 2);
    }
}

#[test]
fn numbers_2_to_5() {
    let day = (2026, 4, 30);
    let bytes = holiday(day, CHRISTMAS);
    // Both account bytes, the flags, and every byte of w4 to w6.
    for place in (1..=3).chain(20..32) {
        for value in [1, 15, 16, 128, 255] {
            let mut bytes = bytes;
            bytes[place] = value;
            assert_eq!(entry_number(true, &bytes), 5, "{place}");
            assert_eq!(number(&new_on(day), &bytes), 5);
            assert_eq!(entry_number(false, &bytes), 2);
            // 3 comes before 5, and 5 before what the words say.
            bytes[8..20].fill(255);
            assert_eq!(entry_number(true, &bytes), 5);
            bytes[7] = 31;
            assert_eq!(entry_number(true, &bytes), 3);
        }
    }
    assert_eq!(number(&new_on(day), &bytes), 0);
    assert_eq!(number(&new_on(day), &bytes[..31]), 1);
    // In an old ledger it is no kind, whatever the rest holds.
    let mut ledger = ledger_on(day);
    assert_eq!(number(&ledger, &bytes), 2);
    assert_eq!(number(&ledger, &holiday_words((1, 2, 3), [0; 3])), 2);
    ledger.holidays.count = 17;
    assert_eq!(number(&ledger, &bytes), 2);
    // A kind above 12 is none in a new ledger either.
    let mut bytes = bytes;
    bytes[0] = 13;
    assert_eq!(number(&new_on(day), &bytes), 2);
}

#[test]
fn what_it_changes() {
    let mut ledger = new_on(TODAY);
    ledger.accounts[0].bank = 777;
    let before = ledger.clone();
    let dates = [CHRISTMAS, (2026, 5, 30), (2030, 1, 1), (2026, 5, 21)];
    for count in 1..=dates.len() {
        let answer = accept(&mut ledger, &holiday(TODAY, dates[count - 1]));
        assert_eq!(answer, Answer::default());
        // In the order of posting, not of the calendar.
        let expected = Ledger {
            touched: true,
            holidays: held(&dates[..count]),
            ..before.clone()
        };
        assert_eq!(ledger, expected);
        assert_eq!(panel(&ledger), (0, 777));
    }
}

#[test]
fn it_marks_the_day() {
    let mut ledger = new_on(START);
    accept(&mut ledger, &holiday(START, CHRISTMAS));
    assert_eq!(number(&ledger, &terms(START, 0, 0)), 23);
    // A refused one does not.
    let mut ledger = new_on(START);
    assert_eq!(post_checked(&mut ledger, &holiday(START, START)).number, 33);
    assert_eq!(number(&ledger, &terms(START, 0, 0)), 0);
}

#[test]
fn it_comes_on_any_day() {
    // No account need be open, and none is asked for anything.
    for accounts in [[Account::default(); 16], [marked_account(); 16]] {
        let mut date = Date::new(2028, 1, 1);
        while let Some(today) = date.filter(|date| date.year() == 2028) {
            let day = (2028, today.month().number() as u8, today.day() as u8);
            let ledger = Ledger {
                accounts,
                ..new_on(day)
            };
            assert_eq!(number(&ledger, &holiday(day, (2029, 1, 1))), 0);
            date = today.tomorrow();
        }
    }
}

#[test]
fn number_33() {
    let ledger = new_on(TODAY);
    let number = |words| number(&ledger, &holiday_words(TODAY, words));
    for words in [
        [2026, 5, 21],
        [2026, 5, 31],
        [2026, 6, 1],
        [2027, 1, 1],
        [2028, 2, 29],
        [2099, 12, 31],
    ] {
        assert_eq!(number(words), 0, "{words:?}");
    }
    for words in [
        // Today and earlier.
        [2026, 5, 20],
        [2026, 5, 19],
        [2026, 4, 30],
        [2025, 12, 31],
        [2000, 1, 1],
        // No such day.
        [2026, 6, 31],
        [2027, 2, 29],
        [2026, 6, 0],
        [2026, 0, 21],
        [2026, 13, 1],
        [1999, 12, 31],
        [2100, 1, 1],
        [0, 0, 0],
        [u32::MAX; 3],
        // Dates if upper bits were lost.
        [65_536 + 2026, 12, 25],
        [2026, 256 + 12, 25],
        [2026, 12, 256 + 25],
        [2026, 65_536 + 12, 25],
        [2026, 12, 65_536 + 25],
    ] {
        assert_eq!(number(words), 33, "{words:?}");
    }
}

#[test]
fn the_next_day_and_the_last() {
    for (today, tomorrow) in [
        ((2026, 4, 30), (2026, 5, 1)),
        ((2028, 2, 28), (2028, 2, 29)),
        ((2027, 12, 31), (2028, 1, 1)),
        ((2099, 12, 30), (2099, 12, 31)),
    ] {
        let ledger = new_on(today);
        assert_eq!(number(&ledger, &holiday(today, tomorrow)), 0);
        assert_eq!(number(&ledger, &holiday(today, today)), 33);
    }
    // Nothing is after the last day.
    let last = (2099, 12, 31);
    for words in [[2099, 12, 31], [2100, 1, 1], [2099, 12, 30]] {
        assert_eq!(number(&new_on(last), &holiday_words(last, words)), 33);
    }
}

#[test]
fn number_34() {
    let dates = sixteen();
    let mut ledger = new_on(TODAY);
    for &day in &dates {
        accept(&mut ledger, &holiday(TODAY, day));
        // Repeated: the last one, and the first.
        assert_eq!(number(&ledger, &holiday(TODAY, day)), 34);
        assert_eq!(number(&ledger, &holiday(TODAY, dates[0])), 34);
    }
    assert_eq!(ledger.holidays, held(&dates));
    for day in [CHRISTMAS, (2026, 5, 21), dates[15]] {
        assert_eq!(number(&ledger, &holiday(TODAY, day)), 34);
    }
    ledger.holidays.count = 15;
    assert_eq!(number(&ledger, &holiday(TODAY, CHRISTMAS)), 0);
    // The same day of another month or year is another date.
    let ledger = holding(TODAY, &[CHRISTMAS]);
    for day in [(2027, 12, 25), (2026, 11, 25), (2026, 12, 24)] {
        assert_eq!(number(&ledger, &holiday(TODAY, day)), 0);
    }
}

#[test]
fn what_stands_past_the_count_is_not_held() {
    let mut ledger = holding(TODAY, &[(2026, 6, 1), CHRISTMAS, (2026, 6, 2)]);
    ledger.holidays.count = 1;
    assert_eq!(measurement_day(&ledger, 2026, 12), 25);
    accept(&mut ledger, &holiday(TODAY, CHRISTMAS));
    assert_eq!(ledger.holidays, held(&[(2026, 6, 1), CHRISTMAS]));
    assert_eq!(measurement_day(&ledger, 2026, 12), 28);
    let mut ledger = with_garbage(holding(TODAY, &[(2026, 6, 1)]));
    accept(&mut ledger, &holiday(TODAY, CHRISTMAS));
    assert_eq!(ledger.holidays, held(&[(2026, 6, 1), CHRISTMAS]));
    // Zeros past the count are not held either, nor is a refusal a change.
    let mut ledger = with_garbage(holding(TODAY, &[CHRISTMAS]));
    assert_eq!(
        post_checked(&mut ledger, &holiday_words(TODAY, [0; 3])).number,
        33
    );
    assert_eq!(
        post_checked(&mut ledger, &holiday(TODAY, CHRISTMAS)).number,
        34
    );
}

#[test]
fn number_35() {
    // Wednesday to Friday, and a Saturday, which may be named but is no
    // business day.
    let today = (2026, 1, 15);
    let mut ledger = new_on(today);
    for day in [25, 28, 26] {
        accept(&mut ledger, &holiday(today, (2026, 2, day)));
    }
    assert_eq!(number(&ledger, &holiday(today, (2026, 2, 27))), 35);
    assert_eq!(measurement_day(&ledger, 2026, 2), 27);
    // Days before the 25th do not count.
    accept(&mut ledger, &holiday(today, (2026, 2, 24)));
    assert_eq!(number(&ledger, &holiday(today, (2026, 2, 27))), 35);
    // Nor do other months and years.
    assert_eq!(number(&ledger, &holiday(today, (2027, 2, 26))), 0);
    assert_eq!(number(&ledger, &holiday(today, (2026, 3, 27))), 0);
}

#[test]
fn a_business_day_that_has_passed() {
    // Nothing is left to come, but the days before the 31st are free.
    let (today, last) = ((2026, 12, 30), (2026, 12, 31));
    assert_eq!(number(&new_on(today), &holiday(today, last)), 0);
    let all = [CHRISTMAS, MOVED, (2026, 12, 29), today];
    assert_eq!(number(&holding(today, &all), &holiday(today, last)), 35);
    for free in 0..all.len() {
        let mut others = all.to_vec();
        others.remove(free);
        assert_eq!(number(&holding(today, &others), &holiday(today, last)), 0);
    }
}

#[test]
fn the_last_business_day_of_each_month() {
    let today = (2025, 12, 31);
    for (year, month) in (2026..2030).flat_map(|year| (1..=12).map(move |month| (year, month))) {
        let days = weekdays_from_the_25th(year, month);
        assert!(days.len() >= 2);
        for last in 0..days.len() {
            let mut ledger = new_on(today);
            let others = days.iter().enumerate().filter(|(at, _)| *at != last);
            for (_, &day) in others {
                accept(&mut ledger, &holiday(today, day));
            }
            assert_eq!(number(&ledger, &holiday(today, days[last])), 35);
            let left = measurement_day(&ledger, year.into(), month.into());
            assert_eq!(left, u64::from(days[last].2));
        }
    }
}

#[test]
fn weekends_may_be_named() {
    // The 25th of April 2026 is a Saturday, the 26th a Sunday.
    let mut ledger = new_on(START);
    for day in [(2026, 4, 25), (2026, 4, 26)] {
        accept(&mut ledger, &holiday(START, day));
    }
    assert_eq!(ledger.holidays, held(&[(2026, 4, 25), (2026, 4, 26)]));
    assert_eq!(measurement_day(&ledger, 2026, 4), 27);
    assert_eq!(number(&ledger, &holiday(START, (2026, 4, 25))), 34);
}

#[test]
fn the_order_of_33_to_35() {
    // All places taken, four of them by all business days but one of the
    // month that TODAY is in: 25 to 28 of May, from Monday to Thursday.
    let mut dates: Vec<Day> = (25..=28).map(|day| (2026, 5, day)).collect();
    dates.extend(&sixteen()[..12]);
    let full = holding(TODAY, &dates);
    let last = holiday(TODAY, (2026, 5, 29));
    let repeated = holiday(TODAY, (2026, 5, 28));
    assert_eq!(number(&full, &last), 34);
    assert_eq!(number(&full, &repeated), 34);
    let mut room = full.clone();
    room.holidays = held(&dates[..15]);
    assert_eq!(number(&room, &last), 35);
    assert_eq!(number(&room, &repeated), 34);
    // On the 29th itself and later both are 33, though the one is held and
    // the other the last.
    for mut ledger in [full, room] {
        for today in [29, 30] {
            ledger.day = today.into();
            let day = (2026, 5, today);
            for wrong in [(2026, 5, 28), (2026, 5, 29), (2026, 6, 31)] {
                assert_eq!(number(&ledger, &holiday(day, wrong)), 33);
            }
        }
    }
}

#[test]
fn what_comes_before_33() {
    let today = (2026, 5, 20);
    let wrong = holiday_words(today, [0; 3]);
    let mut ledger = holding(today, &sixteen());
    assert_eq!(number(&ledger, &wrong), 33);
    ledger.day = 21;
    assert_eq!(number(&ledger, &wrong), 22);
    ledger.begun = false;
    assert_eq!(number(&ledger, &wrong), 21);
    ledger.holidays.count = 17;
    assert_eq!(number(&ledger, &wrong), 20);
    let mut set = wrong;
    set[31] = 1;
    assert_eq!(number(&ledger, &set), 5);
    assert_eq!(number(&told(false, ledger), &set), 2);
    // A right one too gets 21 and 22 where they apply.
    let right = holiday(today, CHRISTMAS);
    assert_eq!(number(&Ledger::fresh(true), &right), 21);
    assert_eq!(number(&new_on((2026, 5, 19)), &right), 22);
}

/// Every way to ask for the ranges, of old and new ledgers, begun or not.
fn is_in_range(holidays: Holidays) -> bool {
    let mut told_by = Vec::new();
    for (is_new, begun) in [(false, false), (false, true), (true, false), (true, true)] {
        let ledger = Ledger {
            begun,
            holidays,
            ..told(is_new, ledger_on(TODAY))
        };
        told_by.push(ledger.in_range());
        told_by.push(panel(&ledger).0 != 20);
        told_by.push(partners(&ledger, 0, 1).number != 20);
        told_by.push(measurement_day(&ledger, 2026, 5) != 0);
        for bytes in [
            terms(START, 0, 0),
            deliver(0, TODAY, 0, 0),
            close_day(TODAY),
            close_month((2026, 5, 31), [0; 4]),
        ] {
            told_by.push(number(&ledger, &bytes) != 20);
        }
        if is_new {
            told_by.push(number(&ledger, &holiday(TODAY, CHRISTMAS)) != 20);
        }
    }
    assert!(told_by.windows(2).all(|pair| pair[0] == pair[1]));
    told_by[0]
}

#[test]
fn number_20_of_the_count() {
    for (count, fits) in [
        (0, true),
        (1, true),
        (16, true),
        (17, false),
        (256, false),
        (1 << 32, false),
        (u64::MAX, false),
    ] {
        let mut list = held(&sixteen());
        list.count = count;
        assert_eq!(is_in_range(list), fits, "{count}");
    }
    // Zeros within the count are no dates.
    let list = Holidays {
        count: 1,
        ..Holidays::default()
    };
    assert!(!is_in_range(list));
}

#[test]
fn number_20_of_a_date() {
    for (year, month, day, fits) in [
        (2026, 12, 25, true),
        (2000, 1, 1, true),
        (2099, 12, 31, true),
        (2024, 2, 29, true),
        (2026, 2, 29, false),
        (1999, 12, 31, false),
        (2100, 1, 1, false),
        (2026, 0, 1, false),
        (2026, 13, 1, false),
        (2026, 4, 31, false),
        (2026, 4, 0, false),
        (65_536 + 2026, 4, 1, false),
        ((1 << 32) + 2026, 4, 1, false),
        (2026, (1 << 32) + 4, 1, false),
        (2026, 4, (1 << 32) + 1, false),
        (u64::MAX, u64::MAX, u64::MAX, false),
    ] {
        for place in [0, 9, 15] {
            let mut list = held(&sixteen());
            list.dates[place] = Named { year, month, day };
            assert_eq!(is_in_range(list), fits, "{year}-{month}-{day}");
            // Past the count nothing is looked at.
            list.count = place as u64;
            assert!(is_in_range(list));
        }
    }
}

#[test]
fn number_20_of_a_month_without_a_business_day() {
    for (year, month) in [(2026, 2), (2027, 2), (2026, 5), (2000, 1), (2099, 12)] {
        let days = weekdays_from_the_25th(year, month);
        assert!(!is_in_range(held(&days)));
        for left in 0..days.len() {
            // With one of them replaced by a day that changes nothing.
            let mut others = days.clone();
            others[left] = (year, month, 24);
            assert!(is_in_range(held(&others)));
        }
        // Past the count the last one is not held.
        let mut list = held(&days);
        list.count -= 1;
        assert!(is_in_range(list));
        // Among others, in another order.
        let mut mixed = sixteen()[..8].to_vec();
        mixed.extend(days.iter().rev());
        assert!(!is_in_range(held(&mixed)));
    }
}

#[test]
fn what_is_no_fault() {
    assert!(is_in_range(held(&[CHRISTMAS; 16])));
    // Past, today, a Saturday and a Sunday.
    let dates = [(2000, 1, 3), TODAY, (2026, 5, 23), (2026, 5, 24)];
    assert!(is_in_range(held(&dates)));
    let ledger = with_garbage(holding(TODAY, &dates));
    assert!(is_in_range(ledger.holidays));
}

#[test]
fn christmas_2026() {
    // Open, delivered and metered, not measured.
    let on = |day: Day, dates: &[Day]| {
        let mut ledger = told(true, ready_to_close(day, |a| a.measured = false));
        ledger.holidays = held(dates);
        ledger
    };
    let plain = on(CHRISTMAS, &[]);
    assert_eq!(number(&plain, &measure(0, CHRISTMAS, 4_200)), 0);
    assert_eq!(number(&plain, &close_day(CHRISTMAS)), 27);
    assert_eq!(measurement_day(&plain, 2026, 12), 25);

    let moved = on(CHRISTMAS, &[CHRISTMAS]);
    assert_eq!(number(&moved, &measure(0, CHRISTMAS, 4_200)), 23);
    assert_eq!(number(&moved, &close_day(CHRISTMAS)), 0);
    assert_eq!(measurement_day(&moved, 2026, 12), 28);
    for day in [24, 26, 27, 29, 30, 31] {
        let ledger = on((2026, 12, day), &[CHRISTMAS]);
        let bytes = measure(0, (2026, 12, day), 4_200);
        assert_eq!(number(&ledger, &bytes), 23);
    }
    let mut ledger = on(MOVED, &[CHRISTMAS]);
    assert_eq!(number(&ledger, &close_day(MOVED)), 27);
    accept(&mut ledger, &measure(0, MOVED, 4_200));
    assert_eq!(number(&ledger, &measure(0, MOVED, 4_200)), 26);
    accept(&mut ledger, &close_day(MOVED));
    // Without the holiday the 28th is like any other day.
    assert_eq!(number(&on(MOVED, &[]), &close_day(MOVED)), 0);
    assert_eq!(number(&on(MOVED, &[]), &measure(0, MOVED, 4_200)), 23);
}

#[test]
fn from_the_24th_to_the_28th() {
    let today = (2026, 12, 24);
    let mut ledger = told(true, ready_to_close(today, |a| a.measured = false));
    accept(&mut ledger, &holiday(today, CHRISTMAS));
    accept(&mut ledger, &close_day(today));
    for day in 25..=27 {
        let day = (2026, 12, day);
        accept(&mut ledger, &deliver(0, day, 0, 0));
        assert_eq!(number(&ledger, &measure(0, day, 4_200)), 23);
        // What is named today is too late for today.
        assert_eq!(number(&ledger, &holiday(day, day)), 33);
        accept(&mut ledger, &close_day(day));
    }
    accept(&mut ledger, &deliver(0, MOVED, 0, 0));
    assert_eq!(post_checked(&mut ledger, &close_day(MOVED)).number, 27);
    accept(&mut ledger, &measure(0, MOVED, 4_200));
    // Naming the next day after the meters were read changes nothing today.
    accept(&mut ledger, &holiday(MOVED, (2026, 12, 29)));
    accept(&mut ledger, &close_day(MOVED));
    assert_eq!(ledger.holidays, held(&[CHRISTMAS, (2026, 12, 29)]));
}

#[test]
fn four_weekdays_in_a_row() {
    // Friday, and Monday to Wednesday after the weekend.
    let dates = [CHRISTMAS, MOVED, (2026, 12, 29), (2026, 12, 30)];
    let today = (2026, 12, 1);
    let mut ledger = new_on(today);
    for (day, moved) in dates.into_iter().zip([28, 29, 30, 31]) {
        accept(&mut ledger, &holiday(today, day));
        assert_eq!(measurement_day(&ledger, 2026, 12), moved);
    }
    let last = (2026, 12, 31);
    assert_eq!(number(&ledger, &holiday(today, last)), 35);
    // A month's end that is measured and metered.
    for (measured, metered) in [(false, true), (true, false), (true, true)] {
        let mut ledger = told(true, ready_to_close(last, |a| a.measured = measured));
        ledger.accounts[0].metered = metered;
        ledger.holidays = held(&dates);
        let all = measured && metered;
        let expected = if all { 0 } else { 27 };
        assert_eq!(number(&ledger, &close_month(last, [0; 4])), expected);
        if !measured {
            accept(&mut ledger, &measure(0, last, 4_200));
            accept(&mut ledger, &close_month(last, [0; 4]));
            assert_eq!(ledger.holidays, Holidays::default());
        }
    }
}

#[test]
fn held_dates_count_in_old_ledgers_too() {
    let mut ledger = ready_to_close(MOVED, |a| a.measured = false);
    ledger.holidays = held(&[CHRISTMAS]);
    assert!(!ledger.is_new);
    assert_eq!(measurement_day(&ledger, 2026, 12), 28);
    assert_eq!(number(&ledger, &close_day(MOVED)), 27);
    accept(&mut ledger, &measure(0, MOVED, 4_200));
    assert_eq!(number(&ledger, &holiday(MOVED, (2026, 12, 29))), 2);
    let mut ledger = ready_to_close(CHRISTMAS, |a| a.measured = false);
    ledger.holidays = held(&[CHRISTMAS]);
    assert_eq!(number(&ledger, &measure(0, CHRISTMAS, 4_200)), 23);
    accept(&mut ledger, &close_day(CHRISTMAS));
}

#[test]
fn the_months_end_drops_what_has_passed() {
    let day = (2026, 5, 31);
    let dates = [
        CHRISTMAS,
        (2026, 5, 31), // the day that is closed
        (2026, 6, 1),  // the new date
        (2025, 6, 2),
        (2026, 6, 30),
        CHRISTMAS,
        (2026, 4, 1),
        (2026, 6, 2),
    ];
    let kept = [CHRISTMAS, dates[2], dates[4], CHRISTMAS, dates[7]];
    for is_new in [false, true] {
        let ledger = Ledger {
            holidays: held(&dates),
            ..told(is_new, ready_to_close(day, |_| {}))
        };
        for mut ledger in [ledger.clone(), with_garbage(ledger)] {
            accept(&mut ledger, &close_month(day, [0; 4]));
            assert_eq!(ledger.holidays, held(&kept));
            assert_eq!(ledger.holidays.dates[5..], [NOTHING; 11]);
        }
    }
}

#[test]
fn the_list_at_other_months_ends() {
    let close_from = |day: Day, dates: &[Day]| {
        let mut ledger = told(true, ready_to_close(day, |_| {}));
        ledger.holidays = held(dates);
        let mut ledger = with_garbage(ledger);
        accept(&mut ledger, &close_month(day, [0; 4]));
        ledger.holidays
    };
    // None held, all held, all dropped; over the year's end, a leap February.
    assert_eq!(close_from((2026, 5, 31), &[]), Holidays::default());
    assert_eq!(close_from((2026, 9, 30), &sixteen()), held(&sixteen()));
    assert_eq!(close_from((2026, 10, 31), &sixteen()), Holidays::default());
    assert_eq!(
        close_from(
            (2026, 12, 31),
            &[(2026, 12, 31), (2027, 1, 1), (2026, 1, 2)]
        ),
        held(&[(2027, 1, 1)])
    );
    assert_eq!(
        close_from((2028, 2, 29), &[(2028, 2, 29), (2028, 3, 1)]),
        held(&[(2028, 3, 1)])
    );
}

#[test]
fn a_dropped_place_is_free_again() {
    let day = (2026, 10, 31);
    let mut ledger = told(true, ready_to_close(day, |_| {}));
    ledger.holidays = held(&sixteen());
    ledger.holidays.dates[3] = named(CHRISTMAS);
    assert_eq!(number(&ledger, &holiday(day, MOVED)), 34);
    accept(&mut ledger, &close_month(day, [0; 4]));
    let next = (2026, 11, 1);
    accept(&mut ledger, &holiday(next, MOVED));
    assert_eq!(ledger.holidays, held(&[CHRISTMAS, MOVED]));
}

#[test]
fn a_refused_months_end_drops_nothing() {
    let day = (2026, 5, 31);
    let mut ledger = told(true, ready_to_close(day, |a| a.metered = false));
    ledger.holidays = held(&[(2026, 5, 4), CHRISTMAS]);
    let mut ledger = with_garbage(ledger);
    let list = ledger.holidays;
    for bytes in [close_month(day, [0; 4]), close_day(day)] {
        let refused = post_checked(&mut ledger, &bytes).number;
        assert!(matches!(refused, 23 | 27));
        assert_eq!(ledger.holidays, list);
    }
}

/// Accepted postings of every other kind, with the ledgers that they fit.
fn other_kinds() -> Vec<(Ledger, Bytes)> {
    let measuring = (2026, 6, 25);
    let ready = ready_to_close(TODAY, |_| {});
    let mut two = new_on(TODAY);
    two.accounts[1] = marked_account();
    two.accounts[0].bank = 500;
    vec![
        (new_on(START), terms(START, 0, 0)),
        (
            Ledger {
                begun: false,
                ..new_on(TODAY)
            },
            terms(START, 0, 0),
        ),
        (new_on(START), enrol(1, 2, START, 4_200, 0)),
        (two.clone(), deliver(0, TODAY, 100, 0)),
        (two.clone(), transfer(0, 1, TODAY, 100)),
        (two.clone(), trade(0, 0, TODAY, 100)),
        (two.clone(), trade(0, 1, TODAY, 100)),
        (new_on(measuring), measure(0, measuring, 4_200)),
        (two.clone(), usage(0, TODAY, 100)),
        (ready.clone(), close_day(TODAY)),
        (told(true, ready), close_day(TODAY)),
        (new_on(JANUARY), confiscated(0, JANUARY, 5)),
        (two.clone(), notice(0, 1, GIVES, TODAY, 100)),
        (two_letters(two), notice(0, 1, GIVES, TODAY, 100)),
    ]
}

/// The same with a letter that waits for the other one.
fn two_letters(mut ledger: Ledger) -> Ledger {
    ledger.accounts[1].notice = letter(TAKES, 0, 100);
    ledger
}

#[test]
fn other_postings_leave_the_list() {
    // A day that has passed, too: CLOSE DAY drops none.
    let dates = [(2025, 1, 1), CHRISTMAS, TODAY, CHRISTMAS];
    for (ledger, bytes) in other_kinds() {
        for holidays in [held(&dates), held(&sixteen()), held(&[])] {
            let plain = Ledger {
                holidays,
                ..ledger.clone()
            };
            for mut ledger in [plain.clone(), with_garbage(plain)] {
                let list = ledger.holidays;
                accept(&mut ledger, &bytes);
                assert_eq!(ledger.holidays, list, "{bytes:?}");
            }
        }
    }
}

#[test]
fn a_fresh_ledger_holds_none() {
    for is_new in [false, true] {
        let ledger = Ledger::fresh(is_new);
        assert_eq!(ledger.holidays.count, 0);
        assert_eq!(ledger.holidays.dates, [NOTHING; 16]);
    }
}

#[test]
fn the_measurement_day_of_a_ledger() {
    let fresh = Ledger::fresh(false);
    assert_eq!(measurement_day(&fresh, 2026, 4), 27);
    for (year, month) in [
        (1999, 12),
        (2100, 1),
        (0, 1),
        (u64::MAX, 1),
        (65_536 + 2026, 4),
        (2026, 0),
        (2026, 13),
        (2026, 256 + 4),
        (2026, (1 << 32) + 4),
        (2026, u64::MAX),
    ] {
        assert_eq!(measurement_day(&fresh, year, month), 0);
    }
    // Never else: in every month of every year, held or not.
    let lists = [held(&[]), held(&sixteen()), held(&[CHRISTMAS])];
    for (year, month) in (2000..=2099).flat_map(|year| (1..=12).map(move |m| (year, m))) {
        for holidays in lists {
            let ledger = Ledger {
                holidays,
                ..Ledger::fresh(true)
            };
            let moved = (year, month) == (2026, 12) && holidays.count == 1;
            let day = measurement_day(&ledger, year, month);
            let expected = if moved { 28..=28 } else { 25..=27 };
            assert!(expected.contains(&day));
        }
    }
}

#[test]
fn no_measurement_day_out_of_range() {
    // Any fault of the ledger makes it 0, in any month.
    let mut ledger = new_on(TODAY);
    ledger.accounts[9].over = 3;
    assert_eq!(measurement_day(&ledger, 2026, 4), 0);
    let mut ledger = new_on(TODAY);
    ledger.day = 32;
    assert_eq!(measurement_day(&ledger, 2026, 4), 0);
    ledger.begun = false;
    assert_eq!(measurement_day(&ledger, 2026, 4), 27);
}

#[test]
fn in_archives() {
    let closing = close_month((2026, 4, 30), [0; 4]);
    let list = [
        terms(START, 0, 0),
        holiday(START, CHRISTMAS),
        holiday(START, CHRISTMAS), // 34, archived all the same
        holiday_words(START, [u32::MAX; 3]),
        closing,
    ]
    .concat();
    let mut out = vec![0; 16 + list.len()];
    let written = write(true, &list, &mut out);
    assert_eq!((written.number, written.length), (0, out.len()));
    assert_eq!(check(&out), (0, 0));
    let all = replay(&out);
    // The closing is not of that day.
    assert_eq!((all.accepted, all.refused), (2, 3));
    assert_eq!(all.ledger.holidays, held(&[CHRISTMAS]));
    // As old: 2 at its index, from reader and writer.
    let written = write(false, &list, &mut vec![0; 500]);
    assert_eq!((written.number, written.index), (2, 1));
    out[3] = 49;
    assert_eq!(check(&out), (2, 1));
    assert_eq!(replay(&out).ledger, Ledger::fresh(false));
    out[3] = 50;
    out[16 + 32 + 1] = 1;
    assert_eq!(check(&out), (5, 1));
}

#[test]
fn at_the_end_of_a_section() {
    let closing = close_month((2026, 4, 30), [0; 4]);
    let list = [closing, closing].concat();
    let mut out = vec![0; 24 + 64];
    assert_eq!(write(true, &list, &mut out).number, 0);
    // The last section may end with it, another may not.
    out[56..].copy_from_slice(&holiday(START, CHRISTMAS));
    assert_eq!(check(&out), (0, 0));
    out[24..56].copy_from_slice(&holiday(START, CHRISTMAS));
    assert_eq!(check(&out), (10, 0));
}
