//! Dates for HOLIDAY, and lists of dates as ledgers hold them: in range, or anything.

use crate::ledgers::any_date;
use crate::random::Random;
use referee::{Date, Holidays, Ledger, Named};

pub const KIND: u8 = 11;
/// The most dates that a ledger can hold.
pub const MOST: usize = 16;

/// A date as w1 to w3 name it.
pub type Words = [u32; 3];

pub fn words_of(date: Date) -> Words {
    [date.year(), date.month().number(), date.day()].map(|number| number as u32)
}

pub fn named(words: Words) -> Named {
    let [year, month, day] = words.map(u64::from);
    Named { year, month, day }
}

/// Monday to Friday, from the 25th of a month on.
pub fn weekdays(year: u64, month: u64) -> Vec<Date> {
    let days = (25..=31).filter_map(|day| Date::new(year, month, day));
    days.filter(|date| date.is_weekday()).collect()
}

/// The measurement day where nothing is held: the 25th, or the Monday after.
pub fn plain_day(year: u64, month: u64) -> Option<Date> {
    weekdays(year, month).first().copied()
}

/// Whether a month has no business day from its 25th on but, perhaps, this date.
pub fn is_last(list: &Holidays, date: Date) -> bool {
    let days = weekdays(date.year(), date.month().number());
    let mut others = days.into_iter().filter(|&day| day != date);
    others.all(|day| list.held().contains(&day.into()))
}

/// Whether a new ledger in range accepts HOLIDAY of these words on its date.
pub fn would_pass(ledger: &Ledger, words: Words) -> bool {
    let (list, named) = (&ledger.holidays, named(words));
    let Some(date) = named.date().filter(|&date| Some(date) > ledger.date()) else {
        return false;
    };
    list.count < MOST as u64 && !list.held().contains(&named) && !is_last(list, date)
}

/// Some months on from this date, often from the 25th on.
fn around(random: &mut Random, date: Date) -> Option<Date> {
    let months = date.month().number() - 1 + random.pick(&[0, 0, 0, 1, 1, 2, 12]);
    let (year, month) = (date.year() + months / 12, 1 + months % 12);
    match random.below(10) {
        0..5 => Date::new(year, month, 25 + random.below(7)),
        5 => Date::new(year, month, 1),
        6 => Date::new(year, month, 28 + random.below(4)),
        7 => Date::new(year, month, 1 + random.below(31)),
        8 => Date::new(2000 + random.below(100), month, 1 + random.below(31)),
        _ => date.tomorrow(),
    }
}

/// A date to come, if there is one.
pub fn ahead(random: &mut Random, today: Date) -> Words {
    for _ in 0..8 {
        if let Some(date) = around(random, today).filter(|&date| date > today) {
            return words_of(date);
        }
    }
    words_of(today.tomorrow().unwrap_or(today))
}

/// Words that are no date.
fn no_date(random: &mut Random, date: Date) -> Words {
    let [year, month, day] = words_of(date);
    random.pick(&[
        [2027, 2, 29],
        [year, 2, 30],
        [year, 6, 31],
        [year, 12, 32],
        [year, month, 0],
        [year, 0, day],
        [year, 13, day],
        [1999, month, day],
        [2100, 1, 1],
        [0, 0, 0],
        [u32::MAX; 3],
    ])
}

/// A date to come, if the upper bits of one word were lost.
fn too_wide(random: &mut Random, date: Date) -> Words {
    let mut words = ahead(random, date);
    match random.below(3) {
        0 => words[0] += random.pick(&[1 << 16, 1 << 17, 1 << 31]),
        place => words[place as usize] += random.pick(&[1 << 8, 1 << 16, 1 << 31]),
    }
    words
}

/// The last business day of a month of which a held date is, if it has just one.
fn last_day(ledger: &Ledger) -> Option<Words> {
    let list = &ledger.holidays;
    list.held().iter().find_map(|named| {
        let mut days = weekdays(named.year, named.month).into_iter();
        let last = days.find(|&day| list.is_business_day(day))?;
        is_last(list, last).then(|| words_of(last))
    })
}

/// Words for HOLIDAY that some check looks at: today, past, repeated, no date, too wide, a month's last business day.
pub fn hostile(random: &mut Random, ledger: &Ledger) -> Words {
    let today = ledger.date().unwrap_or_else(|| any_date(random));
    let list = &ledger.holidays;
    let place = random.below(MOST as u64) as usize;
    let held = list.held().get(place % list.held().len().max(1));
    let words = |named: &Named| [named.year, named.month, named.day].map(|number| number as u32);
    match random.below(9) {
        0 => words_of(today),
        1 => {
            let earlier = Date::new(today.year(), today.month().number(), today.day() - 1);
            words_of(earlier.unwrap_or(today))
        }
        2 => words_of(any_date(random)),
        3 => no_date(random, today),
        4 => too_wide(random, today),
        5 => [0; 3].map(|_: u32| random.next() as u32),
        6 => held.map_or(words_of(today), words),
        7 => last_day(ledger).unwrap_or(words_of(today)),
        // Held or not: a place past the count does not count.
        _ => words(&list.dates[place]),
    }
}

/// A list of these dates, with zeros after them.
pub fn list_of(dates: &[Date]) -> Holidays {
    let mut list = Holidays::default();
    for &date in dates {
        push(&mut list, date);
    }
    list
}

fn push(list: &mut Holidays, date: Date) {
    list.dates[list.count as usize] = date.into();
    list.count += 1;
}

/// A list in range around this date: past ones, weekends and repeated ones too, and for some anything past the count.
pub fn fitting(random: &mut Random, date: Date) -> Holidays {
    let mut list = Holidays::default();
    let count = random.pick(&[0, 0, 0, 0, 0, 0, 1, 1, 1, 2, 2, 4, 6, 15, 16]);
    while list.count < count {
        let named = match random.below(12) {
            0 => Some(any_date(random)),
            1 => Some(date),
            2 => list.held().first().and_then(|first| first.date()),
            _ => around(random, date),
        };
        if let Some(named) = named.filter(|&named| !is_last(&list, named)) {
            push(&mut list, named);
        }
    }
    if random.one_in(3) {
        litter(random, &mut list, date);
    }
    list
}

/// Anything in the places past the count: zeros, dates that would move a measurement day, other dates, no dates.
pub fn litter(random: &mut Random, list: &mut Holidays, date: Date) {
    let count = list.held().len();
    for place in &mut list.dates[count..] {
        *place = match random.below(5) {
            0 => Named::default(),
            1 => around(random, date).unwrap_or(date).into(),
            2 => any_date(random).into(),
            3 => named([0; 3].map(|_: u32| random.next() as u32)),
            _ => Named {
                year: random.next(),
                month: random.below(14),
                day: u64::MAX,
            },
        };
    }
}

/// A list in range, or one with a fault.
pub fn any(random: &mut Random, date: Date) -> Holidays {
    let mut list = fitting(random, date);
    if random.one_in(10) {
        spoil(random, &mut list, date);
    }
    list
}

/// Too large a count, a date that is none, or a month without a business day.
pub fn spoil(random: &mut Random, list: &mut Holidays, date: Date) {
    match random.below(3) {
        0 => list.count = random.pick(&[17, 17, 18, 256, 256 + 1, 1 << 32, u64::MAX]),
        1 => {
            list.count = list.count.max(1);
            let place = random.below(list.count) as usize;
            let words = match random.below(2) {
                0 => no_date(random, date),
                _ => too_wide(random, date),
            };
            list.dates[place] = named(words);
            if random.one_in(4) {
                list.dates[place].year = date.year() + (1 << 32);
            }
        }
        _ => {
            let (year, month) = random.pick(&[(date.year(), date.month().number()), (2026, 2)]);
            *list = list_of(&weekdays(year, month));
            // From any of them on.
            let count = list.count as usize;
            list.dates[..count].rotate_left(random.below(count as u64) as usize);
        }
    }
}

#[cfg(test)]
mod tests {
    use super::*;
    use std::collections::BTreeSet;

    fn in_range(holidays: Holidays) -> bool {
        let mut ledger = Ledger::fresh(true);
        ledger.holidays = holidays;
        ledger.in_range()
    }

    #[test]
    fn fitting_lists_are_in_range() {
        let mut random = Random::new(1);
        let mut counts = BTreeSet::new();
        let (mut littered, mut moved) = (0, 0);
        for _ in 0..3_000 {
            let date = any_date(&mut random);
            let list = fitting(&mut random, date);
            assert!(in_range(list));
            counts.insert(list.count);
            let rest = &list.dates[list.count as usize..];
            littered += usize::from(rest.iter().any(|&place| place != Named::default()));
            let day = list.measurement_day(date.year(), date.month());
            moved += usize::from(day != plain_day(date.year(), date.month().number()));
        }
        assert!(counts.into_iter().eq([0, 1, 2, 4, 6, 15, 16]));
        assert!(littered > 300 && moved > 100, "{littered} {moved}");
    }

    #[test]
    fn spoilt_lists_are_not() {
        let mut random = Random::new(2);
        for _ in 0..3_000 {
            let date = any_date(&mut random);
            let mut list = fitting(&mut random, date);
            spoil(&mut random, &mut list, date);
            assert!(!in_range(list), "{list:?}");
        }
    }

    /// The tool's own judgement of a HOLIDAY is the referee's, and all its numbers come up.
    #[test]
    fn words_pass_as_they_should() {
        let mut random = Random::new(3);
        let mut numbers = BTreeSet::new();
        for _ in 0..20_000 {
            let date = any_date(&mut random);
            let mut ledger = crate::boundaries::marked(true, date);
            ledger.holidays = fitting(&mut random, date);
            let words = match random.below(2) {
                0 => ahead(&mut random, date),
                _ => hostile(&mut random, &ledger),
            };
            let passes = would_pass(&ledger, words);
            let bytes = crate::entries::holiday(crate::entries::day_of(date), words);
            let number = referee::post(&mut ledger, &bytes).number;
            assert_eq!(number == 0, passes, "{number} {words:?}");
            numbers.insert(number);
        }
        assert!(numbers.into_iter().eq([0, 33, 34, 35]));
    }

    #[test]
    fn plain_days() {
        let day = |year, month| plain_day(year, month).map(Date::day);
        assert_eq!(day(2026, 4), Some(27));
        assert_eq!(day(2026, 12), Some(25));
        assert_eq!(day(2026, 13), None);
        assert_eq!(day(2100, 1), None);
        assert_eq!(day(u64::MAX, u64::MAX), None);
    }
}
