//! The gas year, from April to March, and its days.

use crate::entry::Day;
use nedrulov::MONTHS;

/// The year in whose April a date's gas year begins.
pub fn gas_year_of(date: Day) -> u16 {
    date.year.saturating_sub(u16::from(date.month < 4))
}

/// "2026–27".
pub fn gas_year_name(year: u16) -> String {
    format!("{year}–{:02}", year_after(year) % 100)
}

/// Wider than a year, since any may be asked for.
pub fn year_after(year: u16) -> u32 {
    u32::from(year) + 1
}

/// Calendar year and month of each month of a gas year, April first.
pub fn months(year: u16) -> [(u32, u8); MONTHS] {
    std::array::from_fn(|gas_month| match calendar_month(gas_month) {
        month @ 4.. => (year.into(), month),
        month => (year_after(year), month),
    })
}

/// 0 for April to 11 for March.
pub fn gas_month(month: u8) -> usize {
    (usize::from(month) + 8) % MONTHS
}

/// The calendar's month of a gas month.
pub fn calendar_month(gas_month: usize) -> u8 {
    ((gas_month + 3) % MONTHS + 1) as u8
}

/// Days since April 1 at which each month of a gas year begins; at last the length of the year.
pub fn month_starts(year: u16) -> [usize; MONTHS + 1] {
    let mut starts = [0; MONTHS + 1];
    for (place, (year, month)) in months(year).into_iter().enumerate() {
        starts[place + 1] = starts[place] + month_length(year, month);
    }
    starts
}

/// Days since April 1.
pub fn day_of_gas_year(date: Day) -> usize {
    let starts = month_starts(gas_year_of(date));
    starts[gas_month(date.month)] + usize::from(date.day) - 1
}

/// Of a date from 2000 on.
pub fn weekday(date: Day) -> &'static str {
    // 1 January 2000 was a Saturday.
    const NAMES: [&str; 7] = [
        "Saturday",
        "Sunday",
        "Monday",
        "Tuesday",
        "Wednesday",
        "Thursday",
        "Friday",
    ];
    let this_year = u32::from(date.year);
    let years_before = (2000..this_year).flat_map(|year| (1..=12).map(move |month| (year, month)));
    let months_before = years_before.chain((1..date.month).map(|month| (this_year, month)));
    let days: usize = months_before
        .map(|(year, month)| month_length(year, month))
        .sum();
    NAMES[(days + usize::from(date.day) - 1) % 7]
}

fn month_length(year: u32, month: u8) -> usize {
    match month {
        2 if is_leap(year) => 29,
        2 => 28,
        4 | 6 | 9 | 11 => 30,
        _ => 31,
    }
}

fn is_leap(year: u32) -> bool {
    year.is_multiple_of(4) && (!year.is_multiple_of(100) || year.is_multiple_of(400))
}

#[cfg(test)]
mod tests {
    use super::*;

    fn day(text: &str) -> Day {
        text.parse().expect("a date")
    }

    #[test]
    fn days_are_counted_from_april_over_leap_days() {
        for (date, offset) in [
            ("2026-04-01", 0),
            ("2026-05-01", 30),
            ("2027-02-28", 333),
            ("2027-03-01", 334),
            ("2027-03-31", 364),
            ("2028-02-29", 334),
            ("2028-03-01", 335),
            ("2028-03-31", 365),
            ("2000-03-31", 365),
            ("2099-03-31", 364),
        ] {
            assert_eq!(day_of_gas_year(day(date)), offset, "{date}");
        }
    }

    /// The library knows which dates there are: each is one day after the one before.
    #[test]
    fn every_day_that_exists_has_its_place() {
        for year in 2000..2099 {
            let mut count = 0;
            for (year, month) in months(year) {
                let days = (1..=31).map(|day| Day {
                    year: year as u16,
                    month,
                    day,
                });
                for date in days.filter(|date| date.exists()) {
                    assert_eq!(day_of_gas_year(date), count, "{date}");
                    count += 1;
                }
            }
            assert_eq!(count, month_starts(year)[MONTHS]);
        }
    }

    /// The library knows on which days a month cannot be measured: it names the Monday after them.
    #[test]
    fn weekdays_are_the_librarys() {
        let mut weekends = 0;
        for (year, month) in (2000..2099).flat_map(months) {
            let of_month = |day| Day {
                year: year as u16,
                month,
                day,
            };
            let due = match weekday(of_month(25)) {
                "Saturday" => 27,
                "Sunday" => 26,
                _ => 25,
            };
            let day = nedrulov::measurement_day(nedrulov::fresh(true), year.into(), month.into());
            assert_eq!(day, due, "{year}-{month}");
            weekends += u32::from(due > 25);
        }
        assert!(weekends > 300);
        assert_eq!(weekday(day("2000-01-01")), "Saturday");
        assert_eq!(weekday(day("2026-12-25")), "Friday");
        assert_eq!(weekday(day("2099-12-31")), "Thursday");
    }

    #[test]
    fn years_by_name() {
        assert_eq!(gas_year_name(2026), "2026–27");
        assert_eq!(gas_year_name(2099), "2099–00");
        assert_eq!(gas_year_name(u16::MAX), "65535–36");
        assert_eq!(gas_year_of(day("2026-03-31")), 2025);
        assert_eq!(gas_year_of(day("2026-04-01")), 2026);
    }

    #[test]
    fn months_there_and_back() {
        let april_to_march = [4, 5, 6, 7, 8, 9, 10, 11, 12, 1, 2, 3];
        assert_eq!(months(2026).map(|(_, month)| month), april_to_march);
        assert_eq!(months(2026)[8..10], [(2026, 12), (2027, 1)]);
        for place in 0..MONTHS {
            assert_eq!(gas_month(calendar_month(place)), place);
        }
    }
}
