//! The day that a holiday names: three words of its entry, which need be no date at all.

use crate::calendar::weekday;
use crate::entry::{Day, Entry};
use std::fmt;
use std::str::FromStr;

#[derive(Clone, Copy, Debug, PartialEq, Eq)]
pub struct NamedDay {
    year: u32,
    month: u32,
    day: u32,
}

/// Why a text is no value of an entry.
#[derive(Clone, Copy, Debug, PartialEq, Eq)]
pub enum Unread {
    Misspelt,
    /// It has no room in its place.
    TooLarge,
}

impl NamedDay {
    pub fn of(entry: &Entry) -> NamedDay {
        let [year, month, day, ..] = entry.words;
        NamedDay { year, month, day }
    }

    pub fn put(self, entry: &mut Entry) {
        entry.words[..3].copy_from_slice(&[self.year, self.month, self.day]);
    }

    /// The date, if the library knows it.
    pub fn date(self) -> Option<Day> {
        let date = Day {
            year: self.year.try_into().ok()?,
            month: self.month.try_into().ok()?,
            day: self.day.try_into().ok()?,
        };
        date.exists().then_some(date)
    }

    /// With its weekday, if it has one.
    pub fn spoken(self) -> String {
        match self.date() {
            Some(date) => format!("{} {date}", weekday(date)),
            None => self.to_string(),
        }
    }
}

impl fmt::Display for NamedDay {
    fn fmt(&self, f: &mut fmt::Formatter) -> fmt::Result {
        write!(f, "{:04}-{:02}-{:02}", self.year, self.month, self.day)
    }
}

/// Each number has its four or two digits, or more if it is larger; so a day is written in one way only.
impl FromStr for NamedDay {
    type Err = Unread;

    fn from_str(text: &str) -> Result<NamedDay, Unread> {
        let parts: Vec<&str> = text.split('-').collect();
        let [year, month, day] = parts[..] else {
            return Err(Unread::Misspelt);
        };
        if ![(year, 4), (month, 2), (day, 2)].into_iter().all(is_spelt) {
            return Err(Unread::Misspelt);
        }
        let number = |part: &str| part.parse().map_err(|_| Unread::TooLarge);
        Ok(NamedDay {
            year: number(year)?,
            month: number(month)?,
            day: number(day)?,
        })
    }
}

fn is_spelt((part, digits): (&str, usize)) -> bool {
    let longer = part.len() > digits && !part.starts_with('0');
    (part.len() == digits || longer) && part.bytes().all(|byte| byte.is_ascii_digit())
}

#[cfg(test)]
mod tests {
    use super::*;

    #[test]
    fn every_day_is_written_in_one_way() {
        for (text, year, month, day) in [
            ("2026-12-25", 2026, 12, 25),
            ("0000-00-00", 0, 0, 0),
            ("0999-09-09", 999, 9, 9),
            ("70000-13-99", 70_000, 13, 99),
            ("2026-100-1000000", 2026, 100, 1_000_000),
            (
                "4294967295-4294967295-4294967295",
                u32::MAX,
                u32::MAX,
                u32::MAX,
            ),
        ] {
            let named = NamedDay { year, month, day };
            assert_eq!(text.parse(), Ok(named));
            assert_eq!(named.to_string(), text);
        }
    }

    #[test]
    fn other_spellings_are_refused() {
        for text in [
            "",
            "-",
            "--",
            "2026",
            "2026-12",
            "2026-12-25-",
            "2026-12-25-01",
            "-2026-12-25",
            "26-12-25",
            "2026-1-25",
            "2026-12-5",
            "02026-12-25",
            "2026-012-25",
            "2026-12-025",
            "2026-+1-25",
            "2026-12- 5",
            "2026/12/25",
            "2026-12-2x",
            "2026-12-٢٥",
        ] {
            assert_eq!(text.parse::<NamedDay>(), Err(Unread::Misspelt), "{text}");
        }
        for text in [
            "4294967296-01-01",
            "2026-99999999999999999999-01",
            "2026-01-4294967296",
        ] {
            assert_eq!(text.parse::<NamedDay>(), Err(Unread::TooLarge), "{text}");
        }
    }

    #[test]
    fn weekdays_are_told_of_dates() {
        for (text, spoken) in [
            ("2026-12-25", "Friday 2026-12-25"),
            ("2000-02-29", "Tuesday 2000-02-29"),
            ("2099-12-31", "Thursday 2099-12-31"),
            ("2027-02-29", "2027-02-29"),
            ("2100-01-01", "2100-01-01"),
            ("65536-01-01", "65536-01-01"),
            ("67562-12-25", "67562-12-25"),
            ("2026-268-25", "2026-268-25"),
        ] {
            assert_eq!(text.parse().map(NamedDay::spoken), Ok(spoken.to_string()));
        }
    }
}
