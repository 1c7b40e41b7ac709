//! An entry of 32 bytes taken apart, with its day and its kind.

use std::fmt;
use std::str::FromStr;

#[derive(Clone, Copy, Debug, PartialEq, Eq, PartialOrd, Ord)]
pub struct Day {
    pub year: u16,
    pub month: u8,
    pub day: u8,
}

#[derive(Clone, Copy, Debug, PartialEq, Eq)]
pub enum Kind {
    Terms = 1,
    Enrol,
    Deliver,
    Transfer,
    Trade,
    Measure,
    Usage,
    CloseDay,
    CloseMonth,
    /// This and those that follow are of the new rules.
    Confiscated,
    Holiday,
    Notice,
}

#[derive(Clone, Copy, Debug, PartialEq, Eq)]
pub struct Entry {
    pub kind: Kind,
    pub a: u8,
    pub b: u8,
    pub flags: u8,
    pub date: Day,
    pub words: [u32; 6],
}

impl Kind {
    pub const ALL: [Kind; 12] = [
        Kind::Terms,
        Kind::Enrol,
        Kind::Deliver,
        Kind::Transfer,
        Kind::Trade,
        Kind::Measure,
        Kind::Usage,
        Kind::CloseDay,
        Kind::CloseMonth,
        Kind::Confiscated,
        Kind::Holiday,
        Kind::Notice,
    ];

    pub fn is_closing(self) -> bool {
        matches!(self, Kind::CloseDay | Kind::CloseMonth)
    }
}

impl Entry {
    /// An entry with nothing set but its kind and date.
    pub fn blank(kind: Kind, date: Day) -> Entry {
        Entry {
            kind,
            a: 0,
            b: 0,
            flags: 0,
            date,
            words: [0; 6],
        }
    }

    /// None where the kind is not 1 to 12.
    pub fn from_bytes(bytes: &[u8; 32]) -> Option<Entry> {
        let kind = *Kind::ALL.get(usize::from(bytes[0]).checked_sub(1)?)?;
        let word = |i: usize| 8 + 4 * i;
        Some(Entry {
            kind,
            a: bytes[1],
            b: bytes[2],
            flags: bytes[3],
            date: Day {
                year: u16::from_le_bytes([bytes[4], bytes[5]]),
                month: bytes[6],
                day: bytes[7],
            },
            words: std::array::from_fn(|i| {
                u32::from_le_bytes(std::array::from_fn(|byte| bytes[word(i) + byte]))
            }),
        })
    }

    pub fn to_bytes(&self) -> [u8; 32] {
        let mut bytes = [0; 32];
        bytes[..4].copy_from_slice(&[self.kind as u8, self.a, self.b, self.flags]);
        bytes[4..6].copy_from_slice(&self.date.year.to_le_bytes());
        bytes[6..8].copy_from_slice(&[self.date.month, self.date.day]);
        for (place, word) in bytes[8..].chunks_exact_mut(4).zip(self.words) {
            place.copy_from_slice(&word.to_le_bytes());
        }
        bytes
    }
}

impl Day {
    /// Whether the library knows such a date.
    pub fn exists(self) -> bool {
        // Closings are the same, old or new.
        nedrulov::entry_number(false, &Entry::blank(Kind::CloseDay, self).to_bytes()) == 0
    }
}

impl fmt::Display for Day {
    fn fmt(&self, f: &mut fmt::Formatter) -> fmt::Result {
        write!(f, "{:04}-{:02}-{:02}", self.year, self.month, self.day)
    }
}

/// Four digits, two and two, with hyphens; whether there is such a date is not asked.
impl FromStr for Day {
    type Err = ();

    fn from_str(text: &str) -> Result<Day, ()> {
        let mut parts = text.split('-');
        let mut part = |digits: usize| -> Result<u16, ()> {
            let part = parts.next().ok_or(())?;
            let right = part.len() == digits && part.bytes().all(|b| b.is_ascii_digit());
            part.parse().ok().filter(|_| right).ok_or(())
        };
        let year = part(4)?;
        let month = part(2)? as u8;
        let day = part(2)? as u8;
        match parts.next() {
            None => Ok(Day { year, month, day }),
            Some(_) => Err(()),
        }
    }
}

#[cfg(test)]
mod tests {
    use super::*;

    #[test]
    fn bytes_come_back() {
        let mut bytes: [u8; 32] = std::array::from_fn(|i| 7 * i as u8 + 3);
        for kind in 1..=12 {
            bytes[0] = kind;
            assert_eq!(Entry::from_bytes(&bytes).map(|e| e.to_bytes()), Some(bytes));
        }
    }

    #[test]
    fn other_kinds_are_none() {
        for kind in (0..=255).filter(|kind| !(1..=12).contains(kind)) {
            assert_eq!(Entry::from_bytes(&[kind; 32]), None);
        }
    }

    #[test]
    fn days_as_text() {
        let day = Day {
            year: 2026,
            month: 4,
            day: 1,
        };
        assert_eq!(day.to_string(), "2026-04-01");
        assert_eq!("2026-04-01".parse(), Ok(day));
        for wrong in [
            "",
            "2026-4-1",
            "26-04-01",
            "2026-04-01-01",
            "2026-04",
            "2026-0a-01",
            "2026-+4-01",
        ] {
            assert_eq!(wrong.parse::<Day>(), Err(()), "{wrong}");
        }
    }

    #[test]
    fn days_that_exist() {
        let exists = |text: &str| text.parse::<Day>().is_ok_and(Day::exists);
        assert!(exists("2000-02-29") && exists("2099-12-31"));
        assert!(!exists("2027-02-29") && !exists("2100-01-01") && !exists("2026-13-01"));
    }
}
