//! Readings of temperature, from the command line and from a text with one a line.

use crate::decimal::{Decimal, EXPECTED};
use crate::lines::{self, Token, Wrong};
use std::io::{self, BufRead, ErrorKind};

/// Of memory: hourly readings of a hundred years have room, and an endless text ends.
const MOST_BYTES: usize = 1 << 26;

/// A temperature, with the word that stands before it if there is one.
#[derive(Clone, Copy, Debug, PartialEq)]
pub struct Reading<'a> {
    pub label: Option<&'a str>,
    pub temperature: Decimal<'a>,
}

/// Readings in order. Their words lie in one text, one after another, so that many need little memory.
pub struct Readings {
    words: String,
    places: Vec<Place>,
    most_bytes: usize,
}

/// Where in the text a label ends, and its temperature.
struct Place {
    label_end: usize,
    end: usize,
    double: f64,
}

impl Readings {
    /// Those of the command line.
    pub fn of(temperatures: &[Decimal]) -> Readings {
        let mut readings = Readings {
            words: String::new(),
            places: Vec::new(),
            most_bytes: MOST_BYTES,
        };
        for temperature in temperatures {
            readings.push(Reading {
                label: None,
                temperature: *temperature,
            });
        }
        readings
    }

    /// And those of a text.
    pub fn read(&mut self, text: impl BufRead) -> Result<(), lines::Fault> {
        lines::read(text, |line, first, rest| {
            let reading = reading(first, rest).map_err(|wrong| wrong.in_line(line))?;
            self.make_room(&reading).map_err(lines::Fault::Unreadable)?;
            self.push(reading);
            Ok(())
        })
    }

    fn make_room(&mut self, reading: &Reading) -> io::Result<()> {
        let length = reading.temperature.text.len() + reading.label.map_or(0, str::len);
        let places = (self.places.len() + 1) * size_of::<Place>();
        if self.words.len() + length + places > self.most_bytes {
            let message = "it has more readings than one run takes";
            return Err(io::Error::new(ErrorKind::FileTooLarge, message));
        }
        self.words.try_reserve(length)?;
        Ok(self.places.try_reserve(1)?)
    }

    fn push(&mut self, Reading { label, temperature }: Reading) {
        self.words.push_str(label.unwrap_or_default());
        let label_end = self.words.len();
        self.words.push_str(temperature.text);
        self.places.push(Place {
            label_end,
            end: self.words.len(),
            double: temperature.double,
        });
    }

    pub fn iter(&self) -> impl Iterator<Item = Reading<'_>> {
        let mut start = 0;
        self.places.iter().map(move |place| {
            let label = &self.words[start..place.label_end];
            let text = &self.words[place.label_end..place.end];
            start = place.end;
            Reading {
                label: Some(label).filter(|label| !label.is_empty()),
                temperature: Decimal {
                    text,
                    double: place.double,
                },
            }
        })
    }

    pub fn is_empty(&self) -> bool {
        self.places.is_empty()
    }
}

/// A line's: a temperature, or a label and a temperature.
fn reading<'a>(first: &Token<'a>, rest: &[Token<'a>]) -> Result<Reading<'a>, Wrong> {
    let (label, number, more) = match rest {
        [] => (None, first, rest),
        [number, more @ ..] => (Some(first.text), number, more),
    };
    let temperature = Decimal::degrees(number.text).ok_or_else(|| number.expected(EXPECTED))?;
    match more.first() {
        Some(extra) => Err(extra.expected("nothing more after the temperature")),
        None => Ok(Reading { label, temperature }),
    }
}

#[cfg(test)]
mod tests {
    use super::*;

    fn read(text: &[u8]) -> Result<Readings, lines::Fault> {
        let mut readings = Readings::of(&[]);
        readings.read(text)?;
        Ok(readings)
    }

    /// Labels, temperatures as written, and their doubles.
    fn shown(readings: &Readings) -> Vec<(&str, &str, f64)> {
        let all = readings.iter();
        all.map(|Reading { label, temperature }| {
            (
                label.unwrap_or("none"),
                temperature.text,
                temperature.double,
            )
        })
        .collect()
    }

    #[test]
    fn texts_are_read() {
        let text = "\u{feff}# Gate 4\r\n06:00 31.7 # early\r\n\r\n\t-3.50\r\n account=3\t+0 \n31.7 065.0\ncafé 1\n2";
        let readings = read(text.as_bytes()).expect("right");
        let due = [
            ("06:00", "31.7", 31.7),
            ("none", "-3.50", -3.5),
            ("account=3", "+0", 0.0),
            ("31.7", "065.0", 65.0),
            ("café", "1", 1.0),
            ("none", "2", 2.0),
        ];
        assert_eq!(shown(&readings), due);
        for empty in ["", "\n\n", "# nothing\n"] {
            assert!(read(empty.as_bytes()).is_ok_and(|readings| readings.is_empty()));
        }
    }

    #[test]
    fn the_command_line_comes_first() {
        let operands = ["-10", "31.7"].map(|text| Decimal::degrees(text).expect("plain"));
        let mut readings = Readings::of(&operands);
        assert!(readings.read(&b"noon 5\n"[..]).is_ok());
        let due = [
            ("none", "-10", -10.0),
            ("none", "31.7", 31.7),
            ("noon", "5", 5.0),
        ];
        assert_eq!(shown(&readings), due);
    }

    #[test]
    fn wrong_lines_are_told_with_their_place() {
        for (text, place, told) in [
            (
                "06:00\n",
                (1, 1),
                "expected a number, as 31.7 or -0.5; found \"06:00\"",
            ),
            (
                "1\n\n 06:00  1,5\n",
                (3, 9),
                "expected a number, as 31.7 or -0.5; found \"1,5\"",
            ),
            (
                "2026-04-01 06:00 31.7\n",
                (1, 12),
                "expected a number, as 31.7 or -0.5; found \"06:00\"",
            ),
            (
                "06:00 31.7 F\n",
                (1, 12),
                "expected nothing more after the temperature; found \"F\"",
            ),
            (
                "06:00 31.7# early\n",
                (1, 7),
                "expected a number, as 31.7 or -0.5; found \"31.7#\"",
            ),
        ] {
            let Err(lines::Fault::Wrong { line, wrong }) = read(text.as_bytes()) else {
                panic!("{text} is read");
            };
            assert_eq!(((line, wrong.column), &wrong.message[..]), (place, told));
        }
        assert!(matches!(read(b"EFB2\0\0\0\0"), Err(lines::Fault::Archive)));
    }

    #[test]
    fn endless_readings_end() {
        let mut readings = Readings::of(&[]);
        readings.most_bytes = 10 * (size_of::<Place>() + 3);
        assert!(readings.read("a 12\n".repeat(10).as_bytes()).is_ok());
        let Err(lines::Fault::Unreadable(error)) = readings.read(&b"1\n"[..]) else {
            panic!("an eleventh is read");
        };
        assert_eq!(error.kind(), ErrorKind::FileTooLarge);
        assert_eq!(readings.iter().count(), 10);
    }
}
