//! A command's operands and options, taken from the words after its name.

use crate::decimal::{self, Decimal};
use crate::echo;
use crate::entry::Day;
use crate::failure::Failure;
use nedrulov::ACCOUNTS;
use std::ffi::{OsStr, OsString};
use std::os::unix::ffi::OsStrExt;
use std::path::Path;

const AN_ACCOUNT: &str = "an account from 0 to 15";

/// What stands beside options, by name: words that must be there, and one that may follow any number of times.
pub struct Operands {
    pub each: &'static [&'static str],
    pub more: Option<&'static str>,
}

impl Operands {
    pub const fn each(each: &'static [&'static str]) -> Operands {
        Operands { each, more: None }
    }

    pub const fn any(name: &'static str) -> Operands {
        Operands {
            each: &[],
            more: Some(name),
        }
    }
}

/// An option with its name and, if it takes one, the name of its value.
pub struct Opt {
    pub name: &'static str,
    pub value: Option<&'static str>,
    pub required: bool,
}

/// An option's name and the value joined to it by =. A value may be a file name of any bytes.
fn divided(word: &OsStr) -> (&OsStr, Option<OsString>) {
    let bytes = word.as_bytes();
    match bytes.iter().position(|byte| *byte == b'=') {
        Some(end) => {
            let [name, value] = [&bytes[..end], &bytes[end + 1..]].map(OsStr::from_bytes);
            (name, Some(value.to_os_string()))
        }
        None => (word, None),
    }
}

/// Whether a word is an option, or the -- that ends them; a number below zero is neither.
fn is_option(word: &OsStr) -> bool {
    match word.as_bytes() {
        [b'-', next, ..] => !next.is_ascii_digit() && *next != b'.',
        _ => false,
    }
}

fn missing(name: &str) -> Failure {
    Failure::Usage(format!("{name} is missing"))
}

fn temperature(word: &OsString) -> Result<Decimal<'_>, Failure> {
    let wrong = || format!("{} is not {}", echo::word(word), decimal::EXPECTED);
    let number = word.to_str().and_then(Decimal::degrees);
    number.ok_or_else(|| Failure::Usage(wrong()))
}

#[derive(Default)]
pub struct Arguments {
    operands: Vec<OsString>,
    options: Vec<(&'static str, OsString)>,
}

impl Arguments {
    /// Options may stand before, between and after operands; `--` ends them.
    pub fn parse(
        words: &[OsString],
        operands: &Operands,
        options: &'static [Opt],
    ) -> Result<Arguments, Failure> {
        let mut found = Arguments::default();
        let mut words = words.iter();
        let mut ended = false;
        while let Some(word) = words.next() {
            if ended || !is_option(word) {
                found.operands.push(word.clone());
            } else if word == "--" {
                ended = true;
            } else {
                found.add_option(word, &mut words, options)?;
            }
        }
        found.complete(operands, options)
    }

    fn add_option<'a>(
        &mut self,
        word: &OsStr,
        words: &mut impl Iterator<Item = &'a OsString>,
        options: &'static [Opt],
    ) -> Result<(), Failure> {
        let (name, joined) = divided(word);
        let unknown = || Failure::Usage(format!("unknown option {}", echo::bare(name)));
        let option = options
            .iter()
            .find(|known| known.name == name)
            .ok_or_else(unknown)?;
        let name = option.name;
        if self.has(name) {
            return Err(Failure::Usage(format!("{name} is given twice")));
        }
        let value = match (option.value, joined) {
            (None, Some(_)) => return Err(Failure::Usage(format!("{name} takes no value"))),
            (None, None) => OsString::new(),
            (Some(_), Some(value)) => value,
            (Some(what), None) => {
                let missing = || Failure::Usage(format!("{name} needs a value, {what}"));
                words.next().cloned().ok_or_else(missing)?
            }
        };
        self.options.push((name, value));
        Ok(())
    }

    fn complete(self, operands: &Operands, options: &[Opt]) -> Result<Arguments, Failure> {
        let Operands { each, more } = operands;
        if let (Some(extra), None) = (self.operands.get(each.len()), more) {
            let extra = echo::word(extra);
            return Err(Failure::Usage(format!("{extra} is one word too many")));
        }
        if let Some(operand) = each.get(self.operands.len()) {
            return Err(missing(operand));
        }
        match options
            .iter()
            .find(|option| option.required && !self.has(option.name))
        {
            Some(option) => Err(missing(option.name)),
            None => Ok(self),
        }
    }

    pub fn has(&self, option: &str) -> bool {
        self.options.iter().any(|(name, _)| *name == option)
    }

    pub fn path(&self, operand: usize) -> &Path {
        Path::new(&self.operands[operand])
    }

    pub fn file(&self, option: &str) -> Option<&Path> {
        self.value(option).map(Path::new)
    }

    pub fn output(&self) -> Option<&Path> {
        self.file("-o")
    }

    /// Dth, of an option that must be there.
    pub fn dth(&self, option: &str) -> Result<Decimal<'_>, Failure> {
        let dth = self.read(option, decimal::EXPECTED, Decimal::dth)?;
        dth.ok_or_else(|| missing(option))
    }

    /// Degrees, of an option that must be there.
    pub fn degrees(&self, option: &str) -> Result<Decimal<'_>, Failure> {
        let degrees = self.read(option, decimal::EXPECTED, Decimal::degrees)?;
        degrees.ok_or_else(|| missing(option))
    }

    /// The operands, each in degrees.
    pub fn temperatures(&self) -> Result<Vec<Decimal<'_>>, Failure> {
        self.operands.iter().map(temperature).collect()
    }

    /// Gas in units, of an option that must be there.
    pub fn units(&self, option: &str) -> Result<u64, Failure> {
        let units = self.read(option, decimal::EXPECTED_GAS, decimal::units)?;
        units.ok_or_else(|| missing(option))
    }

    pub fn account(&self) -> Result<Option<usize>, Failure> {
        let read = |text: &str| text.parse().ok().filter(|account| *account < ACCOUNTS);
        self.read("--account", AN_ACCOUNT, read)
    }

    /// An account for the library to judge, of an option that must be there: any whole number.
    pub fn any_account(&self, option: &str) -> Result<u64, Failure> {
        let digits = |text: &str| text.bytes().all(|byte| byte.is_ascii_digit());
        let read = |text: &str| text.parse().ok().filter(|_| digits(text));
        let account = self.read(option, AN_ACCOUNT, read)?;
        account.ok_or_else(|| missing(option))
    }

    pub fn until(&self) -> Result<Option<Day>, Failure> {
        let read = |text: &str| text.parse().ok().filter(|day: &Day| day.exists());
        self.read("--until", "a date, as 2026-04-01", read)
    }

    pub fn year(&self, operand: usize) -> Result<u16, Failure> {
        let text = self.operands[operand].to_string_lossy();
        let digits = text.len() == 4 && text.bytes().all(|b| b.is_ascii_digit());
        let year = text.parse().ok().filter(|_| digits);
        let wrong = || echo::word(&self.operands[operand]);
        year.ok_or_else(|| Failure::Usage(format!("{} is no year, as 2026", wrong())))
    }

    fn value(&self, option: &str) -> Option<&OsString> {
        let found = self.options.iter().find(|(name, _)| *name == option);
        found.map(|(_, value)| value)
    }

    fn read<'a, T>(
        &'a self,
        option: &str,
        expected: &str,
        read: impl Fn(&'a str) -> Option<T>,
    ) -> Result<Option<T>, Failure> {
        let Some(text) = self.value(option) else {
            return Ok(None);
        };
        match text.to_str().and_then(read) {
            Some(value) => Ok(Some(value)),
            None => Err(Failure::Usage(format!(
                "{option} needs {expected}, not {}",
                echo::word(text)
            ))),
        }
    }
}

#[cfg(test)]
mod tests {
    use super::*;

    const OPTIONS: &[Opt] = &[
        Opt {
            name: "-o",
            value: Some("FILE"),
            required: false,
        },
        Opt {
            name: "--csv",
            value: None,
            required: false,
        },
    ];

    /// Operands and the value after -o, or why there are none.
    fn parsed(line: &str, operands: Operands) -> Result<(Vec<OsString>, Option<OsString>), String> {
        let words: Vec<OsString> = line.split(' ').map(OsString::from).collect();
        match Arguments::parse(&words, &operands, OPTIONS) {
            Ok(found) => Ok((found.operands.clone(), found.value("-o").cloned())),
            Err(Failure::Usage(why)) => Err(why),
            Err(_) => Err("no usage".to_string()),
        }
    }

    #[test]
    fn numbers_below_zero_are_operands() {
        for (line, operands, value) in [
            ("-5 --csv -3.5 31.7", "-5 -3.5 31.7", None),
            ("-.5 - -5x -0", "-.5 - -5x -0", None),
            ("-1 -o -2 -3", "-1 -3", Some("-2")),
            (
                "-1 -o=-2 -- -3 --csv -o --",
                "-1 -3 --csv -o --",
                Some("-2"),
            ),
        ] {
            let operands = operands.split(' ').map(OsString::from).collect();
            let found = parsed(line, Operands::any("N"));
            assert_eq!(found, Ok((operands, value.map(OsString::from))), "{line}");
        }
    }

    #[test]
    fn other_words_with_a_dash_are_options() {
        for word in ["-x", "---", "--5", "-o5", "-\u{663}", "-,5", "-+5", "-e"] {
            let unknown = Err(format!("unknown option {word}"));
            assert_eq!(parsed(word, Operands::any("N")), unknown);
        }
    }

    #[test]
    fn operands_are_counted() {
        let two = || Operands::each(&["A", "B"]);
        assert_eq!(parsed("-1", two()), Err("B is missing".to_string()));
        assert!(parsed("-1 2", two()).is_ok());
        let third = Err("\"-3\" is one word too many".to_string());
        assert_eq!(parsed("1 2 -3", two()), third);
        let two_and_more = Operands {
            more: Some("C"),
            ..two()
        };
        assert!(parsed("1 2 3 4", two_and_more).is_ok());
        assert!(parsed("--csv", Operands::any("N")).is_ok());
    }
}
