//! Entries to text.

use super::RULES;
use crate::entry::{Entry, Kind};
use crate::rules::Rules;
use std::io::{self, Write};

/// An entry as one line, without its end.
pub fn line(entry: &Entry) -> String {
    let form = entry.kind.form();
    let mut line = format!("{} {}", entry.date, form.word);
    let named = |value: &crate::form::Value| format!(" {}={}", value.name, value.write(entry));
    line.extend(form.accounts.iter().map(named));
    line.extend(form.flags.words(entry.flags).flat_map(|word| [" ", word]));
    line.extend(form.values.iter().map(named));
    line
}

/// The rules, then a list of entries with an empty line after each month.
pub fn write<'a>(
    rules: Rules,
    list: impl Iterator<Item = &'a [u8; 32]>,
    out: &mut dyn Write,
) -> io::Result<()> {
    writeln!(out, "{RULES} {}", rules.word())?;
    for entry in list.filter_map(Entry::from_bytes) {
        writeln!(out, "{}", line(&entry))?;
        if entry.kind == Kind::CloseMonth {
            writeln!(out)?;
        }
    }
    Ok(())
}
