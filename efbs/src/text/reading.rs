//! Text to entries.

use super::{List, RULES};
use crate::echo;
use crate::entry::{Entry, Kind};
use crate::form::{Flags, Form, Value};
use crate::lines::{self, Token, Wrong};
use crate::named_day::Unread;
use crate::rules::Rules;
use crate::words::refusal;
use std::collections::HashSet;
use std::fmt;
use std::io::BufRead;

/// Why a text is no list of entries.
#[derive(Debug)]
pub enum Fault {
    Text(lines::Fault),
    /// The library refuses the entry of a line, or the list that it would make too long.
    Entry {
        line: usize,
        number: u64,
        rules: Rules,
    },
}

impl From<lines::Fault> for Fault {
    fn from(fault: lines::Fault) -> Fault {
        Fault::Text(fault)
    }
}

impl fmt::Display for Fault {
    fn fmt(&self, f: &mut fmt::Formatter) -> fmt::Result {
        match self {
            Fault::Text(fault) => fault.fmt(f),
            Fault::Entry {
                line,
                number,
                rules,
            } => {
                let why = refusal(*number, *rules);
                write!(f, "line {line}: refused with {number}: {why}")
            }
        }
    }
}

/// The entries of a text as a list; each is one that the library takes by itself, under the rules of the text.
pub fn read(text: impl BufRead) -> Result<List, Fault> {
    let mut list = List::default();
    lines::read(text, |line, first, rest| {
        read_line(&mut list, line, first, rest)
    })?;
    Ok(list)
}

/// Takes what a line has: the rules or an entry.
fn read_line(list: &mut List, line: usize, first: &Token, rest: &[Token]) -> Result<(), Fault> {
    let in_line = |wrong: Wrong| wrong.in_line(line);
    match first.text == RULES {
        true => Ok(read_rules(list, first, rest).map_err(in_line)?),
        false => list.add(line, &read_entry(first, rest).map_err(in_line)?),
    }
}

fn read_rules(list: &mut List, word: &Token, rest: &[Token]) -> Result<(), Wrong> {
    let words = Rules::ALL.map(Rules::word).join(" or ");
    let Some((named, more)) = rest.split_first() else {
        return Err(word.followed_by(&words));
    };
    let rules = Rules::ALL
        .into_iter()
        .find(|rules| rules.word() == named.text)
        .ok_or_else(|| named.expected(&words))?;
    if let Some(extra) = more.first() {
        return Err(extra.expected(&format!("nothing more after {RULES} {}", rules.word())));
    }
    list.name_rules(rules)
        .map_err(|message| word.wrong(message))
}

fn read_entry(date: &Token, rest: &[Token]) -> Result<Entry, Wrong> {
    let end = rest.last().unwrap_or(date).end();
    let day = date
        .text
        .parse()
        .map_err(|()| date.expected("a date, as 2026-04-01"))?;
    let Some((kind, rest)) = rest.split_first() else {
        return Err(date.followed_by(&format!("a kind of entry: {}", kinds())));
    };
    let kind = Kind::ALL
        .into_iter()
        .find(|known| known.form().word == kind.text)
        .ok_or_else(|| kind.expected(&format!("a kind of entry: {}", kinds())))?;
    let mut entry = Entry::blank(kind, day);
    let seen = read_values(&mut entry, rest)?;
    nothing_missing(kind.form(), &seen, end)?;
    Ok(entry)
}

fn kinds() -> String {
    Kind::ALL.map(|kind| kind.form().word).join(", ")
}

/// Sets what the tokens name, and hands back the names and flag words.
fn read_values<'a>(entry: &mut Entry, tokens: &[Token<'a>]) -> Result<HashSet<&'a str>, Wrong> {
    let form = entry.kind.form();
    let mut seen = HashSet::new();
    for token in tokens {
        let name = match token.text.split_once('=') {
            Some((name, text)) => {
                read_value(entry, form, token, name, text)?;
                name
            }
            None => {
                entry.flags |= flag_bits(form, token)?;
                token.text
            }
        };
        if !seen.insert(name) {
            return Err(token.wrong(format!("{} stands twice", echo::word(name))));
        }
    }
    Ok(seen)
}

fn read_value(
    entry: &mut Entry,
    form: &Form,
    token: &Token,
    name: &str,
    text: &str,
) -> Result<(), Wrong> {
    let value = form
        .all_values()
        .find(|value| value.name == name)
        .ok_or_else(|| token.expected(&names(form)))?;
    let place = Token {
        column: token.column + name.chars().count() + 1,
        text,
    };
    let (shown, expected) = (echo::bare(text), value.expected());
    value.read(entry, text).map_err(|unread| match unread {
        Unread::Misspelt => place.expected(expected),
        Unread::TooLarge => place.wrong(format!("{shown} is too large; expected {expected}")),
    })
}

fn flag_bits(form: &Form, token: &Token) -> Result<u8, Wrong> {
    let flag = form
        .flags
        .list()
        .iter()
        .find(|flag| flag.word == token.text);
    flag.map(|flag| flag.bits)
        .ok_or_else(|| token.expected(&names(form)))
}

/// What may stand after the form's word.
fn names(form: &Form) -> String {
    let values = form.all_values().map(|value| format!("{}=", value.name));
    let flags = form.flags.list().iter().map(|flag| flag.word.to_string());
    let all: Vec<String> = values.chain(flags).collect();
    match all.as_slice() {
        [] => format!("nothing more after {}", form.word),
        [one] => one.clone(),
        several => format!("one of {}", several.join(", ")),
    }
}

fn nothing_missing(form: &Form, seen: &HashSet<&str>, end: usize) -> Result<(), Wrong> {
    let missing = |value: &Value| format!("{}=, {}", value.name, value.expected());
    let value = form.all_values().find(|value| !seen.contains(value.name));
    if let Some(value) = value {
        return Err(Wrong {
            column: end,
            message: format!("missing {}", missing(value)),
        });
    }
    let Flags::One(list) = form.flags else {
        return Ok(());
    };
    let words: Vec<&str> = list.iter().map(|flag| flag.word).collect();
    match words.iter().filter(|word| seen.contains(*word)).count() {
        1 => Ok(()),
        _ => Err(Wrong {
            column: end,
            message: format!("expected exactly one of {}", words.join(", ")),
        }),
    }
}

#[cfg(test)]
mod tests {
    use super::*;

    /// Line and column of what is wrong in a text.
    fn told(text: &[u8]) -> Option<(usize, usize)> {
        match read(text) {
            Err(Fault::Text(lines::Fault::Wrong { line, wrong })) => Some((line, wrong.column)),
            _ => None,
        }
    }

    #[test]
    fn archives_are_no_texts() {
        let archive = read(&b"EFB1\0\0\0\0"[..]);
        assert!(matches!(archive, Err(Fault::Text(lines::Fault::Archive))));
        assert_eq!(told(b"2026-04-01 close-day\nEFB1"), Some((2, 1)));
    }

    #[test]
    fn rules_are_read() {
        for (text, rules) in [
            (&b""[..], Rules::Old),
            (b"2026-04-01 close-day\n", Rules::Old),
            (b"rules old\n", Rules::Old),
            (b"rules new", Rules::New),
            (
                b"\xef\xbb\xbf# a comment\r\n\r\n\trules  new # another\r\n2026-04-01 close-day\n",
                Rules::New,
            ),
        ] {
            assert!(matches!(read(text), Ok(list) if list.rules() == rules));
        }
    }

    #[test]
    fn wrong_rules_are_told_with_their_place() {
        for (text, place) in [
            ("rules\n", (1, 7)),
            ("rules newer\n", (1, 7)),
            ("rules New\n", (1, 7)),
            ("rules old new\n", (1, 11)),
            (" rules=new\n", (1, 2)),
            ("rules new\n\n  rules new\n", (3, 3)),
            ("2026-04-01 close-day\nrules old\n", (2, 1)),
        ] {
            assert_eq!(told(text.as_bytes()), Some(place), "{text}");
        }
    }
}
