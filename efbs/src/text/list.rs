//! A list of entries that grows up to what an archive can hold.

use super::{Fault, RULES};
use crate::archive::MOST_SECTIONS;
use crate::entry::{Entry, Kind};
use crate::lines;
use crate::rules::Rules;

/// What an archive can have at most; the library has the last word.
const MOST_BYTES: usize = u32::MAX as usize;
const TOO_MUCH: u64 = 11;

pub struct List {
    /// As a line of the text names them.
    named: Option<Rules>,
    bytes: Vec<u8>,
    months: usize,
    most_bytes: usize,
}

impl Default for List {
    fn default() -> List {
        List {
            named: None,
            bytes: Vec::new(),
            months: 0,
            most_bytes: MOST_BYTES,
        }
    }
}

impl List {
    /// Old where none are named: every text that was written before there were new ones names none.
    pub fn rules(&self) -> Rules {
        self.named.unwrap_or(Rules::Old)
    }

    /// Takes the rules that a line names, or tells why they may not stand there.
    pub fn name_rules(&mut self, rules: Rules) -> Result<(), String> {
        if self.named.is_some() {
            return Err(format!("\"{RULES}\" stands twice"));
        }
        if !self.bytes.is_empty() {
            return Err(format!(
                "\"{RULES}\" stands after an entry; it belongs before the first"
            ));
        }
        self.named = Some(rules);
        Ok(())
    }

    /// Takes the entry of a line, unless the library refuses it or no archive could hold it beside the others.
    pub fn add(&mut self, line: usize, entry: &Entry) -> Result<(), Fault> {
        let rules = self.rules();
        let refused = |number: u64| Fault::Entry {
            line,
            number,
            rules,
        };
        let bytes = entry.to_bytes();
        match nedrulov::entry_number(rules.is_new(), &bytes) {
            0 => {}
            number => return Err(refused(number)),
        }
        self.months += usize::from(entry.kind == Kind::CloseMonth);
        if self.bytes.len() + bytes.len() > self.most_bytes || self.months > MOST_SECTIONS {
            return Err(refused(TOO_MUCH));
        }
        let room = self.bytes.try_reserve(bytes.len());
        room.map_err(|error| lines::Fault::Unreadable(error.into()))?;
        self.bytes.extend(bytes);
        Ok(())
    }

    pub fn bytes(&self) -> &[u8] {
        &self.bytes
    }
}

#[cfg(test)]
mod tests {
    use super::*;
    use crate::entry::Day;

    fn closing(kind: Kind) -> Entry {
        let (year, month, day) = (2026, 4, 30);
        Entry::blank(kind, Day { year, month, day })
    }

    /// One of account 0 and some gas, or the like.
    fn of_new_rules(kind: Kind) -> Entry {
        let mut entry = closing(kind);
        entry.words[0] = 1;
        entry.b = u8::from(kind == Kind::Notice);
        entry
    }

    #[test]
    fn rules_are_named_once_and_before_the_first_entry() {
        let mut list = List::default();
        assert_eq!(list.rules(), Rules::Old);
        assert_eq!(list.name_rules(Rules::New), Ok(()));
        assert!(list.name_rules(Rules::New).is_err());
        assert_eq!(list.rules(), Rules::New);
        let mut list = List::default();
        assert!(list.add(1, &closing(Kind::CloseDay)).is_ok());
        assert!(list.name_rules(Rules::Old).is_err());
    }

    #[test]
    fn kinds_of_the_new_rules_need_them() {
        for kind in [Kind::Confiscated, Kind::Holiday, Kind::Notice] {
            for (rules, taken) in [(Rules::Old, false), (Rules::New, true)] {
                let mut list = List::default();
                assert_eq!(list.name_rules(rules), Ok(()));
                let added = list.add(1, &of_new_rules(kind));
                assert_eq!(added.is_ok(), taken);
                assert!(taken || matches!(added, Err(Fault::Entry { number: 2, .. })));
            }
        }
    }

    #[test]
    fn no_more_bytes_than_an_archive_can_have() {
        let mut list = List {
            most_bytes: 70,
            ..List::default()
        };
        let added = [1, 2, 3].map(|line| list.add(line, &closing(Kind::CloseDay)));
        assert!(matches!(
            added,
            [
                Ok(()),
                Ok(()),
                Err(Fault::Entry {
                    line: 3,
                    number: 11,
                    ..
                })
            ]
        ));
        assert_eq!(list.bytes().len(), 64);
    }

    #[test]
    fn no_more_months_than_an_archive_can_have() {
        let mut list = List::default();
        for line in 1..=MOST_SECTIONS {
            assert!(list.add(line, &closing(Kind::CloseMonth)).is_ok());
        }
        let added = list.add(1_201, &closing(Kind::CloseMonth));
        assert!(matches!(added, Err(Fault::Entry { number: 11, .. })));
    }
}
