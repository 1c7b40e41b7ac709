//! How each kind of entry is spelt: the one table behind the text format and the log.

use crate::amounts::{gas, grouped, money, read_decimal};
use crate::entry::{Entry, Kind};
use crate::named_day::{NamedDay, Unread};

/// A kind's word, then its accounts, flags and values, in the order in which they are written.
pub struct Form {
    pub word: &'static str,
    pub accounts: &'static [Value],
    pub flags: Flags,
    pub values: &'static [Value],
}

/// A named value: where in the entry it lies, and how it is written.
pub struct Value {
    pub name: &'static str,
    spelling: Spelling,
}

#[derive(Clone, Copy)]
enum Spelling {
    Number(Place, Unit),
    /// Of the first three words.
    Date,
}

#[derive(Clone, Copy)]
enum Place {
    A,
    B,
    Word(usize),
    /// A transfer's amount, notified alike by both suppliers.
    FirstTwoWords,
}

#[derive(Clone, Copy)]
enum Unit {
    Account,
    Dth,
    Mcf,
    Gas,
    Money,
    Percent,
}

pub struct Flag {
    pub word: &'static str,
    pub bits: u8,
}

/// Words for the flags byte: any number of them, whose bits add up, or exactly one.
pub enum Flags {
    Any(&'static [Flag]),
    One(&'static [Flag]),
}

const fn value(name: &'static str, place: Place, unit: Unit) -> Value {
    Value {
        name,
        spelling: Spelling::Number(place, unit),
    }
}

const fn word(name: &'static str, number: usize, unit: Unit) -> Value {
    value(name, Place::Word(number - 1), unit)
}

const ACCOUNT: &[Value] = &[value("account", Place::A, Unit::Account)];
const NO_FLAGS: Flags = Flags::Any(&[]);

const TERMS: Form = Form {
    word: "terms",
    accounts: &[],
    flags: NO_FLAGS,
    values: &[
        word("no-notice", 1, Unit::Dth),
        word("design-day", 2, Unit::Dth),
        word("storage", 3, Unit::Dth),
        word("retainage", 4, Unit::Percent),
        word("demand-rate", 5, Unit::Money),
        word("commodity-rate", 6, Unit::Money),
    ],
};

const ENROL: Form = Form {
    word: "enrol",
    accounts: ACCOUNT,
    flags: Flags::Any(&[
        Flag {
            word: "process-only",
            bits: 1,
        },
        Flag {
            word: "wants-efbs",
            bits: 2,
        },
    ]),
    values: &[word("mdq", 1, Unit::Dth), word("opening", 2, Unit::Gas)],
};

const DELIVER: Form = Form {
    word: "deliver",
    accounts: ACCOUNT,
    flags: NO_FLAGS,
    values: &[
        word("delivered", 1, Unit::Gas),
        word("back-cast", 2, Unit::Gas),
    ],
};

const TRANSFER: Form = Form {
    word: "transfer",
    accounts: &[
        value("from", Place::A, Unit::Account),
        value("to", Place::B, Unit::Account),
    ],
    flags: NO_FLAGS,
    values: &[value("gas", Place::FirstTwoWords, Unit::Gas)],
};

const TRADE: Form = Form {
    word: "trade",
    accounts: ACCOUNT,
    flags: Flags::One(&[
        Flag {
            word: "company-sells",
            bits: 0,
        },
        Flag {
            word: "company-buys",
            bits: 1,
        },
    ]),
    values: &[word("gas", 1, Unit::Gas)],
};

const MEASURE: Form = Form {
    word: "measure",
    accounts: ACCOUNT,
    flags: NO_FLAGS,
    values: &[word("mdq", 1, Unit::Dth)],
};

const USAGE: Form = Form {
    word: "usage",
    accounts: ACCOUNT,
    flags: NO_FLAGS,
    values: &[word("consumed", 1, Unit::Mcf)],
};

const CLOSE_DAY: Form = Form {
    word: "close-day",
    accounts: &[],
    flags: NO_FLAGS,
    values: &[],
};

const CLOSE_MONTH: Form = Form {
    word: "close-month",
    accounts: &[],
    flags: NO_FLAGS,
    values: &[
        word("average-cost", 1, Unit::Money),
        word("highest-price", 2, Unit::Money),
        word("lowest-price", 3, Unit::Money),
        word("pipeline-charges", 4, Unit::Money),
    ],
};

const CONFISCATED: Form = Form {
    word: "confiscated",
    accounts: ACCOUNT,
    flags: NO_FLAGS,
    values: &[word("gas", 1, Unit::Gas)],
};

const HOLIDAY: Form = Form {
    word: "holiday",
    accounts: &[],
    flags: NO_FLAGS,
    values: &[Value {
        name: "on",
        spelling: Spelling::Date,
    }],
};

const NOTICE: Form = Form {
    word: "notice",
    accounts: &[
        value("account", Place::A, Unit::Account),
        value("other", Place::B, Unit::Account),
    ],
    flags: Flags::One(&[
        Flag {
            word: "gives",
            bits: 0,
        },
        Flag {
            word: "takes",
            bits: 1,
        },
    ]),
    values: &[word("gas", 1, Unit::Gas)],
};

impl Kind {
    pub fn form(self) -> &'static Form {
        match self {
            Kind::Terms => &TERMS,
            Kind::Enrol => &ENROL,
            Kind::Deliver => &DELIVER,
            Kind::Transfer => &TRANSFER,
            Kind::Trade => &TRADE,
            Kind::Measure => &MEASURE,
            Kind::Usage => &USAGE,
            Kind::CloseDay => &CLOSE_DAY,
            Kind::CloseMonth => &CLOSE_MONTH,
            Kind::Confiscated => &CONFISCATED,
            Kind::Holiday => &HOLIDAY,
            Kind::Notice => &NOTICE,
        }
    }
}

impl Form {
    pub fn all_values(&self) -> impl Iterator<Item = &'static Value> {
        self.accounts.iter().chain(self.values)
    }

    /// Whether an entry of this form uses an account.
    pub fn uses(&self, entry: &Entry, account: usize) -> bool {
        let used = |value: &Value| match value.spelling {
            Spelling::Number(place, _) => place.get(entry) as usize == account,
            Spelling::Date => false,
        };
        self.accounts.iter().any(used)
    }
}

impl Value {
    /// As the text format has it.
    pub fn write(&self, entry: &Entry) -> String {
        match self.spelling {
            Spelling::Number(place, unit) => unit.write(place.get(entry)),
            Spelling::Date => NamedDay::of(entry).to_string(),
        }
    }

    /// As a table or a sentence has it.
    pub fn spoken(&self, entry: &Entry) -> String {
        match self.spelling {
            Spelling::Number(place, unit) => unit.spoken(place.get(entry)),
            Spelling::Date => NamedDay::of(entry).spoken(),
        }
    }

    /// Sets it to what a text tells.
    pub fn read(&self, entry: &mut Entry, text: &str) -> Result<(), Unread> {
        match self.spelling {
            Spelling::Number(place, unit) => {
                let number = unit.read(text).ok_or(Unread::Misspelt)?;
                place.set(entry, number).ok_or(Unread::TooLarge)
            }
            Spelling::Date => {
                let named: NamedDay = text.parse()?;
                named.put(entry);
                Ok(())
            }
        }
    }

    /// What a reader of the text has to write.
    pub fn expected(&self) -> &'static str {
        match self.spelling {
            Spelling::Number(_, unit) => unit.expected(),
            Spelling::Date => "a date, as 2026-12-25",
        }
    }
}

impl Flags {
    pub fn list(&self) -> &'static [Flag] {
        match self {
            Flags::Any(list) | Flags::One(list) => list,
        }
    }

    /// The words that stand for a flags byte.
    pub fn words(&self, flags: u8) -> impl Iterator<Item = &'static str> + '_ {
        let set = move |flag: &&Flag| match self {
            Flags::Any(_) => flags & flag.bits != 0,
            Flags::One(_) => flags == flag.bits,
        };
        self.list().iter().filter(set).map(|flag| flag.word)
    }
}

impl Place {
    fn get(self, entry: &Entry) -> u32 {
        match self {
            Place::A => u32::from(entry.a),
            Place::B => u32::from(entry.b),
            Place::Word(i) => entry.words[i],
            Place::FirstTwoWords => entry.words[0],
        }
    }

    /// None where the value has no room there.
    fn set(self, entry: &mut Entry, value: u64) -> Option<()> {
        match self {
            Place::A => entry.a = value.try_into().ok()?,
            Place::B => entry.b = value.try_into().ok()?,
            Place::Word(i) => entry.words[i] = value.try_into().ok()?,
            Place::FirstTwoWords => entry.words[..2].fill(value.try_into().ok()?),
        }
        Some(())
    }
}

impl Unit {
    fn write(self, value: u32) -> String {
        match self {
            Unit::Account | Unit::Dth | Unit::Mcf => value.to_string(),
            Unit::Gas => gas(i64::from(value)),
            Unit::Money => money(i64::from(value)),
            // Ten-thousandths are hundredths of a percent.
            Unit::Percent => gas(i64::from(value)) + "%",
        }
    }

    fn spoken(self, value: u32) -> String {
        let number = grouped(&self.write(value));
        match self {
            Unit::Account | Unit::Percent => number,
            Unit::Dth | Unit::Gas => number + " Dth",
            Unit::Mcf => number + " Mcf",
            Unit::Money => format!("${number}"),
        }
    }

    fn read(self, text: &str) -> Option<u64> {
        match self {
            Unit::Account | Unit::Dth | Unit::Mcf => read_decimal(text, 0),
            Unit::Gas => read_decimal(text, 2),
            Unit::Money => read_decimal(text, 3),
            Unit::Percent => read_decimal(text.strip_suffix('%')?, 2),
        }
    }

    fn expected(self) -> &'static str {
        match self {
            Unit::Account => "an account from 0 to 15",
            Unit::Dth => "a whole number of Dth, as 4200",
            Unit::Mcf => "a whole number of Mcf, as 36699",
            Unit::Gas => "Dth with two decimals, as 1450.00",
            Unit::Money => "dollars with three decimals, as 2.950",
            Unit::Percent => "a percentage with two decimals, as 1.50%",
        }
    }
}

#[cfg(test)]
mod tests {
    use super::*;
    use crate::entry::Day;

    const DATE: Day = Day {
        year: 2026,
        month: 4,
        day: 1,
    };

    #[test]
    fn every_unit_reads_what_it_writes() {
        for unit in [
            Unit::Account,
            Unit::Dth,
            Unit::Mcf,
            Unit::Gas,
            Unit::Money,
            Unit::Percent,
        ] {
            for value in [0, 1, 15, 9_999, 1_000_000_000, u32::MAX] {
                assert_eq!(unit.read(&unit.write(value)), Some(u64::from(value)));
            }
            let (_, example) = unit.expected().rsplit_once(' ').expect("words");
            assert!(unit.read(example).is_some(), "{example}");
        }
    }

    /// Sets the largest value that there is room for.
    fn fill(value: &Value, entry: &mut Entry) -> bool {
        match value.spelling {
            Spelling::Number(place, _) => {
                let words = place.set(entry, u64::from(u32::MAX));
                let byte = || place.set(entry, u64::from(u8::MAX));
                words.or_else(byte).is_some()
            }
            Spelling::Date => {
                let largest = [u32::MAX; 3].map(|word| word.to_string()).join("-");
                value.read(entry, &largest) == Ok(())
            }
        }
    }

    /// The library knows which bytes a kind uses: each named place may be set, and no other.
    #[test]
    fn forms_name_the_bytes_that_the_library_uses() {
        for kind in Kind::ALL {
            let blank = Entry::blank(kind, DATE).to_bytes();
            let mut named = [false; 32];
            for value in kind.form().all_values() {
                let mut entry = Entry::blank(kind, DATE);
                assert!(fill(value, &mut entry), "{}", value.name);
                for (place, new) in entry.to_bytes().into_iter().enumerate() {
                    named[place] |= new != blank[place];
                }
            }
            for place in (1..3).chain(8..32) {
                let mut bytes = blank;
                bytes[place] = 255;
                let unused = nedrulov::entry_number(true, &bytes) == 5;
                assert_eq!(
                    unused,
                    !named[place],
                    "byte {place} of {}",
                    kind.form().word
                );
            }
        }
    }

    /// The table has three kinds that old ledgers do not know, and in no other do old and new differ.
    #[test]
    fn three_kinds_are_of_the_new_rules() {
        for kind in Kind::ALL {
            let bytes = Entry::blank(kind, DATE).to_bytes();
            let numbers = [false, true].map(|is_new| nedrulov::entry_number(is_new, &bytes));
            match kind {
                Kind::Confiscated | Kind::Holiday => assert_eq!(numbers, [2, 0]),
                // A blank one is of no gas.
                Kind::Notice => assert_eq!(numbers, [2, 6]),
                _ => assert_eq!(numbers[0], numbers[1]),
            }
        }
    }

    #[test]
    fn forms_name_the_flags_that_the_library_uses() {
        for kind in Kind::ALL {
            for flags in 0..=255 {
                let mut entry = Entry::blank(kind, DATE);
                entry.flags = flags;
                let unused = nedrulov::entry_number(true, &entry.to_bytes()) == 5;
                let told: u8 = kind.form().flags.list().iter().map(|flag| flag.bits).sum();
                assert_eq!(
                    unused,
                    flags > told,
                    "flags {flags} of {}",
                    kind.form().word
                );
            }
        }
    }
}
