//! The entry of 32 bytes, and numbers 1 to 7.

use crate::calendar::Date;
use crate::holidays::Named;
use crate::ledger::{Prices, Terms, ACCOUNTS, CONFISCATION_MAX, MCF_MAX, MDQ_MAX};
use crate::notices::Notice;
use crate::number;
use std::ops::RangeInclusive;

/// Length of an entry in bytes.
pub const ENTRY: usize = 32;
/// The kind that ends a section of the archive.
pub const KIND_CLOSE_MONTH: u8 = 9;

const UNITS: RangeInclusive<u64> = 0..=1_000_000_000;
/// TRANSFER and TRADE move at least one unit.
const MOVED: RangeInclusive<u64> = 1..=1_000_000_000;

const PROCESS_ONLY: u8 = 1;
const WISHES: u8 = 2;

/// An entry that passed numbers 1 to 7.
#[derive(Clone, Copy, PartialEq, Eq, Debug)]
pub struct Entry {
    pub date: Date,
    pub posting: Posting,
}

/// The twelve kinds. Accounts are 0 to 15, words within their ranges.
#[derive(Clone, Copy, PartialEq, Eq, Debug)]
pub enum Posting {
    Terms(Terms),
    Enrol {
        account: usize,
        process_only: bool,
        wishes: bool,
        mdq: u64,
        opening: u64,
    },
    Deliver {
        account: usize,
        delivered: u64,
        back_cast: u64,
    },
    Transfer {
        giver: usize,
        receiver: usize,
        units: u64,
    },
    /// The company sells to the account.
    Sale {
        account: usize,
        units: u64,
    },
    /// The company buys from the account.
    Purchase {
        account: usize,
        units: u64,
    },
    Measure {
        account: usize,
        mdq: u64,
    },
    Usage {
        account: usize,
        mcf: u64,
    },
    CloseDay,
    CloseMonth(Prices),
    /// The storage provider confiscated; in new ledgers and archives only.
    Confiscated {
        account: usize,
        units: u64,
    },
    /// No meter is read on that day, if it is one: its three numbers are as
    /// wide as the words. In new ledgers and archives only.
    Holiday(Named),
    /// One of the two letters for a transfer; in new ledgers and archives only.
    Notice {
        writer: usize,
        letter: Notice,
    },
}

/// Which bytes a kind uses: how many accounts, the sum of its flags, and how
/// many words.
struct Uses {
    accounts: usize,
    flags: u8,
    words: usize,
}

/// In the order of the kinds, from 1.
const USES: [Uses; 12] = {
    const fn uses(accounts: usize, flags: u8, words: usize) -> Uses {
        Uses {
            accounts,
            flags,
            words,
        }
    }
    [
        uses(0, 0, 6),                     // TERMS
        uses(1, PROCESS_ONLY + WISHES, 2), // ENROL
        uses(1, 0, 2),                     // DELIVER
        uses(2, 0, 2),                     // TRANSFER
        uses(1, 1, 1),                     // TRADE
        uses(1, 0, 1),                     // MEASURE
        uses(1, 0, 1),                     // USAGE
        uses(0, 0, 0),                     // CLOSE DAY
        uses(0, 0, 4),                     // CLOSE MONTH
        uses(1, 0, 1),                     // CONFISCATED
        uses(0, 0, 3),                     // HOLIDAY
        uses(2, 1, 1),                     // NOTICE
    ]
};

/// How many of them an old ledger or archive knows.
const OLD_KINDS: usize = 9;

/// The number, 0 or 1 to 7, of any bytes as an entry, old or new.
pub fn entry_number(is_new: bool, bytes: &[u8]) -> u64 {
    Entry::decode(is_new, bytes)
        .err()
        .unwrap_or(number::ACCEPTED)
}

impl Entry {
    /// The entry in these bytes, or the first number that refuses it, in a
    /// ledger or archive that is old or new.
    pub fn decode(is_new: bool, bytes: &[u8]) -> Result<Entry, u64> {
        let bytes: &[u8; ENTRY] = bytes.try_into().map_err(|_| number::LENGTH)?;
        let [kind, a, b, flags, year_low, year_high, month, day, ..] = *bytes;
        let words = words(bytes);

        let known = if is_new {
            &USES[..]
        } else {
            &USES[..OLD_KINDS]
        };
        let uses = usize::from(kind)
            .checked_sub(1)
            .and_then(|place| known.get(place))
            .ok_or(number::KIND)?;

        let year = u16::from_le_bytes([year_low, year_high]);
        let date = Date::new(year.into(), month.into(), day.into()).ok_or(number::DATE)?;

        let accounts = [usize::from(a), usize::from(b)];
        let (used, unused) = accounts.split_at(uses.accounts);
        if used.iter().any(|&account| account >= ACCOUNTS) {
            return Err(number::ACCOUNT);
        }
        if unused.iter().any(|&account| account != 0)
            || flags & !uses.flags != 0
            || words[uses.words..].iter().any(|&word| word != 0)
        {
            return Err(number::UNUSED);
        }

        let posting = posting(kind, accounts, flags, words)?;
        Ok(Entry { date, posting })
    }
}

/// Words w1 to w6.
fn words(bytes: &[u8; ENTRY]) -> [u64; 6] {
    let (words, _) = bytes[8..].as_chunks();
    std::array::from_fn(|place| u32::from_le_bytes(words[place]).into())
}

/// Numbers 6 and 7, for a kind that is known.
fn posting(kind: u8, accounts: [usize; 2], flags: u8, words: [u64; 6]) -> Result<Posting, u64> {
    let [account, other] = accounts;
    let [w1, w2, w3, w4, w5, w6] = words;
    let (in_range, posting) = match kind {
        1 => {
            let terms = Terms {
                no_notice: w1,
                design_day: w2,
                storage: w3,
                retainage: w4,
                demand_rate: w5,
                commodity_rate: w6,
            };
            (terms.in_range(), Posting::Terms(terms))
        }
        2 => (
            w1 <= MDQ_MAX && UNITS.contains(&w2),
            Posting::Enrol {
                account,
                process_only: flags & PROCESS_ONLY != 0,
                wishes: flags & WISHES != 0,
                mdq: w1,
                opening: w2,
            },
        ),
        3 => (
            UNITS.contains(&w1) && UNITS.contains(&w2),
            Posting::Deliver {
                account,
                delivered: w1,
                back_cast: w2,
            },
        ),
        4 => (
            MOVED.contains(&w1) && MOVED.contains(&w2),
            Posting::Transfer {
                giver: account,
                receiver: other,
                units: w1,
            },
        ),
        5 => (
            MOVED.contains(&w1),
            if flags == 0 {
                Posting::Sale { account, units: w1 }
            } else {
                Posting::Purchase { account, units: w1 }
            },
        ),
        6 => (w1 <= MDQ_MAX, Posting::Measure { account, mdq: w1 }),
        7 => (w1 <= MCF_MAX, Posting::Usage { account, mcf: w1 }),
        8 => (true, Posting::CloseDay),
        KIND_CLOSE_MONTH => {
            let prices = Prices {
                average: w1,
                highest: w2,
                lowest: w3,
                pipeline: w4,
            };
            (prices.in_range(), Posting::CloseMonth(prices))
        }
        10 => (
            w1 <= CONFISCATION_MAX,
            Posting::Confiscated { account, units: w1 },
        ),
        // Whether it is a date is for the state to say.
        11 => {
            let [year, month, day] = [w1, w2, w3];
            (true, Posting::Holiday(Named { year, month, day }))
        }
        12 => {
            let letter = Notice {
                stands: true,
                takes: flags != 0,
                other,
                units: w1,
            };
            let writer = account;
            (letter.in_range(), Posting::Notice { writer, letter })
        }
        _ => return Err(number::KIND),
    };
    if !in_range {
        return Err(number::WORD);
    }
    match posting {
        Posting::Transfer { .. } if account == other || w1 != w2 => Err(number::TRANSFER),
        Posting::Notice { .. } if account == other => Err(number::TRANSFER),
        _ => Ok(posting),
    }
}
