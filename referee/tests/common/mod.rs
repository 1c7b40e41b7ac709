//! Entries by hand, and a month that runs by itself.
#![allow(dead_code)]

use referee::{post, Account, Answer, Date, Holidays, Ledger, Named, Notice, Posting};

pub type Day = (u16, u8, u8);
pub type Bytes = [u8; 32];

pub const START: Day = (2026, 4, 1);
/// The two days of CONFISCATED.
pub const JANUARY: Day = (2026, 1, 31);
pub const MARCH: Day = (2026, 3, 31);

pub fn entry(kind: u8, a: u8, b: u8, flags: u8, day: Day, words: [u32; 6]) -> Bytes {
    let mut bytes = [0; 32];
    bytes[..4].copy_from_slice(&[kind, a, b, flags]);
    bytes[4..6].copy_from_slice(&day.0.to_le_bytes());
    bytes[6] = day.1;
    bytes[7] = day.2;
    for (place, word) in words.iter().enumerate() {
        bytes[8 + 4 * place..][..4].copy_from_slice(&word.to_le_bytes());
    }
    bytes
}

/// The marked terms: NN 120,000, DD 480,000, S 5,000,400, R 150.
pub fn terms(day: Day, demand_rate: u32, commodity_rate: u32) -> Bytes {
    let words = [
        120_000,
        480_000,
        5_000_400,
        150,
        demand_rate,
        commodity_rate,
    ];
    entry(1, 0, 0, 0, day, words)
}

pub fn enrol(a: u8, flags: u8, day: Day, mdq: u32, opening: u32) -> Bytes {
    entry(2, a, 0, flags, day, [mdq, opening, 0, 0, 0, 0])
}

pub fn deliver(a: u8, day: Day, delivered: u32, back_cast: u32) -> Bytes {
    entry(3, a, 0, 0, day, [delivered, back_cast, 0, 0, 0, 0])
}

pub fn transfer(a: u8, b: u8, day: Day, units: u32) -> Bytes {
    entry(4, a, b, 0, day, [units, units, 0, 0, 0, 0])
}

pub fn trade(a: u8, flags: u8, day: Day, units: u32) -> Bytes {
    entry(5, a, 0, flags, day, [units, 0, 0, 0, 0, 0])
}

pub fn measure(a: u8, day: Day, mdq: u32) -> Bytes {
    entry(6, a, 0, 0, day, [mdq, 0, 0, 0, 0, 0])
}

pub fn usage(a: u8, day: Day, mcf: u32) -> Bytes {
    entry(7, a, 0, 0, day, [mcf, 0, 0, 0, 0, 0])
}

pub fn close_day(day: Day) -> Bytes {
    entry(8, 0, 0, 0, day, [0; 6])
}

pub fn close_month(day: Day, [w, h, l, e]: [u32; 4]) -> Bytes {
    entry(9, 0, 0, 0, day, [w, h, l, e, 0, 0])
}

pub fn confiscated(a: u8, day: Day, units: u32) -> Bytes {
    entry(10, a, 0, 0, day, [units, 0, 0, 0, 0, 0])
}

/// HOLIDAY, posted on the first day and naming the second.
pub fn holiday(day: Day, named: Day) -> Bytes {
    holiday_words(day, [named.0.into(), named.1.into(), named.2.into()])
}

pub fn holiday_words(day: Day, [year, month, d]: [u32; 3]) -> Bytes {
    entry(11, 0, 0, 0, day, [year, month, d, 0, 0, 0])
}

/// The flag of NOTICE.
pub const GIVES: u8 = 0;
pub const TAKES: u8 = 1;

/// NOTICE: the first account writes to the second.
pub fn notice(a: u8, b: u8, flag: u8, day: Day, units: u32) -> Bytes {
    entry(12, a, b, flag, day, [units, 0, 0, 0, 0, 0])
}

/// A letter that stands.
pub fn letter(flag: u8, other: usize, units: u64) -> Notice {
    Notice {
        stands: true,
        takes: flag == TAKES,
        other,
        units,
    }
}

pub fn named((year, month, day): Day) -> Named {
    Named {
        year: year.into(),
        month: month.into(),
        day: day.into(),
    }
}

/// A list of these dates, with zeros after them.
pub fn held(dates: &[Day]) -> Holidays {
    let mut list = Holidays {
        count: dates.len() as u64,
        ..Holidays::default()
    };
    for (place, &day) in list.dates.iter_mut().zip(dates) {
        *place = named(day);
    }
    list
}

/// Posts, and looks that a refusal moves nothing and reports nothing.
pub fn post_checked(ledger: &mut Ledger, bytes: &[u8]) -> Answer {
    let before = ledger.clone();
    let answer = post(ledger, bytes);
    if answer.number != 0 {
        assert_eq!(*ledger, before);
        let number = answer.number;
        assert_eq!(
            answer,
            Answer {
                number,
                ..Answer::default()
            }
        );
    }
    answer
}

pub fn accept(ledger: &mut Ledger, bytes: &[u8]) -> Answer {
    let answer = post_checked(ledger, bytes);
    assert_eq!(answer.number, 0, "{bytes:?}");
    answer
}

/// A ledger begun on that day with the marked terms, nothing touched, and
/// account 0 as the marked case has it: k 2, MDDQ 1,500, BCQ 62,505.
pub fn ledger_on(day: Day) -> Ledger {
    let mut ledger = Ledger::fresh(false);
    accept(&mut ledger, &terms(START, 0, 0));
    ledger.touched = false;
    ledger.year = day.0.into();
    ledger.month = day.1.into();
    ledger.day = day.2.into();
    ledger.accounts[0] = marked_account();
    ledger
}

/// The same ledger, old or new.
pub fn told(is_new: bool, ledger: Ledger) -> Ledger {
    Ledger { is_new, ..ledger }
}

pub fn marked_account() -> Account {
    Account {
        opened: true,
        mdq: 4_200,
        k: 2,
        pending: 2,
        mddq: 1_500,
        bcq: 62_505,
        ..Account::default()
    }
}

/// The same, with all that a closing of that day asks for already posted.
pub fn ready_to_close(day: Day, change: impl FnOnce(&mut Account)) -> Ledger {
    let mut ledger = ledger_on(day);
    ledger.touched = true;
    let account = &mut ledger.accounts[0];
    account.delivered = true;
    account.measured = true;
    account.metered = true;
    change(account);
    ledger
}

/// Closes a day that need not be a month's end.
pub fn close(ledger: &mut Ledger, day: Day, prices: [u32; 4]) -> Answer {
    let date = Date::new(day.0.into(), day.1.into(), day.2.into()).unwrap();
    let bytes = if date.is_month_end() {
        close_month(day, prices)
    } else {
        close_day(day)
    };
    accept(ledger, &bytes)
}

/// A small generator of numbers, so that failures repeat.
pub struct Random(u64);

impl Random {
    pub fn new(seed: u64) -> Random {
        Random(seed.wrapping_mul(0x9e37_79b9_7f4a_7c15) | 1)
    }

    pub fn next(&mut self) -> u64 {
        self.0 ^= self.0 << 13;
        self.0 ^= self.0 >> 7;
        self.0 ^= self.0 << 17;
        self.0.wrapping_mul(0x2545_f491_4f6c_dd1d)
    }

    /// 0 up to, not including, the bound.
    pub fn below(&mut self, bound: u64) -> u64 {
        (self.next() >> 11) % bound
    }

    pub fn pick<T: Copy>(&mut self, of: &[T]) -> T {
        of[self.below(of.len() as u64) as usize]
    }

    pub fn chance(&mut self, in_many: u64) -> bool {
        self.below(in_many) == 0
    }
}

/// The posting in bytes that pass numbers 1 to 7.
pub fn decoded(is_new: bool, bytes: &[u8]) -> Posting {
    referee::Entry::decode(is_new, bytes).unwrap().posting
}
