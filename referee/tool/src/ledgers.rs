//! Ledgers in memory: in range and ready for a closing, or anything.

use crate::entries::Day;
use crate::holidays;
use crate::letters;
use crate::random::Random;
use referee::{Account, Date, Ledger, Terms};

/// The ranges of an account's numbers, in the order of `number_of`.
pub const RANGES: [(i64, i64); 18] = [
    (-1_000_000_000, 100_000_000_000),
    (-100_000_000_000, 100_000_000_000),
    (-1_000_000_000_000_000, 1_000_000_000_000_000),
    (0, 300_000),
    (1, 100),
    (1, 100),
    (0, 2),
    (0, 2),
    (0, 300_000),
    (0, 30_000_000),
    (0, 100_000_000_000),
    (0, 100_000_000_000),
    (0, 100_000_000_000),
    (0, 100_000_000_000),
    (0, 100_000_000_000),
    (0, 100_000_000),
    (0, 40_000),
    (0, 1_000_000_000),
];

/// Sets a number of an account; -1 is the largest number where the type has no sign.
pub fn set_number(account: &mut Account, place: usize, value: i64) {
    match place {
        0 => account.bank = value,
        1 => account.net = value,
        2 => account.owed = value,
        _ => *unsigned(account, place) = value as u64,
    }
}

fn unsigned(account: &mut Account, place: usize) -> &mut u64 {
    match place {
        3 => &mut account.mdq,
        4 => &mut account.k,
        5 => &mut account.pending,
        6 => &mut account.over,
        7 => &mut account.under,
        8 => &mut account.mddq,
        9 => &mut account.bcq,
        10 => &mut account.sales,
        11 => &mut account.purchases,
        12 => &mut account.cash_ins,
        13 => &mut account.cash_outs,
        14 => &mut account.carry,
        15 => &mut account.usage,
        16 => &mut account.violation_days,
        _ => &mut account.confiscation,
    }
}

/// A ledger in range, old or new, with holidays and letters or none, and open accounts, most of them ready for their
/// closing.
pub fn ready_ledger(random: &mut Random, date: Date) -> Ledger {
    let mut ledger = Ledger::fresh(random.one_in(2));
    ledger.begun = true;
    ledger.touched = !random.one_in(4);
    (ledger.year, ledger.month, ledger.day) = (date.year(), date.month().number(), date.day());
    ledger.terms = any_terms(random);
    ledger.holidays = holidays::fitting(random, date);
    for _ in 0..1 + random.below(3) {
        let place = random.below(16) as usize;
        ledger.accounts[place] = ready_account(random, date);
    }
    if random.one_in(4) {
        letters::put(random, &mut ledger);
    }
    ledger
}

pub fn any_terms(random: &mut Random) -> Terms {
    let nn = random.pick(&[1, 120_000, 120_000, 9_999_999, 10_000_000]);
    Terms {
        no_notice: nn,
        design_day: random.pick(&[nn, nn + 1, 4 * nn, 100_000_000]),
        storage: random
            .pick(&[nn, 41 * nn + nn / 3, 100 * nn - 1, 100 * nn])
            .max(nn),
        retainage: random.pick(&[0, 1, 150, 9_998, 9_999]),
        demand_rate: random.pick(&[0, 12_550, 99_999, 100_000]),
        commodity_rate: random.pick(&[0, 32, 99_999, 100_000]),
    }
}

/// An open account with its numbers at shares of its BCQ, and one unit beside them.
pub fn ready_account(random: &mut Random, date: Date) -> Account {
    let bcq = random.pick(&[0, 1, 100, 62_505, 62_505, 3_000_000, 30_000_000]);
    let month = date.month();
    let own = [month.minimum(), month.maximum(), month.mmbq(), 102];
    let near = |random: &mut Random, shares: &[u64]| {
        (random.pick(shares) * bcq) as i64 + random.between(-1, 1)
    };
    let bank = match random.below(3) {
        0 => near(random, &own),
        1 => near(random, &[0, 10, 20, 25, 30, 60, 65, 85, 102]),
        _ => random.between(-1_000_000, 110 * bcq as i64),
    };
    let size = near(random, &[0, 0, 5, 7, 10, 13, 15, 20, 30, 40, month.mmbq()]);
    let k = random.between(1, 100) as u64;
    Account {
        opened: true,
        bank,
        mdq: random.between(0, 300_000) as u64,
        k,
        pending: (k as i64 + random.between(-1, 1)).clamp(1, 100) as u64,
        over: random.below(3),
        under: random.below(3),
        mddq: random.pick(&[0, 1, 1_500, bcq / 42, 300_000]).min(300_000),
        bcq,
        net: if random.one_in(2) { size } else { -size },
        carry: if random.one_in(2) {
            0
        } else {
            near(random, &[1, 10, 20, 30, 40]).max(0) as u64
        },
        confiscation: recorded(random, bank),
        ..marked_account(random)
    }
}

/// An amount of confiscated gas, on any side of what the bank may lose. Its mark is another matter.
fn recorded(random: &mut Random, bank: i64) -> u64 {
    match random.below(4) {
        0 | 1 => 0,
        2 => random.pick(&[1, 999, 1_000_000, 999_999_999, 1_000_000_000]),
        _ => random.between(0, bank.clamp(0, 1_000_000_000)) as u64,
    }
}

/// Marks mostly as a closing asks for, and the month's totals.
fn marked_account(random: &mut Random) -> Account {
    let mut total = || random.pick(&[0, 0, 1, 999, 1_000_000, 100_000_000_000 >> 4]);
    let (sales, purchases, cash_ins, cash_outs) = (total(), total(), total(), total());
    Account {
        sales,
        purchases,
        cash_ins,
        cash_outs,
        usage: random.pick(&[0, 1, 123_456, 100_000_000]),
        owed: random.between(-1_000_000_000, 1_000_000_000),
        violation_days: random.below(40_001),
        delivered: !random.one_in(8),
        measured: !random.one_in(8),
        metered: !random.one_in(8),
        v1: random.one_in(3),
        v2: random.one_in(3),
        confiscated: random.one_in(3),
        excused: random.one_in(3),
        ..Account::default()
    }
}

/// Anything: numbers in and out of range, not begun, closed accounts with numbers, odd dates.
pub fn any_ledger(random: &mut Random) -> Ledger {
    let date = any_date(random);
    let mut ledger = ready_ledger(random, date);
    ledger.begun = !random.one_in(4);
    ledger.holidays = holidays::any(random, date);
    if random.one_in(8) {
        ledger.terms = Terms::default();
    }
    if random.one_in(8) {
        (ledger.year, ledger.month, ledger.day) =
            (random.next(), random.below(20), random.below(40));
    }
    for account in &mut ledger.accounts {
        if random.one_in(12) {
            *account = ready_account(random, date);
            account.opened = random.one_in(2);
        }
    }
    if random.one_in(2) {
        let at = random.below(16) as usize;
        for _ in 0..1 + random.below(3) {
            let place = random.below(RANGES.len() as u64) as usize;
            let (low, high) = RANGES[place];
            let inside = random.between(low, high);
            let value = random.pick(&[
                low - 1,
                low,
                high,
                high + 1,
                inside,
                inside,
                i64::MIN,
                i64::MAX,
            ]);
            set_number(&mut ledger.accounts[at], place, value);
        }
    }
    any_letters(random, &mut ledger);
    ledger
}

/// Letters for some, rarely one that is out of range.
fn any_letters(random: &mut Random, ledger: &mut Ledger) {
    if random.one_in(3) {
        letters::put(random, ledger);
    }
    if random.one_in(24) {
        letters::spoil(random, ledger);
    }
}

/// A day that exists, often one that a rule names.
pub fn any_date(random: &mut Random) -> Date {
    loop {
        let (year, month, day) = any_day(random);
        if let Some(date) = Date::new(year.into(), month.into(), day.into()) {
            return date;
        }
    }
}

pub fn any_day(random: &mut Random) -> Day {
    let years = [2000, 2001, 2004, 2023, 2024, 2026, 2098, 2099];
    let year = if random.one_in(2) {
        random.pick(&years)
    } else {
        2000 + random.below(100) as u16
    };
    let days = [1, 1, 24, 25, 26, 27, 28, 29, 30, 30, 31, 31];
    match random.below(9) {
        0 | 1 => (year, 4, 1),
        2 => random.pick(&[
            (2099, 12, 31),
            (2000, 1, 1),
            (2000, 2, 29),
            (2096, 2, 29),
            (2099, 12, 30),
        ]),
        3 => (year, random.pick(&[1, 3, 6, 8]), random.pick(&[30, 31])),
        4 => (year, 1 + random.below(12) as u8, 1 + random.below(31) as u8),
        5 => (year, random.pick(&[1, 3]), 31),
        _ => (year, 1 + random.below(12) as u8, random.pick(&days)),
    }
}
