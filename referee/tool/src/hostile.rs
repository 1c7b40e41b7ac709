//! Cases (c): ledgers in memory that no list need have produced, and a posting of every kind to each.

use crate::both::Both;
use crate::entries::{self, Bytes, Day};
use crate::gas_year::TERMS;
use crate::holidays;
use crate::ledgers::{any_date, any_day, any_ledger, ready_ledger, set_number, RANGES};
use crate::letters::{self, FAULTS};
use crate::random::Random;
use crate::run::{Run, Same};
use referee::{Date, Ledger};

pub fn case(random: &mut Random, run: &mut Run) -> Same {
    for _ in 0..30 {
        let ledger = any_ledger(random);
        all_kinds(random, run, &ledger)?;
    }
    one_number_off(random, run)?;
    terms_off(random, run)?;
    list_off(random, run)?;
    letters_off(random, run)?;
    for _ in 0..20 {
        near_the_end(random, run)?;
    }
    Ok(())
}

/// A posting of every kind, each to the ledger as given.
pub fn all_kinds(random: &mut Random, run: &mut Run, ledger: &Ledger) -> Same {
    for bytes in aimed(random, ledger) {
        Both::of(ledger).post(run, &bytes)?;
    }
    Ok(())
}

/// Entries of every kind, most of them for the ledger's date.
fn aimed(random: &mut Random, ledger: &Ledger) -> Vec<Bytes> {
    let own = (ledger.year as u16, ledger.month as u8, ledger.day as u8);
    let exists = Date::new(ledger.year, ledger.month, ledger.day).is_some();
    let day = if exists && !random.one_in(16) {
        own
    } else {
        any_day(random)
    };
    let open = ledger.accounts.iter().position(|account| account.opened);
    let a = match open {
        Some(place) if !random.one_in(4) => place as u8,
        _ => random.below(16) as u8,
    };
    let b = random.below(16) as u8;
    let units = random.pick(&[1, 2, 100, 100_000, 100_000_000, 1_000_000_000]);
    let mdq = random.pick(&[0, 999, 1_000, 5_999, 6_000, 30_000, 299_999, 300_000]);
    let prices = [0; 4].map(|_: u32| random.pick(&[0, 1, 111, 3_000, 99_999, 100_000]));
    let flag = random.below(2) as u8;
    let mut words = TERMS;
    words[3] = random.pick(&[0, 150, 9_999]);
    let others = [
        entries::terms(day, words),
        entries::enrol(a, random.below(4) as u8, day, mdq, units),
        entries::enrol(b, 2, day, mdq, 0),
        entries::deliver(a, day, units, 0),
        entries::deliver(a, day, 0, units),
        entries::transfer(a, b, day, units),
        entries::trade(a, flag, day, units),
        entries::trade(a, flag, day, 1),
        entries::measure(a, day, mdq),
        entries::usage(a, day, random.pick(&[0, 1, 99_999_999, 100_000_000])),
        entries::close_day(day),
        entries::close_month(day, prices),
        entries::confiscated(a, day, units),
        entries::confiscated(b, day, random.pick(&[0, 1, 999_999_999])),
    ];
    let letter = lettered(random, ledger, [a, b], day);
    [&others[..], &named(random, ledger, day), &[letter]].concat()
}

/// NOTICE of the two parties, or one that meets a letter of the ledger, nearly or not at all.
fn lettered(random: &mut Random, ledger: &Ledger, [a, b]: [u8; 2], day: Day) -> Bytes {
    if random.one_in(4) {
        let units = random.pick(&[1, 100, 100_000_000, 1_000_000_000]);
        return entries::notice(a, b, random.below(2) as u8, day, units);
    }
    let (writer, letter) = letters::next(random, ledger);
    letters::written(writer, &letter, day)
}

/// HOLIDAY of a date to come, and of anything.
fn named(random: &mut Random, ledger: &Ledger, day: Day) -> [Bytes; 2] {
    let today = ledger.date().unwrap_or_else(|| any_date(random));
    [
        holidays::ahead(random, today),
        holidays::hostile(random, ledger),
    ]
    .map(|words| entries::holiday(day, words))
}

/// One number of one account at and past each end of its range, the rest in range.
fn one_number_off(random: &mut Random, run: &mut Run) -> Same {
    let date = any_date(random);
    let base = ready_ledger(random, date);
    let at = random.below(16) as usize;
    let place = random.below(RANGES.len() as u64) as usize;
    let (low, high) = RANGES[place];
    let inside = random.between(low, high);
    for value in [
        low - 1,
        low,
        low + 1,
        inside,
        high - 1,
        high,
        high + 1,
        i64::MIN,
        i64::MAX,
        -1,
    ] {
        let mut ledger = base.clone();
        set_number(&mut ledger.accounts[at], place, value);
        all_kinds(random, run, &ledger)?;
    }
    Ok(())
}

/// Terms and date at and past their ends, begun and not begun.
fn terms_off(random: &mut Random, run: &mut Run) -> Same {
    for _ in 0..10 {
        let date = any_date(random);
        let mut ledger = ready_ledger(random, date);
        let value = random.pick(&[
            0, 1, 2, 1_999, 2_100, 9_999, 10_000, 100_000, 100_001, 10_000_000, 10_000_001,
        ]);
        let large = random.pick(&[100_000_000, 100_000_001, u64::MAX, 1 << 63, 1 << 32]);
        let value = if random.one_in(3) { large } else { value };
        let nn = ledger.terms.no_notice;
        match random.below(11) {
            0 => ledger.terms.no_notice = value,
            1 => ledger.terms.design_day = value,
            2 => ledger.terms.design_day = nn - 1,
            3 => ledger.terms.storage = random.pick(&[nn - 1, nn, 100 * nn, 100 * nn + 1]),
            4 => ledger.terms.retainage = value,
            5 => ledger.terms.demand_rate = value,
            6 => ledger.terms.commodity_rate = value,
            7 => ledger.year = value,
            8 => ledger.month = random.pick(&[0, 1, 12, 13, 256 + 4, u64::MAX]),
            9 => ledger.day = random.pick(&[0, 1, 28, 29, 30, 31, 32, 256 + 1, u64::MAX]),
            _ => ledger.touched = random.one_in(2),
        }
        ledger.begun = !random.one_in(4);
        all_kinds(random, run, &ledger)?;
    }
    Ok(())
}

/// The dates held: counts at their end and past it, one of each fault, and anything past the count. Measurement days
/// are asked for too.
fn list_off(random: &mut Random, run: &mut Run) -> Same {
    let date = any_date(random);
    let mut ledger = ready_ledger(random, date);
    ledger.begun = !random.one_in(4);
    let sound = ledger.holidays;
    for count in [0, 15, 16, 17, u64::MAX] {
        ledger.holidays.count = count;
        questions(random, run, &ledger)?;
    }
    ledger.holidays.count = random.pick(&[15, 16, 17, u64::MAX]);
    all_kinds(random, run, &ledger)?;
    for _ in 0..2 {
        ledger.holidays = sound;
        if random.one_in(2) {
            holidays::litter(random, &mut ledger.holidays, date);
        }
        questions(random, run, &ledger)?;
        holidays::spoil(random, &mut ledger.holidays, date);
        questions(random, run, &ledger)?;
        all_kinds(random, run, &ledger)?;
    }
    Ok(())
}

/// One letter with a fault, of an account that is open or of one that is not, and the same members where none stands.
fn letters_off(random: &mut Random, run: &mut Run) -> Same {
    let date = any_date(random);
    let mut ledger = ready_ledger(random, date);
    ledger.begun = !random.one_in(4);
    let open = ledger.accounts.iter().position(|account| account.opened);
    let any = random.below(16) as usize;
    let place = open.filter(|_| random.one_in(2)).unwrap_or(any);
    let fault = random.pick(&FAULTS);
    ledger.accounts[place].notice = letters::faulty(random, fault);
    Both::of(&ledger).ask(run, ledger.year, ledger.month)?;
    all_kinds(random, run, &ledger)?;
    ledger.accounts[place].notice.stands = false;
    all_kinds(random, run, &ledger)
}

/// The measurement days of the ledger's month, of a date in its list and of any month.
fn questions(random: &mut Random, run: &mut Run, ledger: &Ledger) -> Same {
    let both = Both::of(ledger);
    let named = random.pick(&ledger.holidays.dates);
    both.ask(run, ledger.year, ledger.month)?;
    both.ask(run, named.year, named.month)?;
    both.ask(run, 1_999 + random.below(102), random.below(14))?;
    both.ask(run, random.next() >> random.below(64), 1 + random.below(12))
}

/// Numbers just inside their ends, so that a posting takes one out: 29.
fn near_the_end(random: &mut Random, run: &mut Run) -> Same {
    let date = any_date(random);
    let mut ledger = ready_ledger(random, date);
    let Some(account) = ledger.accounts.iter_mut().find(|account| account.opened) else {
        return Ok(());
    };
    for _ in 0..1 + random.below(2) {
        let place = random.pick(&[0, 1, 2, 10, 11, 12, 13, 16]);
        let (low, high) = RANGES[place];
        let inside = random
            .pick(&[0, 0, 1, 100_000, 1_000_000_000])
            .min(high / 2);
        let value = if random.one_in(2) {
            low + inside
        } else {
            high - inside
        };
        set_number(account, place, value);
    }
    account.delivered = random.one_in(2);
    all_kinds(random, run, &ledger)
}
