//! Cases (b): entries and ledgers on and next to every boundary of every rule.

use crate::amounts::{before_retainage, special, v1_times, words};
use crate::both::Both;
use crate::entries::{self, day_of, set_word, Bytes};
use crate::forfeits::{confiscations, forfeits};
use crate::gas_year::TERMS;
use crate::ledgers::{any_date, any_terms, ready_account, ready_ledger};
use crate::measuring::{one_year_of_days, runs_of_three, steps};
use crate::naming::namings;
use crate::pairs::letters;
use crate::random::Random;
use crate::run::{Run, Same};
use referee::{Account, Date, Ledger};

pub fn case(random: &mut Random, run: &mut Run) -> Same {
    if random.one_in(4) {
        word_ends(random, run)?;
    }
    confiscations(random, run)?;
    namings(random, run)?;
    letters(random, run)?;
    one_year_of_days(random, run)?;
    steps(random, run)?;
    runs_of_three(random, run)?;
    for _ in 0..60 {
        closings(random, run)?;
    }
    for _ in 0..20 {
        limits(random, run)?;
        enrolments(random, run)?;
        shares(random, run)?;
        forfeits(random, run)?;
    }
    Ok(())
}

/// A ledger begun on this date with the marked terms and account 0 of the marked case, and 15 like it.
pub fn marked(is_new: bool, date: Date) -> Ledger {
    let mut ledger = Ledger::fresh(is_new);
    referee::post(&mut ledger, &entries::terms((2026, 4, 1), TERMS));
    ledger.touched = false;
    (ledger.year, ledger.month, ledger.day) = (date.year(), date.month().number(), date.day());
    ledger.accounts[0] = Account {
        opened: true,
        mdq: 4_200,
        k: 2,
        pending: 2,
        mddq: 1_500,
        bcq: 62_505,
        ..Account::default()
    };
    ledger.accounts[15] = ledger.accounts[0];
    ledger
}

/// One valid entry of each kind.
fn examples(date: Date) -> [Bytes; 12] {
    let day = day_of(date);
    [
        entries::terms(day, TERMS),
        entries::enrol(1, 2, day, 4_200, 1_000),
        entries::deliver(0, day, 1_000, 500),
        entries::transfer(0, 15, day, 1),
        entries::trade(0, 0, day, 1),
        entries::measure(0, day, 4_200),
        entries::usage(0, day, 77),
        entries::close_day(day),
        entries::close_month(day, [3_000, 3_100, 2_900, 50]),
        entries::confiscated(0, day, 1_000),
        entries::holiday(day, [2026, 12, 25]),
        entries::notice(0, 15, 1, day, 1),
    ]
}

const WORDS: [u32; 24] = [
    0,
    1,
    2,
    9_998,
    9_999,
    10_000,
    99_999,
    100_000,
    100_001,
    119_999,
    120_000,
    120_001,
    299_999,
    300_000,
    300_001,
    480_000,
    9_999_999,
    10_000_000,
    10_000_001,
    12_000_000,
    12_000_001,
    99_999_999,
    100_000_000,
    100_000_001,
];

const LARGE_WORDS: [u32; 7] = [
    999_999_999,
    1_000_000_000,
    1_000_000_001,
    u32::MAX,
    1 << 31,
    (1 << 31) - 1,
    u32::MAX - 1,
];

/// Every word of every kind at the ends of all ranges, and every single byte changed.
fn word_ends(random: &mut Random, run: &mut Run) -> Same {
    let (month, day) = random.pick(&[(4, 1), (1, 31), (3, 31)]);
    let date = Date::new(2026, month, day).expect("a date that exists");
    let ledger = marked(random.one_in(2), date);
    for example in examples(date) {
        for place in 0..6 {
            for &word in WORDS.iter().chain(&LARGE_WORDS) {
                let mut bytes = example;
                set_word(&mut bytes, place, word);
                Both::of(&ledger).post(run, &bytes)?;
                // Both words alike, so that a transfer gets past 7.
                set_word(&mut bytes, 0, word);
                set_word(&mut bytes, 1, word);
                Both::of(&ledger).post(run, &bytes)?;
            }
        }
        for _ in 0..60 {
            let mut bytes = example;
            let at = random.below(32) as usize;
            bytes[at] = random.pick(&[
                0, 1, 2, 3, 4, 8, 9, 10, 11, 12, 13, 15, 16, 30, 31, 32, 128, 255,
            ]);
            Both::of(&ledger).post(run, &bytes)?;
        }
    }
    Ok(())
}

/// Closings of ledgers whose numbers are at the thresholds of V1 to V8, cash, carry and forfeit.
fn closings(random: &mut Random, run: &mut Run) -> Same {
    let date = any_date(random);
    let mut ledger = ready_ledger(random, date);
    for account in &mut ledger.accounts {
        (account.measured, account.metered) = (true, true);
    }
    let prices = [0; 4].map(|_: u32| random.pick(&[0, 1, 111, 3_000, 99_999, 100_000]));
    let mut both = Both::of(&ledger);
    for place in 0..16 {
        let account = both.referee.accounts[place];
        if account.opened && (!account.delivered || random.one_in(2)) {
            let amount = special(random, &account, date).clamp(-1_000_000_000, 1_000_000_000);
            let gross = before_retainage(amount, ledger.terms.retainage);
            let (delivered, back_cast) = words(gross, 0);
            both.post(
                run,
                &entries::deliver(place as u8, day_of(date), delivered, back_cast),
            )?;
        }
    }
    both.post(run, &entries::close(date, prices))?;
    Ok(())
}

/// Trades and transfers that end on a limit, one past it, one before it.
fn limits(random: &mut Random, run: &mut Run) -> Same {
    let date = any_date(random);
    let mut ledger = ready_ledger(random, date);
    ledger.accounts[0] = ready_account(random, date);
    ledger.accounts[15] = ready_account(random, date);
    let [giver, taker] = [0, 15].map(|place| ledger.accounts[place]);
    let give = giver.bank - (date.month().minimum() * giver.bcq) as i64;
    let take = (date.month().maximum() * taker.bcq) as i64 - taker.bank;
    let day = day_of(date);
    for past in -1..=1 {
        for most in [give, take, give.min(take)] {
            let units = (most + past).clamp(0, 1_000_000_001) as u32;
            Both::of(&ledger).post(run, &entries::transfer(0, 15, day, units))?;
            Both::of(&ledger).post(run, &entries::trade(15, 0, day, units))?;
            Both::of(&ledger).post(run, &entries::trade(0, 1, day, units))?;
        }
    }
    Ok(())
}

/// ENROL at the edges of who enters, with openings at 25 percent of the BCQ and beside.
fn enrolments(random: &mut Random, run: &mut Run) -> Same {
    let date = Date::new(2000 + random.below(100), 4, 1).expect("a date that exists");
    let mut ledger = marked(random.one_in(2), date);
    ledger.terms = any_terms(random);
    let terms = ledger.terms;
    // What an account not open holds is forgotten.
    ledger.accounts[3].confiscation = random.pick(&[0, 1, 1_000_000_000]);
    ledger.accounts[3].confiscated = random.one_in(2);
    for mdq in [
        0, 999, 1_000, 1_001, 3_000, 3_001, 4_200, 5_999, 6_000, 6_001, 299_999, 300_000,
    ] {
        let mddq = 3_000 * u64::from(mdq).div_ceil(3_000) * terms.no_notice / terms.design_day;
        let most = 25 * (mddq * terms.storage / terms.no_notice);
        for past in [0, 1, 2] {
            let opening = (most + past).saturating_sub(1).min(1_000_000_001) as u32;
            let flags = random.below(4) as u8;
            let mut both = Both::of(&ledger);
            both.post(run, &entries::enrol(3, flags, day_of(date), mdq, opening))?;
            both.post(run, &entries::enrol(3, 2, day_of(date), mdq, opening))?;
        }
    }
    Ok(())
}

/// Withdrawals at each share of the MDDQ, from banks at 10, 20 and 30 percent of the BCQ; injections at V1.
fn shares(random: &mut Random, run: &mut Run) -> Same {
    let date = any_date(random);
    let mut ledger = marked(random.one_in(2), date);
    ledger.terms.retainage = random.pick(&[0, 1, 150, 9_999]);
    let account = &mut ledger.accounts[0];
    let beside = random.between(-1, 1);
    account.bank = random.pick(&[10, 20, 30]) * 62_505 + beside;
    let share = random.pick(&[50, 65, 80, 100]) * 1_500;
    let v1 = (date.month().mmbq() * 62_505) as i64 / v1_times(date.month());
    for amount in [-share - 1, -share, -share + 1, v1 - 1, v1, v1 + 1] {
        for load in [0, 419_999, 420_000, 420_001] {
            let gross = before_retainage(amount, ledger.terms.retainage);
            let (delivered, back_cast) = words(gross, load);
            let mut both = Both::of(&ledger);
            both.post(
                run,
                &entries::deliver(0, day_of(date), delivered, back_cast),
            )?;
            both.post(run, &entries::deliver(15, day_of(date), 0, 1))?;
            both.post(run, &entries::close(date, [3_000; 4]))?;
        }
    }
    Ok(())
}
