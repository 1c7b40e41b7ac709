//! CONFISCATED and the forfeits that it bounds, for the cases (b): the edges of its days, its bytes and the excess.

use crate::both::Both;
use crate::boundaries::marked;
use crate::confiscation::{excesses, MOST};
use crate::entries::{self, day_of, set_word, Bytes, Day};
use crate::ledgers::ready_ledger;
use crate::random::Random;
use crate::run::{Run, Same};
use referee::{Date, Ledger};

/// Its two days, the days around them, and other ends of months.
const DAYS: [(u64, u64); 14] = [
    (1, 1),
    (1, 30),
    (1, 31),
    (2, 1),
    (2, 28),
    (2, 29),
    (3, 1),
    (3, 30),
    (3, 31),
    (4, 1),
    (4, 30),
    (5, 31),
    (8, 31),
    (12, 31),
];

/// CONFISCATED on and beside its days, to old and new ledgers, each to the ledger as given and to one that had it.
pub fn confiscations(random: &mut Random, run: &mut Run) -> Same {
    let year = 2000 + random.below(100);
    let days = DAYS.map(|(month, day)| Date::new(year, month, day));
    for date in days.into_iter().flatten() {
        for is_new in [false, true] {
            let ledger = marked(is_new, date);
            let mut had = Both::of(&ledger);
            had.post(run, &entries::confiscated(0, day_of(date), 0))?;
            let had = had.referee;
            for bytes in edges(day_of(date)) {
                Both::of(&ledger).post(run, &bytes)?;
                Both::of(&had).post(run, &bytes)?;
            }
        }
    }
    Ok(())
}

/// CONFISCATED at the ends of what it uses, and with each part set that it does not use.
fn edges(day: Day) -> Vec<Bytes> {
    let accounts = [0, 1, 15, 16, 255].map(|a| entries::confiscated(a, day, 5));
    let largest = MOST as u32;
    let amounts = [0, 1, largest - 1, largest, largest + 1, u32::MAX]
        .map(|units| entries::confiscated(15, day, units));
    let flags = [1, 2, 3, 128].map(|flags| entries::entry(10, [0, 0], flags, day, &[5]));
    let others = [1, 15, 16].map(|b| entries::entry(10, [0, b], 0, day, &[5]));
    let words = [1, 2, 3, 4, 5].map(|place| {
        let mut bytes = entries::confiscated(0, day, 5);
        set_word(&mut bytes, place, 1);
        bytes
    });
    // Two faults at once: the lower number is the answer.
    let faults = [
        entries::entry(10, [16, 0], 1, day, &[5]),
        entries::entry(10, [0, 0], 1, day, &[largest + 1]),
        entries::entry(10, [16, 0], 0, (day.0, 13, day.2), &[largest + 1]),
    ];
    [&accounts[..], &amounts, &flags, &others, &words, &faults].concat()
}

/// Closings of January 31 and March 31 with amounts at the excess and one beside it, recorded or posted.
pub fn forfeits(random: &mut Random, run: &mut Run) -> Same {
    let (year, month) = (2000 + random.below(100), random.pick(&[1, 3]));
    let date = Date::new(year, month, 31).expect("a date that exists");
    let mut ledger = ready_ledger(random, date);
    for account in &mut ledger.accounts {
        (account.delivered, account.measured, account.metered) = (true, true, true);
    }
    let prices = [0; 4].map(|_: u32| random.pick(&[0, 3_000, 100_000]));
    let closing = entries::close(date, prices);
    let all = excesses(&ledger, &closing);
    for beside in -1..=1 {
        let amounts = all.map(|excess| excess.saturating_add_signed(beside).min(MOST));
        recorded(random, run, &ledger, amounts, &closing)?;
        posted(run, &ledger, date, amounts, &closing)?;
    }
    Both::of(&without_amounts(&ledger)).post(run, &closing)?;
    Ok(())
}

/// Amounts that the ledger holds, with their mark or without.
fn recorded(
    random: &mut Random,
    run: &mut Run,
    ledger: &Ledger,
    amounts: [u64; 16],
    closing: &Bytes,
) -> Same {
    let mut ledger = ledger.clone();
    for (account, amount) in ledger.accounts.iter_mut().zip(amounts) {
        account.confiscation = amount;
        account.confiscated = random.one_in(2);
    }
    Both::of(&ledger).post(run, closing)?;
    Ok(())
}

/// Amounts that entries bring, each twice; the first day of the next month takes none.
fn posted(run: &mut Run, ledger: &Ledger, date: Date, amounts: [u64; 16], closing: &Bytes) -> Same {
    let mut both = Both::of(&without_amounts(ledger));
    for (place, amount) in (0..).zip(amounts) {
        if ledger.accounts[usize::from(place)].opened {
            let bytes = entries::confiscated(place, day_of(date), amount as u32);
            both.post(run, &bytes)?;
            both.post(run, &bytes)?;
        }
    }
    both.post(run, closing)?;
    if let Some(next) = both.referee.date() {
        both.post(run, &entries::confiscated(0, day_of(next), 0))?;
    }
    Ok(())
}

fn without_amounts(ledger: &Ledger) -> Ledger {
    let mut ledger = ledger.clone();
    for account in &mut ledger.accounts {
        (account.confiscation, account.confiscated) = (0, false);
    }
    ledger
}
