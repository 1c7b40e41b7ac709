//! NOTICE and the pairs that it makes, for the cases (b): its bytes, the limits of a second letter, letters that nearly
//! fit, a TRANSFER between two letters, the days around its end, and closings.

use crate::both::Both;
use crate::boundaries::marked;
use crate::entries::{self, day_of, set_word, Bytes, Day};
use crate::ledgers::{any_date, ready_account, ready_ledger};
use crate::letters::{self, counterpart, letter, room, spare, written, GIVES, MOST, TAKES};
use crate::random::Random;
use crate::run::{Run, Same};
use referee::{Account, Date, Ledger, Notice};

pub fn letters(random: &mut Random, run: &mut Run) -> Same {
    if random.one_in(2) {
        bytes(random, run)?;
    }
    for _ in 0..3 {
        limits(random, run)?;
        misfits(random, run)?;
        crowd(random, run)?;
        closings(random, run)?;
    }
    between(random, run)?;
    ends(random, run)?;
    enrolments(random, run)
}

/// Every edge of what NOTICE uses, and each part set that it does not use, to old and new ledgers; also where the other
/// party has a letter, and where the writer has one.
fn bytes(random: &mut Random, run: &mut Run) -> Same {
    let date = any_date(random);
    for is_new in [false, true] {
        let none = marked(is_new, date);
        let (mut theirs, mut own) = (none.clone(), none.clone());
        theirs.accounts[15].notice = letter(TAKES, 0, 5);
        own.accounts[0].notice = letter(GIVES, 15, 5);
        for bytes in edges(day_of(date)) {
            for ledger in [&none, &theirs, &own] {
                Both::of(ledger).post(run, &bytes)?;
            }
        }
    }
    Ok(())
}

fn edges(day: Day) -> Vec<Bytes> {
    let largest = MOST as u32;
    let notice = |a, b, flag, units| entries::notice(a, b, flag, day, units);
    let accounts = [0, 1, 15, 16, 255].map(|account| {
        [
            notice(account, 15, 0, 5),
            notice(0, account, 0, 5),
            notice(account, account, 1, 5),
        ]
    });
    let units = [0, 1, 4, 5, 6, largest - 1, largest, largest + 1, u32::MAX];
    let units = units.map(|units| notice(0, 15, 0, units));
    let flags = [0, 1, 2, 3, 4, 128, 255].map(|flag| notice(0, 15, flag, 5));
    let words = [1, 2, 3, 4, 5].map(|place| {
        let mut bytes = notice(0, 15, 0, 5);
        set_word(&mut bytes, place, 5);
        bytes
    });
    // Two faults at once: the lower number is the answer.
    let faults = [
        entries::notice(16, 16, 2, (day.0, 13, day.2), 0),
        notice(16, 16, 2, 0),
        notice(15, 15, 2, 0),
        notice(15, 15, 1, 0),
        notice(1, 1, 1, 5),
    ];
    [accounts.as_flattened(), &units, &flags, &words, &faults].concat()
}

/// A ledger, mostly a new one, whose accounts 0, 3 and 15 are open and have no letter.
fn three(random: &mut Random, date: Date) -> Ledger {
    let mut ledger = ready_ledger(random, date);
    ledger.is_new = !random.one_in(8);
    for place in [0, 3, 15] {
        ledger.accounts[place] = ready_account(random, date);
        // At or over a limit most accounts could move nothing.
        if random.one_in(2) {
            let percent = date.month().minimum() + date.month().maximum();
            let account = &mut ledger.accounts[place];
            account.bank = (percent * account.bcq / 2) as i64;
        }
    }
    ledger
}

/// Pairs that end on a limit, one past it, one before it, in both orders.
fn limits(random: &mut Random, run: &mut Run) -> Same {
    let date = any_date(random);
    let ledger = three(random, date);
    let give = spare(&ledger.accounts[0], date.month());
    let take = room(&ledger.accounts[15], date.month());
    for past in -1..=1 {
        for most in [give, take, give.min(take)] {
            let units = (most + past).clamp(1, MOST.into()) as u64;
            let gives = (0, letter(GIVES, 15, units));
            let takes = (15, letter(TAKES, 0, units));
            pair(random, run, &ledger, [gives, takes])?;
            pair(random, run, &ledger, [takes, gives])?;
        }
    }
    Ok(())
}

type Written = (usize, Notice);

/// The first letter, a closing that is refused, and the second; after a 28 whatever may come then.
fn pair(
    random: &mut Random,
    run: &mut Run,
    ledger: &Ledger,
    [first, second]: [Written; 2],
) -> Same {
    let day = day_of(ledger.date().expect("a date in range"));
    let mut both = Both::of(ledger);
    if random.one_in(4) {
        both.referee.accounts[second.0].notice = letters::unsent(random, second.0);
        both = Both::of(&both.referee);
    }
    both.post(run, &written(first.0, &first.1, day))?;
    let bytes = written(second.0, &second.1, day);
    Both::of(&both.referee).post(run, &entries::close_month(day, [0; 4]))?;
    if both.post(run, &bytes)?.number == 28 {
        after_28(run, &both.referee, [first, second], day)?;
    }
    // Both again, of less, or the same again.
    let again = Notice {
        units: second.1.units.div_ceil(2),
        ..second.1
    };
    both.post(run, &written(second.0, &again, day))?;
    both.post(run, &written(first.0, &counterpart(second.0, &again), day))?;
    both.post(run, &bytes)?;
    Ok(())
}

/// The writer that got 28 is free to write, the other is not; the same letter passes when a trade has made room for it.
fn after_28(run: &mut Run, ledger: &Ledger, [first, second]: [Written; 2], day: Day) -> Same {
    let name = "after 28 to a second letter";
    let another = Notice {
        units: second.1.units ^ 1 | 2,
        ..second.1
    };
    let to_a_third = |letter| Notice { other: 3, ..letter };
    for (column, (writer, letter), expected) in [
        ("another stands", (second.0, another), 0),
        ("one to a third stands", (second.0, to_a_third(second.1)), 0),
        ("other party: 26", (first.0, to_a_third(first.1)), 26),
    ] {
        let bytes = written(writer, &letter, day);
        let number = Both::of(ledger).post(run, &bytes)?.number;
        run.reached.event(name, column, number == expected);
    }
    let mut both = Both::of(ledger);
    let [give, take] = letters::margins(ledger, second.0, &second.1);
    let [giver, taker] = if second.1.takes {
        [first.0, second.0]
    } else {
        [second.0, first.0]
    };
    for (account, flag, margin) in [(giver, 0, give), (taker, 1, take)] {
        if margin < 0 {
            let units = (-margin).clamp(1, MOST.into()) as u32;
            both.post(run, &entries::trade(account as u8, flag, day, units))?;
        }
    }
    let number = both.post(run, &written(second.0, &second.1, day))?.number;
    run.reached.event(name, "the same moves", number == 0);
    Ok(())
}

/// A letter that waits, and answers to it that are each off in one part, or in none.
fn misfits(random: &mut Random, run: &mut Run) -> Same {
    let date = any_date(random);
    let ledger = three(random, date);
    let day = day_of(date);
    let held = letters::between(random, &ledger, 15, 0);
    let fits = counterpart(15, &held);
    let more = (held.units + 1).min(MOST);
    let less = held.units.saturating_sub(1).max(1);
    let further = letters::between(random, &ledger, 0, 15).units;
    let notices = [
        held,
        Notice { other: 3, ..held },
        Notice { other: 15, ..held },
        Notice {
            stands: false,
            ..held
        },
        Notice::default(),
    ];
    for theirs in notices {
        let mut ledger = ledger.clone();
        ledger.accounts[15].notice = theirs;
        for units in [fits.units, more, less, further] {
            for takes in [GIVES, TAKES] {
                let own = letter(takes, 15, units);
                let mut both = Both::of(&ledger);
                both.post(run, &written(0, &own, day))?;
                // Once more: 26 where it stands.
                both.post(run, &written(0, &own, day))?;
                both.post(run, &written(3, &Notice { other: 15, ..fits }, day))?;
            }
        }
    }
    Ok(())
}

/// A day of letters between some accounts, and a transfer now and then, until it is closed.
fn crowd(random: &mut Random, run: &mut Run) -> Same {
    let date = any_date(random);
    let mut ledger = three(random, date);
    for account in &mut ledger.accounts {
        (account.delivered, account.measured, account.metered) = (true, true, true);
    }
    let mut both = Both::of(&ledger);
    for _ in 0..20 {
        let (writer, letter) = letters::next(random, &both.referee);
        both.post(run, &written(writer, &letter, day_of(date)))?;
        if random.one_in(6) {
            let [a, b] = [writer, letter.other].map(|account| account as u8);
            let bytes = entries::transfer(a, b, day_of(date), letter.units as u32);
            both.post(run, &bytes)?;
        }
    }
    both.post(run, &entries::close(date, [3_000; 4]))?;
    Ok(())
}

/// Letters of open accounts and of others at a closing that is accepted, and at one that is refused; the day after, no
/// letter of the day before is met.
fn closings(random: &mut Random, run: &mut Run) -> Same {
    let date = any_date(random);
    let mut ledger = three(random, date);
    for account in &mut ledger.accounts {
        (account.delivered, account.measured, account.metered) = (true, true, true);
    }
    letters::put(random, &mut ledger);
    let held = letters::between(random, &ledger, 15, 0);
    ledger.accounts[15].notice = held;
    for is_new in [false, true] {
        ledger.is_new = is_new;
        let mut refused = ledger.clone();
        refused.accounts[0].delivered = false;
        let closing = entries::close(date, [3_000; 4]);
        Both::of(&refused).post(run, &closing)?;
        let mut both = Both::of(&ledger);
        both.post(run, &closing)?;
        if let Some(next) = both.referee.date() {
            let late = counterpart(15, &held);
            both.post(run, &written(0, &late, day_of(next)))?;
        }
    }
    Ok(())
}

/// A TRANSFER between two letters of its gas, which moves twice.
fn between(random: &mut Random, run: &mut Run) -> Same {
    let years = random.pick(&[(2000, 27), (2026, 1)]);
    let year = years.0 + random.below(years.1);
    let date = Date::new(year, 1 + random.below(12), 1 + random.below(28));
    let date = date.expect("a date that exists");
    let mut ledger = marked(true, date);
    let month = date.month();
    let middle = ((month.minimum() + month.maximum()) * 62_505 / 2) as i64;
    for place in [0, 15] {
        ledger.accounts[place].bank = middle;
    }
    let units = 1 + random.below(90_000);
    let (gives, takes) = (letter(GIVES, 15, units), letter(TAKES, 0, units));
    for (column, [first, second]) in [
        ("giver's first", [(0, gives), (15, takes)]),
        ("taker's first", [(15, takes), (0, gives)]),
    ] {
        let day = day_of(date);
        let mut both = Both::of(&ledger);
        both.post(run, &written(first.0, &first.1, day))?;
        both.post(run, &entries::transfer(0, 15, day, units as u32))?;
        both.post(run, &written(second.0, &second.1, day))?;
        let twice = [0, 15].map(|place| both.referee.accounts[place].bank - middle);
        let moved = 2 * units as i64;
        let name = "gas moved twice, a TRANSFER between letters";
        run.reached.event(name, column, twice == [-moved, moved]);
    }
    Ok(())
}

/// The last days of TRANSFER in a new ledger, the first without, and others far from them.
const ENDS: [(u64, u64, u64); 9] = [
    (2000, 1, 1),
    (2026, 4, 1),
    (2027, 3, 30),
    (2027, 3, 31),
    (2027, 4, 1),
    (2027, 4, 2),
    (2028, 1, 1),
    (2028, 3, 31),
    (2099, 12, 31),
];

/// TRANSFER and pairs of letters around the end of TRANSFER, old and new: within the limits, past them, of accounts not
/// open, of another date, not begun and out of range.
fn ends(random: &mut Random, run: &mut Run) -> Same {
    for (year, month, day) in ENDS {
        let date = Date::new(year, month, day).expect("a date that exists");
        for is_new in [false, true] {
            let mut ledger = marked(is_new, date);
            let middle = date.month().minimum() + date.month().maximum();
            for place in [0, 15] {
                ledger.accounts[place].bank = (middle * 62_505 / 2) as i64;
            }
            transfers(run, &ledger, date)?;
            let units = 1 + random.below(90_000);
            let gives = (0, letter(GIVES, 15, units));
            let takes = (15, letter(TAKES, 0, units));
            pair(random, run, &ledger, [gives, takes])?;
            pair(random, run, &ledger, [takes, gives])?;
        }
    }
    Ok(())
}

fn transfers(run: &mut Run, ledger: &Ledger, date: Date) -> Same {
    let day = day_of(date);
    let late = (2027, 4, 1);
    let early = (2027, 3, 31);
    let (mut unbegun, mut broken) = (ledger.clone(), ledger.clone());
    unbegun.begun = false;
    broken.accounts[7].over = 3;
    for bytes in [
        entries::transfer(0, 15, day, 1),
        entries::transfer(15, 0, day, 1_000),
        entries::transfer(0, 15, day, MOST as u32),
        entries::transfer(0, 3, day, 1),
        entries::transfer(3, 0, day, MOST as u32),
        entries::transfer(0, 15, late, 1),
        entries::transfer(0, 15, early, 1),
        entries::transfer(0, 0, day, 1),
    ] {
        for ledger in [ledger, &unbegun, &broken] {
            Both::of(ledger).post(run, &bytes)?;
        }
    }
    Ok(())
}

/// ENROL of an account that holds a letter or other members, and that is named by a letter.
fn enrolments(random: &mut Random, run: &mut Run) -> Same {
    let date = Date::new(2000 + random.below(100), 4, 1).expect("a date that exists");
    for is_new in [false, true] {
        let mut ledger = marked(is_new, date);
        for held in [letter(GIVES, 0, 5), letters::unsent(random, 3)] {
            ledger.accounts[3] = Account {
                notice: held,
                ..Account::default()
            };
            ledger.accounts[0].notice = letter(TAKES, 3, 5);
            let mut both = Both::of(&ledger);
            both.post(run, &entries::enrol(3, 2, day_of(date), 4_200, 1_000))?;
            let answer = letter(GIVES, 0, 5);
            both.post(run, &written(3, &answer, day_of(date)))?;
        }
    }
    Ok(())
}
