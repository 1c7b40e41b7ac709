//! Confiscated gas: its days, the excess that bounds a forfeit, and counters of what was reached.

use crate::events::{age, month, Events};
use referee::{Account, Answer, Date, Ledger, Report};

pub const KIND: u8 = 10;
/// Bound of the word of CONFISCATED and of the amount in an account.
pub const MOST: u64 = 1_000_000_000;

/// The days whose closing forfeits, and the only ones of CONFISCATED.
pub fn is_day(date: Date) -> bool {
    matches!((date.month().number(), date.day()), (1, 31) | (3, 31))
}

/// What each account has above its share at this closing: the forfeits of the same ledger, were it old.
pub fn excesses(ledger: &Ledger, closing: &[u8]) -> [u64; 16] {
    let mut old = ledger.clone();
    old.is_new = false;
    let answer = referee::post(&mut old, closing);
    answer.reports.map(|report| report.forfeit)
}

/// True of a ledger out of range that is in range without its amounts.
pub fn is_off_by_amount_alone(ledger: &Ledger) -> bool {
    let mut without = ledger.clone();
    for account in &mut without.accounts {
        account.confiscation = 0;
    }
    !ledger.in_range() && without.in_range()
}

/// Counts a posting that passed 1 to 7.
pub fn count(events: &mut Events, bytes: &[u8], before: &Ledger, answer: &Answer, after: &Ledger) {
    let kind = bytes[0];
    match (kind, answer.number) {
        (_, 20) => bad_ledger(events, kind, before),
        (2, 0) => {
            let forgotten = before.accounts[usize::from(bytes[1])].confiscation != 0;
            events.count("amount forgotten by ENROL", age(before.is_new), forgotten);
        }
        (8 | 9, 0) => {
            cleared(events, kind, before, after);
            if before.date().is_some_and(is_day) {
                forfeited(events, bytes, before, answer);
            }
        }
        (8 | 9, 23 | 27 | 29) => kept(events, kind, before),
        (KIND, number) => posted(events, bytes, before, number),
        _ => {}
    }
}

fn bad_ledger(events: &mut Events, kind: u8, before: &Ledger) {
    if !is_off_by_amount_alone(before) {
        return;
    }
    if kind == KIND {
        let mut off = before.accounts.iter().filter(|a| a.confiscation > MOST);
        let column = if off.any(|account| account.opened) {
            "open"
        } else {
            "not open"
        };
        events.count("20 to CONFISCATED by an amount alone", column, true);
    } else {
        let column = age(before.is_new);
        events.count("20 to another kind by an amount alone", column, true);
    }
}

fn posted(events: &mut Events, bytes: &[u8], before: &Ledger, number: u64) {
    let account = &before.accounts[usize::from(bytes[1])];
    let units = u64::from(u32::from_le_bytes([
        bytes[8], bytes[9], bytes[10], bytes[11],
    ]));
    let left = !account.confiscated && account.confiscation != 0;
    let mut count = |name, happened| events.count(name, month(before.month), happened);
    count("CONFISCATED of 0 accepted", number == 0 && units == 0);
    count("CONFISCATED of 10^9 accepted", number == 0 && units == MOST);
    count(
        "CONFISCATED over an amount without its mark",
        number == 0 && left,
    );
    let earlier = account.confiscation;
    count("26 after a CONFISCATED of 0", number == 26 && earlier == 0);
    count(
        "26 after a CONFISCATED of more",
        number == 26 && earlier != 0,
    );
}

fn cleared(events: &mut Events, kind: u8, before: &Ledger, after: &Ledger) {
    let column = age(before.is_new);
    for (old, new) in before.accounts.iter().zip(&after.accounts) {
        let amount = old.confiscation != 0 && new.confiscation == 0;
        events.count("amount cleared by CLOSE DAY", column, amount && kind == 8);
        events.count("amount cleared by CLOSE MONTH", column, amount && kind == 9);
        let mark = old.confiscated && !new.confiscated && old.confiscation == 0;
        events.count("mark with an amount of 0 cleared", column, mark);
        let stays = !old.opened && new.confiscation != 0;
        events.count("amount kept by an account not open", column, stays);
    }
}

/// A refusal leaves the ledger, as every posting compares.
fn kept(events: &mut Events, kind: u8, before: &Ledger) {
    let mut open = before.accounts.iter().filter(|account| account.opened);
    let some = open.any(|account| account.confiscation != 0);
    let column = age(before.is_new);
    events.count(
        "amount kept at a refused CLOSE DAY",
        column,
        some && kind == 8,
    );
    events.count(
        "amount kept at a refused CLOSE MONTH",
        column,
        some && kind == 9,
    );
}

fn forfeited(events: &mut Events, closing: &[u8], before: &Ledger, answer: &Answer) {
    let all = excesses(before, closing);
    let reported = answer.reports.iter().zip(all);
    for (account, (report, excess)) in before.accounts.iter().zip(reported) {
        let mut count = |name, happened| events.count(name, month(before.month), happened);
        match before.is_new {
            _ if !account.opened => {}
            true => by_new_rule(&mut count, account, excess, report),
            false => by_old_rule(&mut count, account, excess, report),
        }
    }
}

type Count<'a> = &'a mut dyn FnMut(&'static str, bool);

fn by_new_rule(count: Count, account: &Account, excess: u64, report: &Report) {
    let (amount, marked) = (account.confiscation, account.confiscated);
    let is_amount = report.forfeit == amount && 0 < amount && amount < excess;
    let is_excess = report.forfeit == excess && 0 < excess && excess < amount;
    let is_both = report.forfeit == excess && 0 < excess && excess == amount;
    let is_none = report.forfeit == 0 && 0 < excess && amount == 0;
    let is_vain = report.forfeit == 0 && 0 == excess && 0 < amount;
    count("new: amount, below the excess", is_amount);
    count(
        "new: amount, 1 below the excess",
        is_amount && amount + 1 == excess,
    );
    count("new: amount and excess, equal", is_both);
    count(
        "new: excess, 1 below the amount",
        is_excess && excess + 1 == amount,
    );
    count("new: excess, below the amount", is_excess);
    count(
        "new: amount without its mark, below the excess",
        is_amount && !marked,
    );
    count("new: 0 with an excess, none posted", is_none && !marked);
    count("new: 0 with an excess, 0 posted", is_none && marked);
    count("new: 0 with an amount, no excess", is_vain);
}

fn by_old_rule(count: Count, account: &Account, excess: u64, report: &Report) {
    let amount = account.confiscation;
    let all = report.forfeit == excess && 0 < excess && 0 < amount;
    count(
        "old: excess, a recorded amount below it",
        all && amount < excess,
    );
    count(
        "old: excess, a recorded amount above it",
        all && amount > excess,
    );
}

#[cfg(test)]
mod tests {
    use super::*;
    use crate::boundaries::marked;
    use crate::entries::{self, day_of};

    fn ready(is_new: bool, month: u64) -> (Ledger, entries::Bytes) {
        let date = Date::new(2026, month, 31).expect("a date that exists");
        let mut ledger = marked(is_new, date);
        for place in [0, 15] {
            let account = &mut ledger.accounts[place];
            (account.delivered, account.measured, account.metered) = (true, true, true);
        }
        ledger.accounts[0].bank = 66 * 62_505;
        ledger.accounts[0].confiscation = 7;
        (ledger, entries::close_month(day_of(date), [3_000; 4]))
    }

    #[test]
    fn the_excess_is_the_same_of_old_and_new() {
        for is_new in [false, true] {
            for (month, excess) in [(1, 62_505), (3, 41 * 62_505), (5, 0)] {
                let (ledger, closing) = ready(is_new, month);
                assert_eq!(excesses(&ledger, &closing)[0], excess);
                assert_eq!(excesses(&ledger, &closing)[1..], [0; 15]);
            }
        }
    }

    #[test]
    fn an_amount_is_told_from_other_faults() {
        let (mut ledger, _) = ready(true, 1);
        assert!(!is_off_by_amount_alone(&ledger));
        ledger.accounts[9].confiscation = MOST + 1;
        assert!(is_off_by_amount_alone(&ledger));
        ledger.accounts[9].bcq = u64::MAX;
        assert!(!is_off_by_amount_alone(&ledger));
    }
}
