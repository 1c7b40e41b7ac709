//! Letters for a transfer through the static library.
use nedrulov::*;

const GIVES: u8 = 0;
const TAKES: u8 = 1;
const NONE: Notice = Notice { stands: false, takes: false, other: 0, units: 0 };

fn entry(kind: u8, accounts: [u8; 2], flag: u8, today: Date, words: [u32; 2]) -> Vec<u8> {
    let mut entry = vec![kind, accounts[0], accounts[1], flag];
    entry.extend_from_slice(&(today.year as u16).to_le_bytes());
    entry.extend_from_slice(&[today.month as u8, today.day as u8]);
    words.iter().for_each(|word| entry.extend_from_slice(&word.to_le_bytes()));
    entry.resize(ENTRY_BYTES, 0);
    entry
}

/// NOTICE of the first account to the second, on the ledger's day.
fn notice(ledger: &Ledger, accounts: [u8; 2], flag: u8, units: u32) -> Vec<u8> {
    entry(12, accounts, flag, ledger.date, [units, 0])
}

fn transfer(ledger: &Ledger, accounts: [u8; 2], units: u32) -> Vec<u8> {
    entry(4, accounts, 0, ledger.date, [units, units])
}

/// A ledger at that day whose accounts 3 and 5 are open, with 1,000 and 7 units of gas.
fn two(is_new: bool, year: u64, month: u64, day: u64) -> Ledger {
    let mut ledger = fresh(is_new);
    ledger.begun = true;
    ledger.date = Date { year, month, day };
    ledger.terms = Terms { no_notice: 1, design_day: 1, storage: 1, ..Terms::default() };
    for (account, bank) in [(3, 1_000), (5, 7)] {
        let account = &mut ledger.accounts[account];
        account.opened = true;
        account.bank = bank;
        account.step = Step { k: 1, pending: 1, ..Step::default() };
        account.capacity.bcq = 62_505;
    }
    ledger
}

fn letters(ledger: &Ledger) -> [Notice; 2] {
    [3, 5].map(|account| ledger.accounts[account].today.notice)
}

fn banks(ledger: &Ledger) -> [i64; 2] {
    [3, 5].map(|account| ledger.accounts[account].bank)
}

#[test]
fn two_letters_move_the_gas() {
    for takes_first in [false, true] {
        let mut ledger = two(true, 2030, 4, 2);
        let gives = notice(&ledger, [3, 5], GIVES, 300);
        let takes = notice(&ledger, [5, 3], TAKES, 300);
        let waiting = Notice { stands: true, takes: takes_first, other: if takes_first { 3 } else { 5 }, units: 300 };
        let ([first, second], stand) =
            if takes_first { ([takes, gives], [NONE, waiting]) } else { ([gives, takes], [waiting, NONE]) };
        assert_eq!(post(&mut ledger, &first).number, 0);
        assert_eq!((letters(&ledger), banks(&ledger)), (stand, [1_000, 7]));
        assert_eq!(post(&mut ledger, &first).number, 26);
        assert_eq!(post(&mut ledger, &second).number, 0);
        assert_eq!((letters(&ledger), banks(&ledger)), ([NONE; 2], [700, 307]));
    }
}

#[test]
fn a_pair_past_its_limit() {
    let mut ledger = two(true, 2026, 4, 2);
    let (gives, takes) = (notice(&ledger, [3, 5], GIVES, 1_001), notice(&ledger, [5, 3], TAKES, 1_001));
    assert_eq!(post(&mut ledger, &takes).number, 0);
    let before = ledger;
    assert_eq!(post(&mut ledger, &gives), Answer { number: 28, reports: [Report::default(); ACCOUNTS] });
    assert_eq!(ledger, before);
    ledger.accounts[3].bank += 1;
    assert_eq!(post(&mut ledger, &gives).number, 0);
    assert_eq!((letters(&ledger), banks(&ledger)), ([NONE; 2], [0, 1_008]));
}

#[test]
fn old_ledgers_know_no_notice() {
    let mut ledger = two(false, 2026, 4, 2);
    let letter = notice(&ledger, [3, 5], GIVES, 300);
    assert_eq!((entry_number(false, &letter), entry_number(true, &letter)), (2, 0));
    assert_eq!(post(&mut ledger, &letter).number, 2);
    assert_eq!(entry_number(true, &notice(&ledger, [3, 3], GIVES, 300)), 7);
}

#[test]
fn where_transfer_is_retired() {
    for (is_new, year, month, day, number) in [
        (true, 2027, 3, 31, 0),
        (true, 2027, 4, 1, 36),
        (true, 2099, 12, 31, 36),
        (false, 2027, 4, 1, 0),
        (false, 2099, 4, 1, 0),
    ] {
        let mut ledger = two(is_new, year, month, day);
        // Above March's minimum, and December's.
        ledger.accounts[3].bank = 80 * 62_505;
        let transfer = transfer(&ledger, [3, 5], 300);
        assert_eq!(entry_number(is_new, &transfer), 0);
        assert_eq!(post(&mut ledger, &transfer).number, number, "{is_new}, {year}-{month}-{day}");
    }
}

#[test]
fn a_closing_clears_letters_of_open_accounts() {
    for is_new in [false, true] {
        let mut ledger = two(is_new, 2030, 4, 2);
        let held = Notice { stands: true, takes: true, other: 15, units: 1_000_000_000 };
        for account in [3, 5, 9] {
            ledger.accounts[account].today.notice = held;
            ledger.accounts[account].today.delivered = true;
        }
        ledger.accounts[5].today.notice.stands = false;
        let closing = entry(8, [0; 2], 0, ledger.date, [0; 2]);
        assert_eq!(post(&mut ledger, &closing).number, 0);
        assert_eq!((letters(&ledger), ledger.accounts[9].today.notice), ([NONE; 2], held));
    }
}

#[test]
fn letters_out_of_range() {
    let sound = two(true, 2030, 4, 2);
    for (other, units, number) in [
        (0, 1, 0),
        (15, 1_000_000_000, 0),
        (16, 1, 20),
        (usize::MAX, 1, 20),
        (0, 0, 20),
        (0, 1_000_000_001, 20),
        (0, u64::MAX, 20),
    ] {
        for account in [5, 15] {
            let mut ledger = sound;
            ledger.accounts[account].today.notice = Notice { stands: true, takes: false, other, units };
            assert_eq!(panel(ledger).number, number);
            ledger.accounts[account].today.notice.stands = false;
            assert_eq!(panel(ledger).number, 0);
        }
    }
}
