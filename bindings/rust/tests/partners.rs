//! Partner lists through the static library: of the sample's last ledger, and of ledgers that nobody chose, against postings.
use nedrulov::*;

const SAMPLE: &[u8] = include_bytes!("../../../crates/sheets/stdin");

fn sample_ledger() -> Ledger {
    let sections = u16::from_le_bytes([SAMPLE[4], SAMPLE[5]]) as usize;
    let mut ledger = fresh(false);
    for entry in SAMPLE[8 + 8 * sections..].chunks(ENTRY_BYTES) {
        post(&mut ledger, entry);
    }
    ledger
}

fn list(number: u64, listed: &[u64]) -> PartnerList {
    let mut accounts = [0; ACCOUNTS];
    accounts[..listed.len()].copy_from_slice(listed);
    PartnerList { number, count: listed.len() as u64, accounts }
}

/// A TRANSFER on the ledger's day.
fn transfer(ledger: &Ledger, seller: u64, other: u64, quantity: u64) -> Vec<u8> {
    let mut entry = vec![4, seller as u8, other as u8, 0];
    entry.extend_from_slice(&(ledger.date.year as u16).to_le_bytes());
    entry.extend_from_slice(&[ledger.date.month as u8, ledger.date.day as u8]);
    entry.extend_from_slice(&(quantity as u32).to_le_bytes());
    entry.extend_from_slice(&(quantity as u32).to_le_bytes());
    entry.resize(ENTRY_BYTES, 0);
    entry
}

/// The letters of both for the same, the seller's first.
fn letters(ledger: &Ledger, seller: u64, other: u64, quantity: u64) -> [Vec<u8>; 2] {
    [(seller, other, 0), (other, seller, 1)].map(|(writer, other, flag)| {
        let mut entry = transfer(ledger, writer, other, quantity);
        entry[..4].copy_from_slice(&[12, writer as u8, other as u8, flag]);
        entry[12..].fill(0);
        entry
    })
}

#[test]
fn the_sample() {
    let ledger = sample_ledger();
    assert_eq!(partners(ledger, 0, 150_000), list(0, &[2, 1, 3]));
    assert_eq!(partners(ledger, 2, 150_000), list(0, &[1, 3]));
    assert_eq!(partners(ledger, 3, 496_690), list(0, &[]));
    assert_eq!(partners(ledger, u64::MAX, 0), list(4, &[]));
    assert_eq!(partners(ledger, 0, 0), list(6, &[]));
    assert_eq!(partners(ledger, 15, 1), list(24, &[]));
    assert_eq!(partners(fresh(false), 0, 1), list(21, &[]));
    let mut wrong = ledger;
    wrong.accounts[15].bank = i64::MIN;
    assert_eq!(partners(wrong, 0, 1), list(20, &[]));
}

#[test]
fn listed_just_where_a_transfer_or_two_letters_are_accepted() {
    let mut ledger = sample_ledger();
    let mut state = 20_260_401u64;
    let (mut listed, mut left_out) = (0, 0);
    for _ in 0..500 {
        for account in &mut ledger.accounts {
            state = state.wrapping_mul(6_364_136_223_846_793_005).wrapping_add(1_442_695_040_888_963_407);
            account.opened = state >> 60 != 0;
            account.step.k = 1;
            account.step.pending = 1;
            account.capacity.bcq = 62_505;
            account.bank = (state >> 33) as i64 % 1_700_000;
        }
        let (seller, quantity) = (state >> 40 & 15, 1 + (state >> 20) % 300_000);
        let answer = partners(ledger, seller, quantity);
        let accounts = &answer.accounts[..answer.count as usize];
        for other in 0..16 {
            let posted = post_by_value(ledger, &transfer(&ledger, seller, other, quantity));
            let accepted = posted.answer.number == 0;
            assert_eq!(accounts.contains(&other), accepted, "{seller} to {other}, {quantity}");
            // In a new ledger it is retired on this day, 1 April 2027.
            let mut new = Ledger { is_new: true, ..ledger };
            assert_eq!(partners(new, seller, quantity), answer);
            let letters = letters(&new, seller, other, quantity);
            let both = letters.iter().all(|letter| post(&mut new, letter).number == 0);
            assert_eq!(both, accepted, "letters of {seller} and {other}, {quantity}");
            *(if accepted { &mut listed } else { &mut left_out }) += 1;
        }
    }
    assert!(listed > 1_000 && left_out > 1_000, "{listed} listed, {left_out} not");
}
