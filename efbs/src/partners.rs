//! Who can take a seller's gas. The library makes the list; the figures beside it, and why it is empty, are told from
//! the ledger.

use crate::entry::Day;
use crate::rules::Rules;
use crate::shown::gas;
use crate::words::refusal;
use nedrulov::{Ledger, ACCOUNTS};
use std::cmp::Reverse;

/// What was asked and answered, with the ledger's figures.
#[derive(Debug, PartialEq, Eq)]
pub struct Partners {
    pub number: u64,
    /// None where the ledger has none, or cannot be trusted.
    pub date: Option<Day>,
    pub seller: u64,
    /// None where the seller is no open account.
    pub held: Option<Held>,
    pub quantity: u64,
    /// In the library's order.
    pub list: Vec<Partner>,
    /// Why nobody is listed, in words.
    pub why: Option<String>,
}

/// What the seller has, and what it must keep this month.
#[derive(Clone, Copy, Debug, PartialEq, Eq)]
pub struct Held {
    pub bank: i64,
    pub minimum: i64,
}

#[derive(Clone, Copy, Debug, PartialEq, Eq)]
pub struct Partner {
    pub account: usize,
    pub bank: i64,
    /// This month's.
    pub maximum: i64,
    /// What there is between the two before any gas moves; below zero if the bank is above the maximum.
    pub headroom: i64,
}

pub fn partners(ledger: &Ledger, seller: u64, quantity: u64) -> Partners {
    let answer = nedrulov::partners(*ledger, seller, quantity);
    let listed = answer.accounts.iter().take(answer.count as usize);
    let list: Vec<_> = listed
        .map(|account| partner(ledger, *account as usize))
        .collect();
    let trusted = (answer.number != 20).then_some(ledger);
    let held = trusted.and_then(|ledger| held(ledger, seller));
    let why = match (answer.number, held) {
        (0, Some(held)) => list
            .is_empty()
            .then(|| nobody(ledger, seller, held, quantity)),
        (number, _) => Some(refused(ledger, seller, number)),
    };
    Partners {
        number: answer.number,
        date: trusted.and_then(date),
        seller,
        held,
        quantity,
        list,
        why,
    }
}

fn date(ledger: &Ledger) -> Option<Day> {
    ledger.begun.then_some(Day {
        year: ledger.date.year as u16,
        month: ledger.date.month as u8,
        day: ledger.date.day as u8,
    })
}

fn held(ledger: &Ledger, seller: u64) -> Option<Held> {
    let account = ledger.accounts.get(usize::try_from(seller).ok()?)?;
    let band = nedrulov::band(ledger.date.month, account.capacity.bcq);
    account.opened.then_some(Held {
        bank: account.bank,
        minimum: band.minimum as i64,
    })
}

fn partner(ledger: &Ledger, account: usize) -> Partner {
    let held = &ledger.accounts[account];
    let maximum = nedrulov::band(ledger.date.month, held.capacity.bcq).maximum as i64;
    Partner {
        account,
        bank: held.bank,
        maximum,
        headroom: maximum - held.bank,
    }
}

fn open(ledger: &Ledger) -> impl Iterator<Item = usize> + '_ {
    (0..ACCOUNTS).filter(|account| ledger.accounts[*account].opened)
}

/// Why the library lists nobody: too much for the seller to give, nobody else, or too much for any of them to take.
fn nobody(ledger: &Ledger, seller: u64, held: Held, quantity: u64) -> String {
    let most = held.bank - held.minimum;
    if most < quantity as i64 {
        let can = match most {
            1.. => format!("{} Dth at most", gas(most)),
            _ => "nothing".to_string(),
        };
        return format!("the seller would end below the month's minimum; it can sell {can}.");
    }
    let others = open(ledger).filter(|account| *account as u64 != seller);
    let partners = others.map(|account| partner(ledger, account));
    match partners.max_by_key(|other| (other.headroom, Reverse(other.account))) {
        Some(other) => too_little_headroom(other),
        None => "no other account is open.".to_string(),
    }
}

fn too_little_headroom(largest: Partner) -> String {
    let (headroom, account) = (gas(largest.headroom), largest.account);
    let so = match largest.headroom {
        1.. => "",
        _ => ", so that none can take any",
    };
    format!("no other open account has so much headroom; the largest is {headroom} Dth, of account {account}{so}.")
}

/// A refusal in words, and what to do next.
fn refused(ledger: &Ledger, seller: u64, number: u64) -> String {
    // The known words of 24 are about enrolments too.
    let what = match number {
        24 => &format!("account {seller} is not open"),
        _ => refusal(number, Rules::of_ledger(ledger)),
    };
    let next = match number {
        4 => "Name a seller from 0 to 15.",
        6 => "Name a quantity from 0.01 to 10,000,000.00 Dth.",
        21 => "Look with efbs log at what the archive has.",
        24 => &open_ones(ledger),
        _ => "After a replay that must not be: keep the archive and tell the makers.",
    };
    format!("refused with {number}: {what}. {next}")
}

fn open_ones(ledger: &Ledger) -> String {
    let open: Vec<_> = open(ledger).map(|account| account.to_string()).collect();
    match open.is_empty() {
        true => "No account is open: enrol one on a 1 April.".to_string(),
        false => format!("Name a seller that is: {}.", open.join(", ")),
    }
}

#[cfg(test)]
mod tests {
    use super::*;
    use crate::archive::of_list;
    use crate::replay::replay;
    use crate::text;

    const TERMS: &str = "\
2026-04-01 terms no-notice=120000 design-day=480000 storage=5000400 retainage=0.00% demand-rate=12.550 commodity-rate=0.032
";

    /// With a BCQ of 62,505 Dth each, of which April has 25 percent at most, 15,626.25 Dth, and 0 at least.
    fn in_april(banks: &[(usize, &str)]) -> Ledger {
        let enrol = |(account, bank): &(usize, &str)| {
            format!("2026-04-01 enrol account={account} wants-efbs mdq=4200 opening={bank}\n")
        };
        let text = TERMS.to_string() + &banks.iter().map(enrol).collect::<String>();
        let list = text::read(text.as_bytes()).expect("right");
        let archive = of_list(list.rules(), list.bytes()).expect("small");
        replay(&archive, |_| ()).expect("right")
    }

    fn why(ledger: &Ledger, seller: u64, quantity: u64) -> String {
        let found = partners(ledger, seller, quantity);
        assert!(found.list.is_empty());
        found.why.expect("a reason")
    }

    #[test]
    fn figures_stand_beside_the_list() {
        let banks = [
            (1, "9000.00"),
            (4, "15000.00"),
            (7, "12000.00"),
            (15, "12000.00"),
        ];
        let found = partners(&in_april(&banks), 1, 362_625);
        let partner = |account, bank| Partner {
            account,
            bank,
            maximum: 1_562_625,
            headroom: 1_562_625 - bank,
        };
        assert_eq!(
            found,
            Partners {
                number: 0,
                date: "2026-04-01".parse().ok(),
                seller: 1,
                held: Some(Held {
                    bank: 900_000,
                    minimum: 0
                }),
                quantity: 362_625,
                list: vec![partner(7, 1_200_000), partner(15, 1_200_000)],
                why: None,
            }
        );
    }

    #[test]
    fn why_there_is_nobody() {
        let mut three = in_april(&[(1, "15626.25"), (4, "15000.00"), (7, "15000.00")]);
        let room = "no other open account has so much headroom; the largest is";
        let below = "the seller would end below the month's minimum; it can sell";
        assert_eq!(partners(&three, 1, 62_625).list.len(), 2);
        assert_eq!(
            why(&three, 1, 62_626),
            format!("{room} 626.25 Dth, of account 4.")
        );
        assert_eq!(
            why(&three, 4, 1_500_001),
            format!("{below} 15,000.00 Dth at most.")
        );
        three.accounts[4].bank = 1_562_625;
        three.accounts[7].bank = 1_562_626;
        for (seller, told) in [(1, "0.00 Dth, of account 4"), (4, "0.00 Dth, of account 1")] {
            let none = format!("{room} {told}, so that none can take any.");
            assert_eq!(why(&three, seller, 1), none);
        }
        let one = in_april(&[(15, "100.00")]);
        assert_eq!(why(&one, 15, 10_000), "no other account is open.");
        assert_eq!(
            why(&one, 15, 10_001),
            format!("{below} 100.00 Dth at most.")
        );
        assert_eq!(
            why(&in_april(&[(2, "0.00")]), 2, 1),
            format!("{below} nothing.")
        );
    }

    #[test]
    fn refusals_say_what_to_do() {
        let ledger = in_april(&[(0, "100.00"), (3, "0.00")]);
        let mut wrong = ledger;
        wrong.accounts[9].bank = i64::MAX;
        let [fresh, terms] = [nedrulov::fresh(true), in_april(&[])];
        for (ledger, seller, quantity, told) in [
            (&ledger, 16, 1, "4: an account is above 15. Name"),
            (&wrong, u64::MAX, 0, "4: an account is above 15. Name"),
            (&ledger, 0, 0, "6: a value is outside its range. Name"),
            (&wrong, 0, 1_000_000_001, "6: a value is outside"),
            (&wrong, 0, 1, "20: a number in the ledger is outside"),
            (&fresh, 0, 1, "21: the ledger has not begun: the"),
            (&ledger, 1, 1, "24: account 1 is not open. Name a"),
            (&terms, 1, 1, "24: account 1 is not open. No account"),
        ] {
            let why = why(ledger, seller, quantity);
            assert!(why.starts_with(&format!("refused with {told}")), "{why}");
            assert!(why.ends_with('.'), "{why}");
        }
    }

    #[test]
    fn what_makes_no_sense_is_left_out() {
        let ledger = in_april(&[(0, "100.00")]);
        let mut wrong = ledger;
        wrong.accounts[9].bank = i64::MAX;
        let fresh = nedrulov::fresh(false);
        for (ledger, seller, quantity, number, known) in [
            (&ledger, 0, 1, 0, (true, true)),
            (&ledger, 0, 0, 6, (true, true)),
            (&ledger, 16, 1, 4, (true, false)),
            (&ledger, 1, 1, 24, (true, false)),
            (&fresh, 0, 1, 21, (false, false)),
            (&wrong, 0, 1, 20, (false, false)),
        ] {
            let found = partners(ledger, seller, quantity);
            assert_eq!(found.number, number);
            assert_eq!((found.seller, found.quantity), (seller, quantity));
            assert_eq!((found.date.is_some(), found.held.is_some()), known);
        }
    }
}
