//! The partner list: its members, their order and its refusals, by hand and
//! against the postings.

mod common;

use common::*;
use referee::{partners, post, Account, Ledger, PartnerList};

const BCQ: u64 = 62_505;
/// 25 percent of that BCQ, April's maximum.
const APRIL_MAXIMUM: i64 = 1_562_625;
const MOST: u64 = 1_000_000_000;

/// An open account with this bank and the marked BCQ.
fn open(bank: i64) -> Account {
    Account {
        bank,
        ..marked_account()
    }
}

/// April 1, account 0 open with a bank of 1,000,000 and no other.
fn april() -> Ledger {
    let mut ledger = ledger_on(START);
    ledger.accounts[0].bank = 1_000_000;
    ledger
}

/// The listed accounts; what is past them and the number are looked at here.
fn listed(ledger: &Ledger, seller: u64, quantity: u64) -> Vec<u64> {
    let list = partners(ledger, seller, quantity);
    assert_eq!(list.number, 0);
    let (listed, past) = list.accounts.split_at(list.count);
    assert!(past.iter().all(|&account| account == 0));
    listed.to_vec()
}

/// The number of a refusal, whose list is empty.
fn refused(ledger: &Ledger, seller: u64, quantity: u64) -> u64 {
    let list = partners(ledger, seller, quantity);
    let number = list.number;
    assert_ne!(number, 0);
    let empty = PartnerList {
        number,
        count: 0,
        accounts: [0; 16],
    };
    assert_eq!(list, empty);
    number
}

#[test]
fn no_partner() {
    // Nobody else is open.
    let mut ledger = april();
    assert_eq!(listed(&ledger, 0, 1), []);
    // All others are full.
    for place in 1..16 {
        ledger.accounts[place] = open(APRIL_MAXIMUM);
    }
    assert_eq!(listed(&ledger, 0, 1), []);
    // One has one unit to spare.
    ledger.accounts[11].bank -= 1;
    assert_eq!(listed(&ledger, 0, 1), [11]);
    assert_eq!(listed(&ledger, 0, 2), []);
}

#[test]
fn all_fifteen() {
    let mut ledger = april();
    for (place, account) in ledger.accounts.iter_mut().enumerate() {
        // 0, 7,000, 14,000, 5,000, 12,000, 3,000, 10,000, 1,000, and so on.
        *account = open(1_000 * (7 * place as i64 % 16));
    }
    let all = [0, 7, 14, 5, 12, 3, 10, 1, 8, 15, 6, 13, 4, 11, 2, 9];
    for seller in [14, 5, 9, 15] {
        let mut others = all.to_vec();
        others.retain(|&account| account != seller);
        assert_eq!(listed(&ledger, seller, 1_000), others);
    }
    // Account 7 has just the quantity, account 0 has nothing to give.
    assert_eq!(listed(&ledger, 7, 1_000).len(), 15);
    assert_eq!(listed(&ledger, 7, 1_001), []);
    assert_eq!(listed(&ledger, 0, 1), []);
}

#[test]
fn equal_headroom() {
    let mut ledger = april();
    for place in 1..16 {
        ledger.accounts[place] = open(500);
    }
    let all: Vec<u64> = (1..16).collect();
    assert_eq!(listed(&ledger, 0, 1_000), all);
    ledger.accounts[15].bank = 499;
    ledger.accounts[1].bank = 501;
    assert_eq!(listed(&ledger, 0, 1_000)[..2], [15, 2]);
    assert_eq!(listed(&ledger, 0, 1_000)[13..], [14, 1]);
}

#[test]
fn equal_headroom_of_unequal_accounts() {
    let mut ledger = april();
    // 100, 100, 99, 101 and 100 units below the maximum.
    ledger.accounts[3] = open(APRIL_MAXIMUM - 100);
    ledger.accounts[9] = Account {
        bcq: 1_000,
        ..open(24_900)
    };
    ledger.accounts[1] = open(APRIL_MAXIMUM - 99);
    ledger.accounts[12] = Account { bcq: 4, ..open(-1) };
    ledger.accounts[5] = Account {
        bcq: 0,
        ..open(-100)
    };
    assert_eq!(listed(&ledger, 0, 50), [12, 3, 5, 9, 1]);
    assert_eq!(listed(&ledger, 0, 100), [12, 3, 5, 9]);
    // Neither MDDQ nor MDQ nor step tells equals apart.
    ledger.accounts[9].mddq = 300_000;
    ledger.accounts[9].mdq = 300_000;
    ledger.accounts[9].k = 100;
    ledger.accounts[3].mddq = 0;
    assert_eq!(listed(&ledger, 0, 50), [12, 3, 5, 9, 1]);
}

#[test]
fn the_headroom_counts_not_the_bank() {
    let mut ledger = april();
    // 25,000,000 units less 20,000,000, and 1,562,625 less 0.
    ledger.accounts[8] = Account {
        bcq: 1_000_000,
        ..open(20_000_000)
    };
    ledger.accounts[2] = open(0);
    assert_eq!(listed(&ledger, 0, 1_000), [8, 2]);
}

/// The minimum and maximum of January to December, percent.
const BAND: [(u64, u64); 12] = [
    (59, 98),
    (36, 65),
    (18, 45),
    (0, 25),
    (0, 60),
    (14, 60),
    (34, 60),
    (54, 85),
    (75, 85),
    (88, 98),
    (95, 98),
    (78, 98),
];

/// The month's band for the marked BCQ, in units, and a ledger in that month
/// whose seller, account 0, has all of the maximum.
fn month_of(number: u8) -> (i64, i64, Ledger) {
    let (minimum, maximum) = BAND[usize::from(number) - 1];
    let [minimum, maximum] = [minimum, maximum].map(|p| (p * BCQ) as i64);
    let mut ledger = ledger_on((2026, number, 14));
    ledger.accounts[0].bank = maximum;
    (minimum, maximum, ledger)
}

#[test]
fn receivers_around_each_maximum() {
    for month in 1..=12 {
        let (_, maximum, mut ledger) = month_of(month);
        for quantity in [1, 100, 187_515] {
            let exact = maximum - quantity as i64;
            ledger.accounts[2] = open(exact + 1);
            ledger.accounts[6] = open(exact);
            ledger.accounts[4] = open(exact - 1);
            assert_eq!(listed(&ledger, 0, quantity), [4, 6], "{month} {quantity}");
        }
    }
}

#[test]
fn sellers_around_each_minimum() {
    for month in 1..=12 {
        let (minimum, _, mut ledger) = month_of(month);
        ledger.accounts[15] = open(0);
        for quantity in [1, 100, 187_515] {
            let exact = minimum + quantity as i64;
            ledger.accounts[0].bank = exact + 1;
            assert_eq!(listed(&ledger, 0, quantity), [15], "{month} {quantity}");
            ledger.accounts[0].bank = exact;
            assert_eq!(listed(&ledger, 0, quantity), [15], "{month} {quantity}");
            ledger.accounts[0].bank = exact - 1;
            assert_eq!(listed(&ledger, 0, quantity), [], "{month} {quantity}");
        }
    }
}

#[test]
fn the_largest_quantity() {
    // 25 percent of 30,000,000 is 750,000,000.
    let large = |bank| Account {
        bcq: 30_000_000,
        ..open(bank)
    };
    let mut ledger = april();
    ledger.accounts[0] = large(1_000_000_000);
    ledger.accounts[1] = large(-250_000_000);
    ledger.accounts[2] = large(-249_999_999);
    ledger.accounts[3] = large(-1_000_000_000);
    ledger.accounts[4] = Account {
        bcq: 0,
        ..open(-1_000_000_000)
    };
    assert_eq!(listed(&ledger, 0, MOST), [3, 1, 4]);
    assert_eq!(listed(&ledger, 0, MOST - 1), [3, 1, 4, 2]);
    ledger.accounts[0].bank -= 1;
    assert_eq!(listed(&ledger, 0, MOST), []);
}

#[test]
fn banks_below_zero_and_below_the_minimum() {
    // November asks for 95 percent of who gives, not of who receives.
    let (minimum, maximum, mut ledger) = month_of(11);
    ledger.accounts[0].bank = minimum + 10;
    ledger.accounts[1] = open(-1);
    ledger.accounts[2] = open(-1_000_000_000);
    ledger.accounts[3] = open(minimum - 11);
    ledger.accounts[4] = open(maximum + 1);
    assert_eq!(listed(&ledger, 0, 10), [2, 1, 3]);
    // Who is below its minimum gives nothing, be it below zero or not.
    for seller in 1..=3 {
        assert_eq!(listed(&ledger, seller, 10), []);
    }
    // Who is above its maximum gives, and may stay above it.
    assert_eq!(listed(&ledger, 4, 1), [2, 1, 3, 0]);
}

#[test]
fn the_seller_is_never_listed() {
    let mut ledger = april();
    ledger.accounts = [open(1_000); 16];
    for seller in 0..16 {
        let others: Vec<u64> = (0..16).filter(|&other| other != seller).collect();
        assert_eq!(listed(&ledger, seller, 1_000), others);
    }
}

#[test]
fn closed_accounts_are_never_listed() {
    let mut ledger = april();
    ledger.accounts[1] = open(500_000);
    for place in 2..16 {
        ledger.accounts[place] = Account {
            opened: false,
            ..open(place as i64 - 8)
        };
    }
    assert_eq!(listed(&ledger, 0, 1), [1]);
    ledger.accounts[9].opened = true;
    assert_eq!(listed(&ledger, 0, 1), [9, 1]);
}

#[test]
fn marks_and_age_play_no_part() {
    let mut ledger = ledger_on((2099, 12, 31));
    ledger.accounts[0].bank = 98 * 62_505;
    ledger.accounts[1] = open(98 * 62_505 - 5);
    ledger.accounts[2] = open(98 * 62_505 - 4);
    ledger.accounts[3] = open(98 * 62_505 - 6);
    assert_eq!(listed(&ledger, 0, 5), [3, 1]);
    for account in &mut ledger.accounts[..4] {
        account.delivered = true;
        account.measured = true;
        account.metered = true;
        account.v1 = true;
        account.v2 = true;
        account.confiscated = true;
        account.confiscation = 7;
        account.excused = true;
    }
    ledger.touched = true;
    for is_new in [false, true] {
        assert_eq!(listed(&told(is_new, ledger.clone()), 0, 5), [3, 1]);
    }
}

#[test]
fn number_4() {
    let mut ledger = april();
    ledger.accounts = [open(1_000); 16];
    for seller in [16, 17, 255, 256, 1 << 32, (1 << 32) + 3, 1 << 63, u64::MAX] {
        assert_eq!(refused(&ledger, seller, 1), 4, "{seller}");
    }
    assert_eq!(listed(&ledger, 15, 1).len(), 15);
}

#[test]
fn number_6() {
    let mut ledger = april();
    ledger.accounts[1] = open(0);
    for quantity in [0, MOST + 1, 1 << 32, (1 << 32) + 1, 1 << 63, u64::MAX] {
        assert_eq!(refused(&ledger, 0, quantity), 6, "{quantity}");
    }
    assert_eq!(listed(&ledger, 0, 1), [1]);
    assert_eq!(listed(&ledger, 0, MOST), []);
}

#[test]
fn number_20() {
    let spoils: [fn(&mut Ledger); 12] = [
        |ledger| ledger.accounts[0].bank = i64::MAX,
        |ledger| ledger.accounts[0].bank = i64::MIN,
        |ledger| ledger.accounts[1].bank = -1_000_000_001,
        |ledger| ledger.accounts[1].bcq = u64::MAX,
        |ledger| ledger.accounts[1].pending = 0,
        // Of an account that is not open, too.
        |ledger| ledger.accounts[15].bank = 100_000_000_001,
        |ledger| ledger.accounts[15].bcq = 30_000_001,
        |ledger| ledger.accounts[15].confiscation = MOST + 1,
        |ledger| ledger.terms.no_notice = 0,
        |ledger| ledger.month = 13,
        |ledger| ledger.day = 31,
        |ledger| ledger.year = 2100,
    ];
    let mut sound = april();
    sound.accounts[1] = open(0);
    for (place, spoil) in spoils.into_iter().enumerate() {
        let mut ledger = sound.clone();
        assert_eq!(listed(&ledger, 0, 1), [1]);
        spoil(&mut ledger);
        for is_new in [false, true] {
            let ledger = told(is_new, ledger.clone());
            assert_eq!(refused(&ledger, 0, 1), 20, "{place}");
            // Before the seller is looked at.
            assert_eq!(refused(&ledger, 7, MOST), 20, "{place}");
        }
    }
    // Steps of an account that is not open are free.
    sound.accounts[15].k = 101;
    assert_eq!(listed(&sound, 0, 1), [1]);
}

#[test]
fn numbers_21_and_24() {
    let mut ledger = april();
    ledger.accounts[1] = open(0);
    for seller in 2..16 {
        assert_eq!(refused(&ledger, seller, 1), 24);
    }
    // Before the seller's minimum, which it would fall below.
    ledger.accounts[7].bank = -5;
    assert_eq!(refused(&ledger, 7, 1), 24);

    ledger.begun = false;
    for seller in 0..16 {
        assert_eq!(refused(&ledger, seller, 1), 21);
        assert_eq!(refused(&Ledger::fresh(false), seller, 1), 21);
        assert_eq!(refused(&Ledger::fresh(true), seller, MOST), 21);
    }
    // Terms and date are free then.
    (ledger.year, ledger.month, ledger.day) = (u64::MAX, 0, 77);
    ledger.terms.design_day = 0;
    assert_eq!(refused(&ledger, 0, 1), 21);
}

#[test]
fn refusals_in_their_order() {
    // Every fault at once, and then one less each time.
    let mut ledger = april();
    ledger.begun = false;
    ledger.accounts[1] = open(0);
    ledger.accounts[9].bank = i64::MIN;
    assert_eq!(refused(&ledger, 16, 0), 4);
    assert_eq!(refused(&ledger, u64::MAX, u64::MAX), 4);
    assert_eq!(refused(&ledger, 5, 0), 6);
    assert_eq!(refused(&ledger, 5, MOST + 1), 6);
    assert_eq!(refused(&ledger, 5, 1), 20);
    ledger.accounts[9].bank = 0;
    assert_eq!(refused(&ledger, 5, 1), 21);
    ledger.begun = true;
    assert_eq!(refused(&ledger, 5, 1), 24);
    ledger.accounts[5] = open(0);
    assert_eq!(listed(&ledger, 5, 1), []);
    ledger.accounts[5].bank = 1;
    assert_eq!(listed(&ledger, 5, 1), [1, 0]);
}

/// Some accounts open, with banks around both limits for that quantity. Few
/// different headrooms, so that some are equal.
fn any_ledger(random: &mut Random, quantity: i64) -> Ledger {
    let month = 1 + random.below(12) as u8;
    let year = random.pick(&[2026, 2026, 2027, 2099]);
    let mut ledger = ledger_on((year, month, 1 + random.below(28) as u8));
    ledger.is_new = random.chance(2);
    ledger.begun = !random.chance(50);
    let (minimum, maximum) = BAND[usize::from(month) - 1];
    let closed = 1 + random.below(20);
    for account in &mut ledger.accounts {
        let bcq = random.pick(&[0, 1, 1_000, BCQ, BCQ, BCQ, 30_000_000]);
        let beside = random.below(5) as i64 - 2;
        let bank = match random.below(8) {
            0 => random.below(100 * bcq + 1) as i64,
            1 => -beside,
            2 | 3 => (minimum * bcq) as i64 + quantity + beside,
            _ => (maximum * bcq) as i64 - quantity + beside,
        };
        *account = Account {
            opened: !random.chance(closed),
            bcq,
            ..open(bank.max(-1_000_000_000))
        };
    }
    if random.chance(50) {
        ledger.accounts[random.below(16) as usize].bank = -1_000_000_001;
    }
    ledger
}

/// A member is whom a TRANSFER of today would reach, where there is one, and
/// whom two letters would reach in a new ledger; none is named twice. Letters
/// of the two stand in no ledger here.
fn is_of_transfers(ledger: &Ledger, list: &PartnerList, seller: u8, quantity: u32) {
    let day = (ledger.year as u16, ledger.month as u8, ledger.day as u8);
    let members = &list.accounts[..list.count];
    let retired = ledger.is_new && day >= (2027, 4, 1);
    for other in 0..16 {
        let times = members.iter().filter(|&&member| member == other.into());
        let times = times.count();
        let single = [transfer(seller, other, day, quantity)];
        let gives = notice(seller, other, GIVES, day, quantity);
        let takes = notice(other, seller, TAKES, day, quantity);
        let mut ways: Vec<&[Bytes]> = Vec::new();
        let pairs = [[gives, takes], [takes, gives]];
        if !retired {
            ways.push(&single);
        }
        if ledger.is_new {
            ways.extend(pairs.iter().map(|pair| &pair[..]));
        }
        for way in ways {
            let mut ledger = ledger.clone();
            let accepted = way.iter().all(|bytes| post(&mut ledger, bytes).number == 0);
            assert_eq!(times, usize::from(accepted), "{other} {way:?}");
        }
    }
}

/// Every neighbour comes after the one before it. Tells of equal headroom.
fn is_in_order(ledger: &Ledger, list: &PartnerList) -> bool {
    let headroom = |account: u64| {
        let account = &ledger.accounts[account as usize];
        (BAND[ledger.month as usize - 1].1 * account.bcq) as i64 - account.bank
    };
    let mut equal = false;
    for pair in list.accounts[..list.count].windows(2) {
        let (first, second) = (headroom(pair[0]), headroom(pair[1]));
        assert!(first > second || first == second && pair[0] < pair[1]);
        equal |= first == second;
    }
    equal
}

#[test]
fn members_are_whom_a_transfer_would_reach() {
    let mut random = Random::new(41);
    let mut counts = [0; 16];
    let mut equal = 0;
    for _ in 0..20_000 {
        let quantity = random.pick(&[1, 2, 3, 1_000, 100_000, 999_999_999, 1_000_000_000]);
        let ledger = any_ledger(&mut random, quantity.into());
        let seller = random.below(16) as u8;
        let list = partners(&ledger, seller.into(), quantity.into());
        assert!(matches!(list.number, 0 | 20 | 21 | 24));
        assert!(list.number == 0 || list.count == 0);
        assert_eq!(list.accounts[list.count..], [0; 16][list.count..]);
        is_of_transfers(&ledger, &list, seller, quantity);
        equal += u64::from(is_in_order(&ledger, &list));
        counts[list.count] += 1;
    }
    // Lists of every length, and equals in many.
    assert!(counts.iter().all(|&count| count > 0), "{counts:?}");
    assert!(equal > 1_000, "{equal}");
}

#[test]
fn any_ledger_seller_and_quantity() {
    let mut random = Random::new(42);
    for _ in 0..20_000 {
        let mut ledger = any_ledger(&mut random, 1);
        for _ in 0..random.below(3) {
            let account = &mut ledger.accounts[random.below(16) as usize];
            match random.below(3) {
                0 => account.bank = random.next() as i64,
                1 => account.bcq = random.next(),
                _ => account.bank = random.pick(&[i64::MIN, i64::MAX]),
            }
        }
        if random.chance(3) {
            ledger.month = random.next() >> random.below(64);
        }
        let seller = random.next() >> random.below(64);
        let quantity = random.next() >> random.below(64);
        let list = partners(&ledger, seller, quantity);
        let number = if seller > 15 {
            4
        } else if quantity == 0 || quantity > MOST {
            6
        } else if !ledger.in_range() {
            20
        } else if !ledger.begun {
            21
        } else if !ledger.accounts[seller as usize].opened {
            24
        } else {
            0
        };
        assert_eq!(list.number, number);
        assert_eq!(list.accounts[list.count..], [0; 16][list.count..]);
        assert!(number == 0 || list.count == 0);
    }
}
