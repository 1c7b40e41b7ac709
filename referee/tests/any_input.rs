//! Any ledger and any bytes: no panic, refusals move nothing, accepted
//! postings leave every number in its range. Any list: the sums hold.

mod common;

use common::*;
use referee::{
    check, entry_number, measurement_day, panel, panel_line, post, replay, section, write,
    year_sheet, Account, Answer, Date, Entry, Holidays, Ledger, Named, Notice, Posting, Terms,
};

/// Around the ends of a range, inside it, or rarely anywhere.
fn unsigned(random: &mut Random, low: u64, high: u64) -> u64 {
    match random.below(400) {
        0 => random.next(),
        1 => high + 1,
        2 => low.wrapping_sub(1),
        3..60 => low,
        60..120 => high,
        120..160 => high - 1,
        _ => low + random.below(high - low + 1),
    }
}

fn signed(random: &mut Random, low: i64, high: i64) -> i64 {
    match random.below(400) {
        0 => random.next() as i64,
        1 => high + 1,
        2 => low - 1,
        3..30 => low,
        30..60 => high,
        60..160 => 0,
        160..220 => -(random.below(100) as i64),
        _ => low + random.below((high - low) as u64 + 1) as i64,
    }
}

const BIG: u64 = 100_000_000_000;

fn any_account(random: &mut Random) -> Account {
    let mut bool = |in_many| random.chance(in_many);
    let mut account = Account {
        opened: bool(2),
        delivered: !bool(6),
        measured: !bool(6),
        metered: !bool(6),
        v1: bool(4),
        v2: bool(4),
        confiscated: bool(3),
        excused: bool(3),
        ..Account::default()
    };
    if !account.opened && random.chance(2) {
        return account;
    }
    account.mdq = unsigned(random, 0, 300_000);
    account.k = unsigned(random, 1, 100);
    account.pending = unsigned(random, 1, 100);
    account.over = unsigned(random, 0, 2);
    account.under = unsigned(random, 0, 2);
    account.mddq = unsigned(random, 0, 300_000);
    account.bcq = unsigned(random, 0, 30_000_000);
    account.bank = if random.chance(2) {
        (random.below(120) * account.bcq.min(30_000_000)) as i64
    } else {
        signed(random, -1_000_000_000, BIG as i64)
    };
    account.net = signed(random, -(BIG as i64), BIG as i64);
    account.sales = unsigned(random, 0, BIG);
    account.purchases = unsigned(random, 0, BIG);
    account.cash_ins = unsigned(random, 0, BIG);
    account.cash_outs = unsigned(random, 0, BIG);
    account.usage = unsigned(random, 0, 100_000_000);
    account.carry = unsigned(random, 0, BIG);
    account.owed = signed(random, -1_000_000_000_000_000, 1_000_000_000_000_000);
    account.violation_days = unsigned(random, 0, 40_000);
    account.confiscation = unsigned(random, 0, 1_000_000_000);
    account.notice = any_notice(random);
    account
}

/// Most often none; for some with members that mean nothing.
fn any_notice(random: &mut Random) -> Notice {
    Notice {
        stands: random.chance(3),
        takes: random.chance(2),
        other: unsigned(random, 0, 15) as usize,
        units: unsigned(random, 1, 1_000_000_000),
    }
}

/// Terms like the marked ones, or at the ends of their ranges.
fn any_terms(random: &mut Random) -> Terms {
    let nn = unsigned(random, 1, 10_000_000).clamp(1, 10_000_000);
    Terms {
        no_notice: nn,
        design_day: unsigned(random, nn, 100_000_000),
        storage: unsigned(random, nn, 100 * nn),
        retainage: unsigned(random, 0, 9_999),
        demand_rate: unsigned(random, 0, 100_000),
        commodity_rate: unsigned(random, 0, 100_000),
    }
}

fn any_day(random: &mut Random) -> Day {
    let year = random.pick(&[2000, 2023, 2024, 2026, 2098, 2099]);
    let month = 1 + random.below(12) as u8;
    let day = random.pick(&[1, 1, 10, 25, 26, 27, 28, 29, 30, 30, 30, 31, 31, 31]);
    if random.chance(3) {
        (year, 4, 1)
    } else if random.chance(6) {
        (year, random.pick(&[1, 3]), 31)
    } else {
        (year, month, day)
    }
}

/// A date around that day, often from the 25th on; now and then no date.
fn near(random: &mut Random, day: Day) -> [u64; 3] {
    if random.chance(30) {
        return std::array::from_fn(|_| random.next() >> random.below(64));
    }
    let month = u64::from(day.1) + random.pick(&[0, 0, 1, 11]);
    let year = u64::from(day.0) + month / 13;
    let from_25 = 25 + random.below(7);
    let around = u64::from(day.2) + random.below(3);
    let any = 1 + random.below(31);
    let month = if month > 12 { month - 12 } else { month };
    [year, month, random.pick(&[from_25, from_25, around, any])]
}

/// None, some, all sixteen, or more than a ledger can hold; past the count
/// anything.
fn any_holidays(random: &mut Random, day: Day) -> Holidays {
    let mut list = Holidays::default();
    if random.chance(2) {
        return list;
    }
    list.count = random.pick(&[0, 1, 2, 3, 15, 16, 16]);
    if random.chance(60) {
        list.count = random.pick(&[17, 1 << 32, u64::MAX]);
    }
    let count = list.count.min(16) as usize;
    for (place, date) in list.dates.iter_mut().enumerate() {
        let [year, month, day] = near(random, day);
        *date = Named { year, month, day };
        // Few that are no dates, so that most lists are in range.
        if place < count && date.date().is_none() && !random.chance(20) {
            let (year, month) = (2000 + random.below(100), 1 + random.below(12));
            *date = Named { year, month, day };
            date.day = 1;
        }
    }
    list
}

fn any_ledger(random: &mut Random, day: Day) -> Ledger {
    let mut ledger = Ledger::fresh(random.chance(2));
    ledger.begun = !random.chance(10);
    ledger.touched = random.chance(2);
    ledger.terms = any_terms(random);
    (ledger.year, ledger.month, ledger.day) = (day.0.into(), day.1.into(), day.2.into());
    if random.chance(20) {
        ledger.year = random.next();
        ledger.month = random.next() >> random.below(64);
        ledger.day = random.next() >> random.below(64);
    }
    ledger.holidays = any_holidays(random, day);
    // Few accounts, so that some ledgers are in range and ready to close.
    for _ in 0..random.below(4) {
        let place = random.below(16) as usize;
        ledger.accounts[place] = any_account(random);
    }
    ledger
}

fn any_words(random: &mut Random, highs: [u64; 6]) -> [u32; 6] {
    highs.map(|high| match random.below(60) {
        0 => random.next() as u32,
        1 => high as u32 + 1,
        2..20 => high as u32,
        20..40 => random.below(3).min(high) as u32,
        _ => random.below(high + 1) as u32,
    })
}

fn any_entry(random: &mut Random, day: Day, accounts: u64) -> Bytes {
    if random.chance(40) {
        return std::array::from_fn(|_| random.next() as u8);
    }
    let kind = random.below(14) as u8;
    let mut a = random.below(accounts) as u8;
    let mut b = random.below(accounts) as u8;
    let mut flags = 0;
    const UNITS: u64 = 1_000_000_000;
    let mut words = match kind {
        1 => {
            a = 0;
            let t = any_terms(random);
            [
                t.no_notice,
                t.design_day,
                t.storage,
                t.retainage,
                t.demand_rate,
                t.commodity_rate,
            ]
            .map(|word| word as u32)
        }
        2 => any_words(random, [300_000, UNITS, 0, 0, 0, 0]),
        3 => any_words(random, [UNITS, UNITS, 0, 0, 0, 0]),
        4 => any_words(random, [UNITS, UNITS, 0, 0, 0, 0]),
        5 => any_words(random, [UNITS, 0, 0, 0, 0, 0]),
        6 => any_words(random, [300_000, 0, 0, 0, 0, 0]),
        7 => any_words(random, [100_000_000, 0, 0, 0, 0, 0]),
        9 => any_words(random, [100_000, 100_000, 100_000, 100_000, 0, 0]),
        10 => any_words(random, [UNITS, 0, 0, 0, 0, 0]),
        11 => {
            let [year, month, day] = near(random, day).map(|number| number as u32);
            [year, month, day, 0, 0, 0]
        }
        12 => any_words(random, [UNITS, 0, 0, 0, 0, 0]),
        _ => [0; 6],
    };
    match kind {
        2 => flags = random.below(4) as u8,
        4 if !random.chance(8) => words[1] = words[0],
        5 | 12 => flags = random.below(2) as u8,
        8 | 9 | 11 => a = 0,
        _ => {}
    }
    if !matches!(kind, 4 | 12) {
        b = 0;
    }
    let mut bytes = entry(kind, a, b, flags, day, words);
    if random.chance(60) {
        bytes[random.below(32) as usize] ^= 1 << random.below(8);
    }
    bytes
}

/// What the party that a standing letter names may write to its writer: the
/// counterpart, or a letter that is not quite it.
fn reply(random: &mut Random, ledger: &Ledger, day: Day) -> Option<Bytes> {
    let start = random.below(16) as usize;
    let places = (0..16).map(|step| (start + step) % 16);
    let standing = |&place: &usize| ledger.accounts[place].notice.stands;
    let to = places.into_iter().find(standing)?;
    let held = ledger.accounts[to].notice;
    let mut bytes = notice(
        held.other as u8,
        to as u8,
        u8::from(!held.takes),
        day,
        held.units as u32,
    );
    if random.chance(6) {
        // The writer, the side or the lowest byte of the units.
        let place = random.pick(&[1, 3, 8]);
        bytes[place] ^= 1;
    }
    Some(bytes)
}

/// Two open accounts, and a letter between them of less than would break the
/// limits, of just so much, or of more.
fn with_a_letter(random: &mut Random, ledger: &mut Ledger) {
    let [a, b] = random.pick(&[[0, 1], [1, 0], [15, 3], [7, 15]]);
    let Some(date) = ledger.date() else { return };
    let (minimum, maximum) = (date.month().minimum(), date.month().maximum());
    for place in [a, b] {
        let account = &mut ledger.accounts[place];
        *account = Account {
            bank: ((minimum + maximum) / 2 * 62_505) as i64,
            ..marked_account()
        };
    }
    let room = ((maximum - minimum) / 2 * 62_505).max(1);
    let units = random.pick(&[1, room / 2 + 1, room, room + 1, 1_000_000_000]);
    ledger.accounts[a].notice = letter(random.below(2) as u8, b, units);
}

/// HOLIDAY of a business day of this year's last month, all others of which
/// from the 25th on the ledger comes to hold.
fn last_business_day(random: &mut Random, ledger: &mut Ledger, day: Day) -> Bytes {
    let dates = (25..=31).filter_map(|day_of_month| {
        let date = Date::new(day.0.into(), 12, day_of_month)?;
        date.is_weekday().then_some((day.0, 12, date.day() as u8))
    });
    let mut dates: Vec<Day> = dates.collect();
    let last = dates.swap_remove(random.below(dates.len() as u64) as usize);
    ledger.holidays = held(&dates);
    holiday(day, last)
}

#[test]
fn any_ledger_and_any_bytes() {
    let mut random = Random::new(1);
    let mut seen = [0_u64; 37];
    let mut differ = 0;
    let mut fates = Fates::default();
    for _ in 0..200_000 {
        let day = any_day(&mut random);
        let mut ledger = any_ledger(&mut random, day);
        let mut bytes = any_entry(&mut random, day, 16);
        if random.chance(20) {
            with_a_letter(&mut random, &mut ledger);
            bytes = reply(&mut random, &ledger, day).unwrap_or(bytes);
        } else if random.chance(100) {
            bytes = last_business_day(&mut random, &mut ledger, day);
        }
        let before = ledger.clone();
        let in_range = panel(&before).0 == 0;
        let answer = post_checked(&mut ledger, &bytes);
        seen[answer.number as usize] += 1;
        match answer.number {
            0 => {
                assert_eq!(ledger.is_new, before.is_new);
                assert_eq!(ledger.holidays, list_after(&before, &bytes));
                let letters = ledger.accounts.map(|account| account.notice);
                assert_eq!(letters, letters_after(&before, &bytes, &mut fates));
                assert!(in_range && panel(&ledger).0 == 0);
                let (_, figure) = panel(&ledger);
                assert_eq!(figure, figure_after(&before, &bytes, &answer));
            }
            1..=7 => assert_eq!(answer.number, entry_number(before.is_new, &bytes)),
            20 => assert!(!in_range),
            33..=35 => assert!(in_range && bytes[0] == 11),
            36 => assert!(in_range && bytes[0] == 4 && is_retired(&before)),
            _ => assert!(in_range && (21..=29).contains(&answer.number)),
        }
        differ += u64::from(old_and_new_differ(&before, &bytes));
    }
    assert!(differ > 0);
    assert!(fates.moved > 100 && fates.stood > 100 && fates.cleared > 100);
    for (number, times) in seen.iter().enumerate() {
        // A whole entry is never 1, and 8 to 19 and 30 to 32 are not for
        // postings.
        if matches!(number, 0 | 2..=7 | 20..=29 | 33..) {
            assert!(*times > 0, "{number} never came: {seen:?}");
        } else {
            assert_eq!(*times, 0, "{number}");
        }
    }
}

/// The list that an accepted entry must leave, place by place.
fn list_after(before: &Ledger, bytes: &[u8]) -> Holidays {
    let mut list = before.holidays;
    let mut dates: Vec<Named> = list.dates[..list.count as usize].to_vec();
    match decoded(before.is_new, bytes) {
        Posting::Holiday(named) => dates.push(named),
        Posting::CloseMonth(_) => {
            // The first of the next month, by its numbers.
            let next = 12 * before.year + before.month + 1;
            dates.retain(|date| 12 * date.year + date.month >= next);
        }
        _ => return list,
    }
    list.count = dates.len() as u64;
    dates.resize(16, Named::default());
    list.dates.copy_from_slice(&dates);
    list
}

/// What became of letters.
#[derive(Default)]
struct Fates {
    moved: u64,
    stood: u64,
    cleared: u64,
}

/// The letters that an accepted entry must leave, account by account.
fn letters_after(before: &Ledger, bytes: &[u8], fates: &mut Fates) -> [Notice; 16] {
    let mut letters = before.accounts.map(|account| account.notice);
    match decoded(before.is_new, bytes) {
        Posting::Enrol { account, .. } => letters[account] = Notice::default(),
        Posting::CloseDay | Posting::CloseMonth(_) => {
            for (notice, account) in letters.iter_mut().zip(&before.accounts) {
                if account.opened {
                    fates.cleared += u64::from(notice.stands);
                    *notice = Notice::default();
                }
            }
        }
        Posting::Notice { writer, letter } => {
            let counterpart = Notice {
                takes: !letter.takes,
                other: writer,
                ..letter
            };
            if letters[letter.other] == counterpart {
                letters[letter.other] = Notice::default();
                fates.moved += 1;
            } else {
                letters[writer] = letter;
                fates.stood += 1;
            }
        }
        _ => {}
    }
    letters
}

/// New, and on 1 April 2027 or later.
fn is_retired(ledger: &Ledger) -> bool {
    ledger.is_new && (ledger.year, ledger.month) >= (2027, 4)
}

/// Whether the forfeits of old and new are two; else only the later kinds and
/// a retired TRANSFER may make a difference between the same ledger as an old
/// and as a new one.
fn old_and_new_differ(before: &Ledger, bytes: &Bytes) -> bool {
    let [old, new] = [false, true].map(|is_new| {
        let mut ledger = told(is_new, before.clone());
        let answer = post_checked(&mut ledger, bytes);
        (answer, ledger)
    });
    if matches!(bytes[0], 10..=12) {
        assert_eq!(old.0.number, 2);
        assert_eq!(old.1, told(false, before.clone()));
        return false;
    }
    if new.0.number == 36 {
        assert!(matches!(old.0.number, 0 | 24 | 28));
        return false;
    }
    let forfeits = [old.0, new.0].map(|answer| answer.reports.map(|report| report.forfeit));
    for ((old, new), account) in forfeits[0].iter().zip(forfeits[1]).zip(&before.accounts) {
        assert_eq!(new, *old.min(&account.confiscation));
    }
    assert_eq!(without_forfeits(old), without_forfeits(new));
    forfeits[0] != forfeits[1]
}

/// As if nothing were forfeited, in an old ledger.
fn without_forfeits((mut answer, mut ledger): (Answer, Ledger)) -> (Answer, Ledger) {
    for (report, account) in answer.reports.iter_mut().zip(&mut ledger.accounts) {
        account.bank += report.forfeit as i64;
        report.forfeit = 0;
    }
    (answer, told(false, ledger))
}

/// The panel's figure that an accepted entry must leave.
fn figure_after(before: &Ledger, bytes: &[u8], answer: &Answer) -> i64 {
    let (_, figure) = panel(before);
    let moved = match decoded(before.is_new, bytes) {
        Posting::Enrol { opening, .. } => opening as i64,
        Posting::Deliver {
            delivered,
            back_cast,
            ..
        } => rounded_amount(delivered, back_cast, before.terms.retainage),
        Posting::Sale { units, .. } => units as i64,
        Posting::Purchase { units, .. } => -(units as i64),
        _ => 0,
    };
    let closed: i64 = answer
        .reports
        .iter()
        .map(|report| report.cash - report.forfeit as i64)
        .sum();
    figure + moved + closed
}

/// Toward zero, by the size of the difference.
fn rounded_amount(delivered: u64, back_cast: u64, retainage: u64) -> i64 {
    let size = (delivered.abs_diff(back_cast) * (10_000 - retainage) / 10_000) as i64;
    if delivered < back_cast {
        -size
    } else {
        size
    }
}

/// What the entries and answers of a list say of one account.
#[derive(Clone, Copy, Default)]
struct Sums {
    bank: i64,
    owed: i64,
    violation_days: u64,
    /// What CONFISCATED posted since the last closing.
    posted: u64,
}

/// A list that mostly follows its ledger, day by day, with random entries
/// between.
fn any_list(is_new: bool, random: &mut Random, days: u64) -> Vec<Bytes> {
    let mut ledger = Ledger::fresh(is_new);
    let mut list = Vec::new();
    let year = random.pick(&[2000, 2026, 2027, 2097]);
    let mut say = |ledger: &mut Ledger, bytes: Bytes| {
        list.push(bytes);
        post(ledger, &bytes).number
    };
    say(&mut ledger, terms((year, 4, 1), 5, 7));
    for a in 0..4 {
        let mdq = 1_000 + random.below(30_000) as u32;
        say(
            &mut ledger,
            enrol(a, 2, (year, 4, 1), mdq, random.below(1_000_000) as u32),
        );
    }
    for _ in 0..days {
        let Some(date) = ledger.date() else { break };
        let day = (ledger.year as u16, ledger.month as u8, ledger.day as u8);
        if date.is(referee::Month::APRIL, 1) {
            let nn = 100_000 + random.below(100_000) as u32;
            let words = [nn, 480_000, 40 * nn, random.below(1_000) as u32, 5, 7];
            say(&mut ledger, entry(1, 0, 0, 0, day, words));
        }
        for _ in 0..random.below(3) {
            let bytes = any_entry(random, day, 6);
            say(&mut ledger, bytes);
        }
        if random.chance(6) {
            let words = near(random, day).map(|number| number as u32);
            say(&mut ledger, holiday_words(day, words));
        }
        for a in 0..16 {
            let account = ledger.accounts[usize::from(a)];
            if !account.opened {
                continue;
            }
            // Toward the middle of what the month allows, sometimes far off.
            let bcq = account.bcq as i64;
            let p = date.month().minimum() + date.month().maximum();
            let aim = if random.chance(10) {
                random.below(140) as i64 * bcq - 10 * bcq
            } else {
                p as i64 * bcq / 2
            };
            let step = (aim - account.bank) / (1 + random.below(20) as i64);
            let step = step.clamp(-900_000_000, 900_000_000);
            let common = random.below(50_000_000) as u32;
            let bytes = deliver(
                a,
                day,
                common + step.max(0) as u32,
                common + (-step).max(0) as u32,
            );
            say(&mut ledger, bytes);
            if random.chance(8) {
                let bytes = trade(
                    a,
                    random.below(2) as u8,
                    day,
                    1 + random.below(100_000) as u32,
                );
                say(&mut ledger, bytes);
            }
            if random.chance(8) {
                let to = random.below(5) as u8;
                let bytes = transfer(a, to, day, 1 + random.below(100_000) as u32);
                say(&mut ledger, bytes);
            }
            if random.chance(8) {
                let (to, flag) = (random.below(5) as u8, random.below(2) as u8);
                let bytes = notice(a, to, flag, day, 1 + random.below(100_000) as u32);
                say(&mut ledger, bytes);
            }
            if let Some(bytes) = reply(random, &ledger, day).filter(|_| random.chance(4)) {
                say(&mut ledger, bytes);
            }
            if ledger.holidays.is_measurement_day(date) {
                let m = (account.mdq + random.below(3_000)).saturating_sub(1_400);
                say(&mut ledger, measure(a, day, m.min(300_000) as u32));
            }
            if date.is_month_end() {
                say(&mut ledger, usage(a, day, random.below(100_000) as u32));
            }
            // Refused on most month's ends, and in an old ledger.
            if date.is_month_end() && !random.chance(4) {
                let bytes = confiscated(a, day, random.below(8_000_000) as u32);
                say(&mut ledger, bytes);
            }
        }
        let bytes = if date.is_month_end() {
            let prices = [0; 4].map(|_: u32| 1_000 + random.below(5_000) as u32);
            close_month(day, prices)
        } else {
            close_day(day)
        };
        say(&mut ledger, bytes);
    }
    list
}

#[test]
fn any_list_adds_up() {
    for is_new in [false, true] {
        let mut seen = Seen::default();
        for seed in 1..=12 {
            list_adds_up(is_new, seed, &mut seen);
        }
        // The lists come to every violation and to a forfeit; in new ledgers
        // to one of all the excess, of a part of it, and of none.
        assert_eq!(seen.masks, 255);
        assert!(seen.whole > 0);
        assert_eq!(seen.part > 0, is_new);
        assert_eq!(seen.none > 0, is_new);
        // Meters are read later where holidays make them.
        assert_eq!(seen.moved > 0, is_new);
        assert_eq!(seen.full > 0, is_new);
        // Gas moves by two letters, and some letters wait in vain.
        assert_eq!(seen.moved_by_letters > 0, is_new);
        assert_eq!(seen.in_vain > 0, is_new);
    }
}

/// What the lists have come to: violations, how much of an excess was
/// forfeited, measurements on a moved day, ledgers with sixteen holidays,
/// pairs of letters, and letters that a closing emptied.
#[derive(Default)]
struct Seen {
    masks: u64,
    whole: u64,
    part: u64,
    none: u64,
    moved: u64,
    full: u64,
    moved_by_letters: u64,
    in_vain: u64,
}

fn list_adds_up(is_new: bool, seed: u64, seen: &mut Seen) {
    let mut random = Random::new(seed);
    let list = any_list(is_new, &mut random, 800);
    let mut ledger = Ledger::fresh(is_new);
    let mut struck = Ledger::fresh(is_new);
    let mut sums = [Sums::default(); 16];
    let mut named = Vec::new();
    let mut waiting = Vec::new();
    let mut retainage = 0;
    let mut accepted = 0;
    for bytes in &list {
        let answer = post_checked(&mut ledger, bytes);
        if answer.number != 0 {
            continue;
        }
        accepted += 1;
        assert_eq!(post(&mut struck, bytes), answer);
        see_holidays(&mut named, bytes, &ledger, seen);
        add_letter(&mut sums, &mut waiting, decoded(is_new, bytes), seen);
        letters_stand(&waiting, &ledger);
        add_posting(&mut sums, decoded(is_new, bytes), &mut retainage);
        for ((sum, report), account) in sums.iter_mut().zip(&answer.reports).zip(&ledger.accounts) {
            if let Some(p) = forfeits_above(bytes) {
                see_forfeit(is_new, report.forfeit, sum.posted, account, p, seen);
            } else {
                assert_eq!(report.forfeit, 0);
            }
            sum.bank += report.cash - report.forfeit as i64;
            sum.owed += report.bill;
            sum.violation_days += u64::from(report.mask != 0);
            if matches!(bytes[0], 8 | 9) {
                sum.posted = 0;
            }
            assert_eq!(sum.posted, account.confiscation);
            seen.masks |= report.mask;
        }
    }
    sums_hold(&sums, &ledger);
    assert_eq!(struck, ledger);
    assert!(accepted > 2_000, "{accepted}");
    archives_alike(is_new, &list, &ledger, accepted);
}

/// The dates named by the list so far, from its accepted entries alone, and
/// the ledger after one of them.
fn see_holidays(named: &mut Vec<[u64; 3]>, bytes: &Bytes, after: &Ledger, seen: &mut Seen) {
    match decoded(after.is_new, bytes) {
        Posting::Holiday(date) => named.push([date.year, date.month, date.day]),
        Posting::CloseMonth(_) => named.retain(|date| *date >= [after.year, after.month, 1]),
        Posting::Measure { .. } => {
            let none = Ledger::fresh(true);
            let plain = measurement_day(&none, after.year, after.month);
            let own = measurement_day(after, after.year, after.month);
            assert_eq!(own, after.day);
            seen.moved += u64::from(own != plain);
        }
        _ => {}
    }
    seen.full += u64::from(named.len() == 16);
    let mut places = [[0; 3]; 16];
    places[..named.len()].copy_from_slice(named);
    let held = after.holidays.dates.map(|d| [d.year, d.month, d.day]);
    assert_eq!(held, places);
    assert_eq!(after.holidays.count, named.len() as u64);
}

/// Writer, other party, whether the writer takes, and the units.
type Letter = (usize, usize, bool, u64);

/// The letters that wait by the list so far, from its accepted entries alone,
/// and what a second letter moves.
fn add_letter(sums: &mut [Sums; 16], waiting: &mut Vec<Letter>, posting: Posting, seen: &mut Seen) {
    match posting {
        Posting::CloseDay | Posting::CloseMonth(_) => {
            seen.in_vain += waiting.len() as u64;
            waiting.clear();
        }
        Posting::Notice { writer, letter } => {
            let (other, takes, units) = (letter.other, letter.takes, letter.units);
            let first = (other, writer, !takes, units);
            let Some(place) = waiting.iter().position(|&letter| letter == first) else {
                waiting.push((writer, other, takes, units));
                return;
            };
            waiting.remove(place);
            let moved = if takes { units as i64 } else { -(units as i64) };
            sums[writer].bank += moved;
            sums[other].bank -= moved;
            seen.moved_by_letters += 1;
        }
        _ => {}
    }
}

/// Those are just the letters in the ledger's accounts, one in each at most.
fn letters_stand(waiting: &[Letter], ledger: &Ledger) {
    let mut letters = [Notice::default(); 16];
    for &(writer, other, takes, units) in waiting {
        assert!(!letters[writer].stands);
        letters[writer] = letter(u8::from(takes), other, units);
    }
    assert_eq!(ledger.accounts.map(|account| account.notice), letters);
}

fn sums_hold(sums: &[Sums; 16], ledger: &Ledger) {
    for (sum, account) in sums.iter().zip(&ledger.accounts) {
        assert_eq!(sum.bank, account.bank);
        assert_eq!(sum.owed, account.owed);
        assert_eq!(sum.violation_days, account.violation_days);
    }
    assert_eq!(panel(ledger), (0, sums.iter().map(|sum| sum.bank).sum()));
}

/// What an accepted posting moves in the banks, and what it posts.
fn add_posting(sums: &mut [Sums; 16], posting: Posting, retainage: &mut u64) {
    match posting {
        Posting::Terms(terms) => *retainage = terms.retainage,
        Posting::Enrol {
            account, opening, ..
        } => sums[account].bank += opening as i64,
        Posting::Deliver {
            account,
            delivered,
            back_cast,
        } => sums[account].bank += rounded_amount(delivered, back_cast, *retainage),
        Posting::Transfer {
            giver,
            receiver,
            units,
        } => {
            sums[giver].bank -= units as i64;
            sums[receiver].bank += units as i64;
        }
        Posting::Sale { account, units } => sums[account].bank += units as i64,
        Posting::Purchase { account, units } => sums[account].bank -= units as i64,
        Posting::Confiscated { account, units } => sums[account].posted = units,
        _ => {}
    }
}

/// The percentage of BCQ above which the closing in these bytes forfeits.
fn forfeits_above(bytes: &Bytes) -> Option<i64> {
    match (bytes[0], bytes[6]) {
        (9, 1) => Some(65),
        (9, 3) => Some(25),
        _ => None,
    }
}

/// The forfeit by what the closing has left and by what was posted.
fn see_forfeit(
    is_new: bool,
    forfeit: u64,
    posted: u64,
    account: &Account,
    p: i64,
    seen: &mut Seen,
) {
    let before = account.bank + forfeit as i64;
    let excess = (before - p * account.bcq as i64).max(0) as u64;
    let expected = if is_new { excess.min(posted) } else { excess };
    assert_eq!(forfeit, expected);
    if excess > 0 {
        let count = match forfeit {
            0 => &mut seen.none,
            _ if forfeit == excess => &mut seen.whole,
            _ => &mut seen.part,
        };
        *count += 1;
    }
}

/// The same list by way of an archive, where its bytes allow it.
fn archives_alike(is_new: bool, list: &[Bytes], ledger: &Ledger, accepted: u64) {
    let kept: Vec<Bytes> = list
        .iter()
        .filter(|bytes| entry_number(is_new, *bytes) == 0)
        .copied()
        .collect();
    let kept = kept.concat();
    let mut out = vec![0; 8 + 8 * 1_200 + kept.len()];
    let length = write(is_new, &kept, &mut out).length;
    let again = replay(&out[..length]);
    assert_eq!(again.ledger, *ledger);
    assert_eq!(again.accepted, accepted);
}

#[test]
fn any_archive_bytes() {
    let mut random = Random::new(3);
    for _ in 0..3_000 {
        let is_new = random.chance(2);
        let count = random.below(6);
        let list: Vec<Bytes> = (0..count)
            .map(|_| loop {
                let bytes = any_entry(&mut random, START, 16);
                if Entry::decode(is_new, &bytes).is_ok() {
                    return bytes;
                }
            })
            .collect();
        let list = list.concat();
        let mut out = vec![9; 400];
        let written = write(is_new, &list, &mut out);
        assert_eq!(written.number, 0);
        let mut archive = out[..written.length].to_vec();
        assert!(out[written.length..].iter().all(|&byte| byte == 9));
        assert_eq!(check(&archive), (0, 0));
        let parts: Vec<&[u8]> = (0..usize::from(archive[4]))
            .map(|index| section(&archive, index).unwrap())
            .collect();
        assert_eq!(parts.concat(), list);

        // Spoil it and look that every reader agrees.
        for _ in 0..1 + random.below(3) {
            match random.below(5) {
                0 => archive.truncate(random.below(archive.len() as u64 + 1) as usize),
                1 => archive.push(random.next() as u8),
                2 if archive.len() > 3 => archive[3] = 48 + random.below(4) as u8,
                _ if archive.is_empty() => {}
                _ => {
                    let place = random.below(archive.len() as u64) as usize;
                    archive[place] = random.next() as u8;
                }
            }
        }
        let (number, index) = check(&archive);
        assert!(matches!(number, 0 | 2..=10));
        let all = replay(&archive);
        assert_eq!((all.number, all.index), (number, index));
        assert_eq!(all.ledger.is_new, archive.starts_with(b"EFB2"));
        let _ = year_sheet(&archive, 2026);
        let line = panel_line(&archive);
        if number == 0 {
            assert_eq!(section(&archive, 1_200), Err((13, 0)));
            assert!(!line.starts_with("archive"));
        } else {
            assert_eq!(section(&archive, 0), Err((number, index)));
            assert_eq!(line, format!("archive {number} {index}"));
        }
    }
}
