//! Letters as ledgers hold them, in range or not, and the entries that meet them, nearly or not at all.

use crate::entries::{self, Bytes, Day};
use crate::random::Random;
use referee::{Account, Ledger, Month, Notice};

pub const KIND: u8 = 12;
/// Bound of the word of NOTICE and of the units in an account.
pub const MOST: u64 = 1_000_000_000;

/// The flag of NOTICE.
pub const GIVES: bool = false;
pub const TAKES: bool = true;

/// Whether TRANSFER is retired in a ledger of that age and month.
pub fn is_retired(is_new: bool, year: u64, month: u64) -> bool {
    is_new && (year, month) >= (2027, 4)
}

/// A letter that stands.
pub fn letter(takes: bool, other: usize, units: u64) -> Notice {
    Notice {
        stands: true,
        takes,
        other,
        units,
    }
}

/// The letter that would fit one of this writer, which its other party has to write.
pub fn counterpart(writer: usize, letter: &Notice) -> Notice {
    Notice {
        stands: true,
        takes: !letter.takes,
        other: writer,
        units: letter.units,
    }
}

/// NOTICE of this letter.
pub fn written(writer: usize, letter: &Notice, day: Day) -> Bytes {
    let flag = u8::from(letter.takes);
    let [a, b] = [writer, letter.other].map(|account| account as u8);
    entries::notice(a, b, flag, day, letter.units as u32)
}

/// Who writes and what, by the bytes of a NOTICE.
pub fn read(bytes: &[u8]) -> (usize, Notice) {
    let [writer, other] = [bytes[1], bytes[2]].map(usize::from);
    (writer, letter(bytes[3] == 1, other, units_of(bytes)))
}

/// The first word.
pub fn units_of(bytes: &[u8]) -> u64 {
    u32::from_le_bytes([bytes[8], bytes[9], bytes[10], bytes[11]]).into()
}

/// Whether the other party's letter is the one that fits.
pub fn meets(ledger: &Ledger, writer: usize, letter: &Notice) -> bool {
    ledger.accounts[letter.other].notice == counterpart(writer, letter)
}

/// What the giver keeps above its minimum and what the taker has left to its maximum, after so many units.
pub fn margins(ledger: &Ledger, writer: usize, letter: &Notice) -> [i128; 2] {
    let (own, theirs) = (&ledger.accounts[writer], &ledger.accounts[letter.other]);
    let (giver, taker) = if letter.takes {
        (theirs, own)
    } else {
        (own, theirs)
    };
    let month = Month::new(ledger.month).expect("a month in range");
    let units = i128::from(letter.units);
    [spare(giver, month) - units, room(taker, month) - units]
}

/// Units above the minimum, of any account: none of its numbers need be in range.
pub fn spare(giver: &Account, month: Month) -> i128 {
    i128::from(giver.bank) - i128::from(month.minimum()) * i128::from(giver.bcq)
}

/// Units up to the maximum, as wide.
pub fn room(taker: &Account, month: Month) -> i128 {
    i128::from(month.maximum()) * i128::from(taker.bcq) - i128::from(taker.bank)
}

/// Whether a new ledger in range accepts this letter on its date.
pub fn would_pass(ledger: &Ledger, writer: usize, letter: &Notice) -> bool {
    let open = [writer, letter.other]
        .iter()
        .all(|&place| ledger.accounts[place].opened);
    let free = !ledger.accounts[writer].notice.stands;
    let fits = || {
        margins(ledger, writer, letter)
            .iter()
            .all(|&left| left >= 0)
    };
    open && free && (!meets(ledger, writer, letter) || fits())
}

/// Units at the limit of one or both, one beside it, few or many.
fn units(random: &mut Random, ledger: &Ledger, parties: [usize; 2]) -> u64 {
    let Some(month) = Month::new(ledger.month) else {
        return 1;
    };
    let [giver, taker] = parties.map(|place| &ledger.accounts[place]);
    let (give, take) = (spare(giver, month), room(taker, month));
    let most = random.pick(&[give, take, give.min(take), give.min(take)]);
    let size = match random.below(4) {
        0 => random.between(1, 1_000).into(),
        1 => most + i128::from(random.between(-1, 1)),
        2 => most / 10,
        _ => random.pick(&[1, 77, 1_000_000, MOST.into()]),
    };
    size.clamp(1, MOST.into()) as u64
}

/// A letter between two accounts, of either side.
pub fn between(random: &mut Random, ledger: &Ledger, writer: usize, other: usize) -> Notice {
    let takes = random.one_in(2);
    let parties = if takes {
        [other, writer]
    } else {
        [writer, other]
    };
    letter(takes, other, units(random, ledger, parties))
}

/// Puts letters that are in range into a ledger: of open accounts to each other, some of them crossing, of accounts not
/// open, and members where none stands.
pub fn put(random: &mut Random, ledger: &mut Ledger) {
    for writer in 0..16 {
        let (often, seldom) = if ledger.accounts[writer].opened {
            (3, 6)
        } else {
            (40, 40)
        };
        if random.one_in(often) {
            let other = any_other(random, ledger, writer);
            let letter = between(random, ledger, writer, other);
            ledger.accounts[writer].notice = letter;
            if random.one_in(8) {
                ledger.accounts[other].notice = counterpart(writer, &letter);
            }
        } else if random.one_in(seldom) {
            ledger.accounts[writer].notice = unsent(random, writer);
        }
    }
}

/// Mostly one that is open, if there is one.
fn any_other(random: &mut Random, ledger: &Ledger, writer: usize) -> usize {
    let start = random.below(16) as usize;
    if random.one_in(8) {
        return start;
    }
    let mut places = (0..16).map(|step| (start + step) % 16);
    let open = places.find(|&place| place != writer && ledger.accounts[place].opened);
    open.unwrap_or(start)
}

/// Members of none that stands: any, or such as would be out of range.
pub fn unsent(random: &mut Random, writer: usize) -> Notice {
    Notice {
        stands: false,
        takes: random.one_in(2),
        other: random.pick(&[0, writer ^ 1, 15, 16, usize::MAX]),
        units: random.pick(&[0, 1, 1_000, MOST, MOST + 1, u64::MAX]),
    }
}

/// What can be wrong with a letter that stands.
#[derive(Clone, Copy)]
pub enum Fault {
    Other,
    NoUnits,
    ManyUnits,
}

pub const FAULTS: [Fault; 3] = [Fault::Other, Fault::NoUnits, Fault::ManyUnits];

/// A letter with just this fault: some that would be in range if their upper bits were lost.
pub fn faulty(random: &mut Random, fault: Fault) -> Notice {
    let mut letter = letter(
        random.one_in(2),
        random.below(16) as usize,
        1 + random.below(MOST),
    );
    let low = random.below(16) as usize;
    let wide = random.pick(&[1 << 4, 1 << 8, 1 << 16, 1 << 32, 1 << 63]) + low;
    match fault {
        Fault::Other => letter.other = random.pick(&[16, 17, 255, wide, usize::MAX]),
        Fault::NoUnits => letter.units = 0,
        Fault::ManyUnits => {
            let large = random.pick(&[1 << 32, (1 << 32) + 1, (1 << 40) + 1_000, u64::MAX]);
            letter.units = random.pick(&[MOST + 1, MOST + 1, large]);
        }
    }
    letter
}

/// One account's letter with one fault.
pub fn spoil(random: &mut Random, ledger: &mut Ledger) {
    let fault = random.pick(&FAULTS);
    let place = random.below(16) as usize;
    ledger.accounts[place].notice = faulty(random, fault);
}

/// A letter that comes next to those that stand: most often the counterpart of one, or nearly it; else any between two
/// accounts, which mostly are open.
pub fn next(random: &mut Random, ledger: &Ledger) -> (usize, Notice) {
    let start = random.below(16) as usize;
    let mut places = (0..16).map(|step| (start + step) % 16);
    let standing = places.find(|&place| ledger.accounts[place].notice.stands);
    match standing.filter(|_| !random.one_in(4)) {
        Some(to) if ledger.accounts[to].notice.other < 16 => near(random, ledger, to),
        _ => {
            let writer = any_other(random, ledger, 16);
            let other = any_other(random, ledger, writer);
            (writer, between(random, ledger, writer, other))
        }
    }
}

/// The counterpart of that account's letter; or off in its quantity, its side or its writer; or a second one of the
/// account itself.
fn near(random: &mut Random, ledger: &Ledger, to: usize) -> (usize, Notice) {
    let held = ledger.accounts[to].notice;
    let mut letter = counterpart(to, &held);
    let writer = held.other;
    match random.below(10) {
        0 => letter.units = letter.units.saturating_add(1),
        1 => letter.units = letter.units.saturating_sub(1).max(1),
        2 => letter.units = between(random, ledger, writer, to).units,
        3 => letter.takes = held.takes,
        4 => return (any_other(random, ledger, to), letter),
        5 => {
            let other = any_other(random, ledger, to);
            return (to, between(random, ledger, to, other));
        }
        _ => {}
    }
    letter.units = letter.units.min(MOST);
    (writer, letter)
}

#[cfg(test)]
mod tests {
    use super::*;
    use crate::ledgers::{any_date, ready_account, ready_ledger};
    use std::collections::BTreeMap;

    #[test]
    fn letters_put_are_in_range() {
        let mut random = Random::new(1);
        let (mut standing, mut crossing, mut unsent) = (0, 0, 0);
        for _ in 0..2_000 {
            let date = any_date(&mut random);
            let mut ledger = ready_ledger(&mut random, date);
            put(&mut random, &mut ledger);
            assert!(ledger.in_range());
            for (place, account) in ledger.accounts.iter().enumerate() {
                let notice = &account.notice;
                standing += usize::from(notice.stands);
                crossing += usize::from(notice.stands && meets(&ledger, place, notice));
                unsent += usize::from(!notice.stands && *notice != Notice::default());
            }
        }
        assert!(standing > 1_000 && crossing > 50 && unsent > 500);
    }

    #[test]
    fn faulty_ones_are_not() {
        let mut random = Random::new(2);
        for round in 0..3_000 {
            let date = any_date(&mut random);
            let mut ledger = ready_ledger(&mut random, date);
            let fault = FAULTS[round % 3];
            let place = random.below(16) as usize;
            ledger.accounts[place].notice = faulty(&mut random, fault);
            assert!(!ledger.in_range());
            // Nor would it be seen if none stood.
            ledger.accounts[place].notice.stands = false;
            assert!(ledger.in_range());
        }
    }

    /// The tool's own judgement of a letter is the referee's, and all its numbers come up.
    #[test]
    fn letters_pass_as_they_should() {
        let mut random = Random::new(3);
        let mut numbers = BTreeMap::new();
        for _ in 0..20_000 {
            let date = any_date(&mut random);
            let mut ledger = ready_ledger(&mut random, date);
            ledger.is_new = true;
            for place in [2, 7] {
                ledger.accounts[place] = ready_account(&mut random, date);
            }
            put(&mut random, &mut ledger);
            let (writer, letter) = next(&mut random, &ledger);
            if writer == letter.other {
                continue;
            }
            let passes = would_pass(&ledger, writer, &letter);
            let moves = meets(&ledger, writer, &letter);
            let bytes = written(writer, &letter, entries::day_of(date));
            assert_eq!(read(&bytes), (writer, letter));
            let number = referee::post(&mut ledger, &bytes).number;
            assert_eq!(number == 0, passes, "{number} {letter:?}");
            *numbers.entry((number, moves)).or_insert(0) += 1;
        }
        let often = |number, moves| numbers.get(&(number, moves)).copied().unwrap_or(0);
        assert!(often(0, true) > 100 && often(0, false) > 100 && often(28, true) > 100);
        assert!(often(26, true) > 10 && often(26, false) > 100 && often(24, false) > 100);
        assert!(numbers
            .keys()
            .all(|(number, _)| matches!(number, 0 | 24 | 26 | 28)));
    }
}
