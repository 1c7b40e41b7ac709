//! Cases (g): partner lists by the library, by the referee and, of who is listed, by the library's own postings: by a
//! TRANSFER where it is not retired, and by two letters.

use crate::convert;
use crate::entries::{self, Day};
use crate::gas_year::{make, Plan};
use crate::holidays;
use crate::ledgers::{any_date, any_ledger, ready_account, ready_ledger, set_number, RANGES};
use crate::letters::{self, GIVES, TAKES};
use crate::partner_counts;
use crate::random::Random;
use crate::run::{same, Run, Same};
use referee::{Account, Date, Ledger, PartnerList};

/// The most that a list can be asked for.
pub const MOST: u64 = 1_000_000_000;

/// What both are asked.
pub struct Question {
    pub ledger: Ledger,
    pub seller: u64,
    pub quantity: u64,
}

impl Question {
    fn referee(&self) -> PartnerList {
        referee::partners(&self.ledger, self.seller, self.quantity)
    }

    fn library(&self) -> nedrulov::PartnerList {
        let ledger = convert::to_library(&self.ledger);
        nedrulov::partners(ledger, self.seller, self.quantity)
    }
}

pub fn case(random: &mut Random, run: &mut Run) -> Same {
    for _ in 0..40 {
        let question = placed(random);
        ask(run, "banks at the limits", &question)?;
        let question = spoilt(random, question);
        ask(run, "the same, spoilt", &question)?;
    }
    for _ in 0..20 {
        let question = anything(random);
        ask(run, "any ledger", &question)?;
    }
    if random.seed.is_multiple_of(50) {
        gas_year(random, run)?;
    }
    Ok(())
}

/// The library's answer against the referee's and against postings.
fn ask(run: &mut Run, sort: &'static str, question: &Question) -> Same {
    let numbers = [question.seller, question.quantity].map(u64::to_be_bytes);
    run.holds(Some(&question.ledger), numbers.as_flattened());
    let (list, own) = (question.library(), question.referee());
    same("partner list", &list, &convert::partner_list(&own))?;
    as_transfers(question, &list)?;
    as_letters(run, question, &list)?;
    run.reached.event("asked of", sort, true);
    partner_counts::count(run, question, &own);
    Ok(())
}

/// Whether an entry can hold the seller and the quantity.
fn is_written(question: &Question) -> bool {
    question.seller < 16 && (1..=MOST).contains(&question.quantity)
}

/// A date that no entry holds is cut off here, and its ledger refuses every posting.
fn cut_off(ledger: &Ledger) -> Day {
    (ledger.year as u16, ledger.month as u8, ledger.day as u8)
}

fn times_listed(list: &nedrulov::PartnerList, other: usize) -> usize {
    let listed = &list.accounts[..list.count as usize];
    let times = listed.iter().filter(|&&account| account == other as u64);
    times.count()
}

/// An account is listed, once, just where the library accepts a TRANSFER of the ledger's date to it, as far as an entry
/// can hold the two numbers and it is not retired. That of the seller to itself gets 7.
fn as_transfers(question: &Question, list: &nedrulov::PartnerList) -> Same {
    let Ledger {
        is_new,
        year,
        month,
        ..
    } = question.ledger;
    if !is_written(question) || letters::is_retired(is_new, year, month) {
        return Ok(());
    }
    let ledger = convert::to_library(&question.ledger);
    let day = cut_off(&question.ledger);
    for other in 0..16 {
        let (seller, quantity) = (question.seller as u8, question.quantity as u32);
        let bytes = entries::transfer(seller, other as u8, day, quantity);
        let number = nedrulov::post_by_value(ledger, &bytes).answer.number;
        let times = times_listed(list, other);
        if times != usize::from(number == 0) {
            return Err(format!(
                "account {other} is listed {times} times, and a TRANSFER to it gets {number}"
            ));
        }
    }
    Ok(())
}

/// In a new ledger an account of which no letter stands is listed, once, just where the library accepts the letters of
/// both, one after the other, if the seller has none either. Which is written first goes by the quantity.
fn as_letters(run: &mut Run, question: &Question, list: &nedrulov::PartnerList) -> Same {
    if !is_written(question) || !question.ledger.is_new {
        return Ok(());
    }
    let seller = question.seller as usize;
    let stands = |place: usize| question.ledger.accounts[place].notice.stands;
    run.reached.event(
        "not asked, as a letter stands of",
        "the seller",
        stands(seller),
    );
    if stands(seller) {
        return Ok(());
    }
    let ledger = convert::to_library(&question.ledger);
    for other in 0..16 {
        run.reached.event(
            "not asked, as a letter stands of",
            "the other",
            stands(other),
        );
        if stands(other) {
            continue;
        }
        let accepted = accepts_pair(run, question, ledger, other);
        let times = times_listed(list, other);
        if times != usize::from(accepted) {
            return Err(format!(
                "account {other} is listed {times} times, and its pair of letters accepted: {accepted}"
            ));
        }
    }
    Ok(())
}

/// Whether the library accepts both letters.
fn accepts_pair(
    run: &mut Run,
    question: &Question,
    mut ledger: nedrulov::Ledger,
    other: usize,
) -> bool {
    let Ledger { year, month, .. } = question.ledger;
    let (seller, quantity) = (question.seller as usize, question.quantity);
    let day = cut_off(&question.ledger);
    let gives = letters::written(seller, &letters::letter(GIVES, other, quantity), day);
    let takes = letters::written(other, &letters::letter(TAKES, seller, quantity), day);
    let (order, pair) = if quantity.is_multiple_of(2) {
        ("giver's first", [gives, takes])
    } else {
        ("taker's first", [takes, gives])
    };
    let mut accepts = |bytes: &[u8]| nedrulov::post(&mut ledger, bytes).number == 0;
    let accepted = accepts(&pair[0]) && accepts(&pair[1]);
    let retired = letters::is_retired(true, year, month);
    let day = if retired {
        "without TRANSFER"
    } else {
        "with TRANSFER"
    };
    run.reached
        .event("listed, and the letters move it", order, accepted);
    run.reached
        .event("listed, and the letters move it", day, accepted);
    accepted
}

/// Which of the other accounts have room for the quantity.
#[derive(Clone, Copy)]
enum Room {
    All,
    None,
    Mixed,
}

/// A ledger in range whose banks come to their limits, or end beside them, when that quantity moves. An account that is
/// not open has a bank all the same.
fn placed(random: &mut Random) -> Question {
    let date = any_date(random);
    let mut ledger = ready_ledger(random, date);
    let seller = random.below(16);
    let quantity = valid_quantity(random);
    let room = random.pick(&[Room::All, Room::None, Room::Mixed, Room::Mixed, Room::Mixed]);
    let closed = random.pick(&[1, 2, 4, 16, u64::MAX, u64::MAX]);
    for (place, account) in (0..).zip(&mut ledger.accounts) {
        *account = ready_account(random, date);
        if place == seller {
            account.bank = giver_bank(random, account, date, quantity);
        } else {
            account.bank = taker_bank(random, account, date, quantity, room);
            account.opened = !random.one_in(closed);
        }
    }
    if random.one_in(6) {
        letters::put(random, &mut ledger);
    }
    Question {
        ledger,
        seller,
        quantity,
    }
}

fn valid_quantity(random: &mut Random) -> u64 {
    match random.below(4) {
        0 => random.pick(&[1, 2, MOST - 1, MOST]),
        1 => 1 + random.below(10),
        2 => 1 + random.below(1_000_000),
        _ => 1 + random.below(MOST),
    }
}

/// The minimum after giving, one unit beside it, or more.
fn giver_bank(random: &mut Random, account: &Account, date: Date, quantity: u64) -> i64 {
    let minimum = (date.month().minimum() * account.bcq) as i64;
    let beside = random.pick(&[-1_000, -1, 0, 0, 1, 1, 1_000, 1_000_000]);
    minimum + quantity as i64 + beside
}

/// Few different headrooms, so that some are equal and some one unit apart.
fn taker_bank(
    random: &mut Random,
    account: &Account,
    date: Date,
    quantity: u64,
    room: Room,
) -> i64 {
    let maximum = (date.month().maximum() * account.bcq) as i64;
    let quantity = quantity as i64;
    let headroom = match room {
        Room::All => quantity + random.between(0, 2),
        Room::None => quantity - random.between(1, 2),
        Room::Mixed => match random.below(5) {
            0 => quantity + random.between(-1, 1),
            1 | 2 => 2 * quantity + random.between(0, 1),
            3 => random.between(-1_000_000, 4_000_000_000),
            _ => maximum - account.bank,
        },
    };
    let (low, high) = RANGES[0];
    (maximum - headroom).clamp(low, high)
}

/// The same with up to five faults, one for each number, so that one refusal hides another.
fn spoilt(random: &mut Random, sound: Question) -> Question {
    let mut question = sound;
    let ledger = &mut question.ledger;
    if random.one_in(3) {
        ledger.accounts[question.seller as usize].opened = false;
    }
    if random.one_in(3) {
        ledger.begun = false;
    }
    if random.one_in(3) {
        out_of_range(random, ledger);
    }
    if random.one_in(3) {
        question.quantity = wrong_quantity(random);
    }
    if random.one_in(3) {
        question.seller = wrong_seller(random, question.seller);
    }
    question
}

/// A number of some account, of a letter, of the terms, of the date or of a date held, just past its range or far.
fn out_of_range(random: &mut Random, ledger: &mut Ledger) {
    match random.below(10) {
        0 => ledger.terms.retainage = random.pick(&[10_000, u64::MAX]),
        1 => ledger.month = random.pick(&[0, 13, 256 + ledger.month, u64::MAX]),
        2 => ledger.day = random.pick(&[0, 32, u64::MAX]),
        3 => ledger.year = random.pick(&[1_999, 2_100, 65_536 + ledger.year]),
        4 => {
            let date = any_date(random);
            holidays::spoil(random, &mut ledger.holidays, date);
        }
        5 => letters::spoil(random, ledger),
        _ => {
            let at = random.below(16) as usize;
            let any = random.below(RANGES.len() as u64) as usize;
            let place = random.pick(&[0, 9, any, any]);
            let (low, high) = RANGES[place];
            let value = random.pick(&[low - 1, high + 1, i64::MIN, i64::MAX]);
            set_number(&mut ledger.accounts[at], place, value);
        }
    }
}

/// Some that would pass if their upper bits were lost.
fn wrong_quantity(random: &mut Random) -> u64 {
    let any = random.next().max(MOST + 1);
    let large = random.pick(&[1 << 32, (1 << 32) + 1, (1 << 40) + 1_000, 1 << 63]);
    random.pick(&[0, MOST + 1, large, u64::MAX, any])
}

fn wrong_seller(random: &mut Random, seller: u64) -> u64 {
    let any = random.next().max(16);
    let large = random.pick(&[1 << 4, 1 << 8, 1 << 16, 1 << 32, 1 << 63]) + seller;
    random.pick(&[16, 17, large, large, u64::MAX, any])
}

/// Ledgers as the hostile cases have them; the two numbers mostly as they should be.
fn anything(random: &mut Random) -> Question {
    let ledger = any_ledger(random);
    let mut seller = random.below(16);
    let open = ledger.accounts.iter().position(|account| account.opened);
    if let Some(open) = open.filter(|_| random.one_in(2)) {
        seller = open as u64;
    }
    if random.one_in(16) {
        seller = random.next() >> random.below(64);
    }
    let mut quantity = valid_quantity(random);
    if random.one_in(16) {
        quantity = random.next() >> random.below(64);
    }
    Question {
        ledger,
        seller,
        quantity,
    }
}

/// Ledgers on the way through a gas year, asked for what an account has room for or can spare, and one unit beside.
fn gas_year(random: &mut Random, run: &mut Run) -> Same {
    let plan = Plan {
        first_year: 2000 + random.below(99) as u16,
        months: 12,
        suppliers: 2 + random.below(15) as u8,
        is_new: random.one_in(2),
        wild: random.one_in(2),
        refusals: false,
        holidays: random.one_in(2),
        letters: random.one_in(2),
    };
    let mut ledger = Ledger::fresh(plan.is_new);
    for planned in make(random, plan) {
        referee::post(&mut ledger, &planned.bytes);
        if random.one_in(20) {
            let question = on_the_way(random, &ledger, plan.suppliers.into());
            ask(run, "gas years", &question)?;
        }
    }
    Ok(())
}

fn on_the_way(random: &mut Random, ledger: &Ledger, suppliers: u64) -> Question {
    let (seller, taker) = (random.below(suppliers), random.below(suppliers));
    let [giver, taker] = [seller, taker].map(|place| &ledger.accounts[place as usize]);
    let month = ledger.date().expect("the year has begun").month();
    let room = (month.maximum() * taker.bcq) as i64 - taker.bank;
    let spare = giver.bank - (month.minimum() * giver.bcq) as i64;
    let size = random.pick(&[room, spare, room.min(spare), 1_000]) + random.between(-1, 1);
    Question {
        ledger: ledger.clone(),
        seller,
        quantity: size.clamp(1, MOST as i64) as u64,
    }
}

#[cfg(test)]
mod tests {
    use super::*;
    use referee::Notice;
    use std::collections::BTreeSet;

    #[test]
    fn placed_ledgers_are_answered() {
        let mut random = Random::new(1);
        let mut counts = BTreeSet::new();
        let mut months = BTreeSet::new();
        for _ in 0..8_000 {
            let question = placed(&mut random);
            let list = question.referee();
            assert_eq!(list.number, 0);
            counts.insert(list.count);
            months.insert(question.ledger.month);
        }
        assert!(counts.into_iter().eq(0..16));
        assert!(months.into_iter().eq(1..=12));
    }

    #[test]
    fn spoilt_ones_come_to_every_number() {
        let mut random = Random::new(2);
        let mut numbers = BTreeSet::new();
        for _ in 0..500 {
            let sound = placed(&mut random);
            numbers.insert(spoilt(&mut random, sound).referee().number);
        }
        assert!(numbers.into_iter().eq([0, 4, 6, 20, 21, 24]));
    }

    #[test]
    fn each_fault_is_refused_by_itself() {
        let mut random = Random::new(3);
        for _ in 0..500 {
            let mut question = placed(&mut random);
            let (seller, quantity) = (question.seller, question.quantity);
            question.seller = wrong_seller(&mut random, seller);
            assert_eq!(question.referee().number, 4);
            question.seller = seller;
            question.quantity = wrong_quantity(&mut random);
            assert_eq!(question.referee().number, 6);
            question.quantity = quantity;
            assert_eq!(question.referee().number, 0);
        }
    }

    #[test]
    fn a_wrong_member_is_told_by_postings() {
        let (mut random, mut run) = (Random::new(4), Run::default());
        let mut told = [0; 2];
        for _ in 0..400 {
            let mut question = placed(&mut random);
            for account in &mut question.ledger.accounts {
                account.notice = Notice::default();
            }
            let list = question.library();
            assert_eq!(as_transfers(&question, &list), Ok(()));
            assert_eq!(as_letters(&mut run, &question, &list), Ok(()));
            if list.count == 0 {
                continue;
            }
            let (mut other, mut fewer, mut twice) = (list, list, list);
            other.accounts[0] = question.seller;
            fewer.count -= 1;
            twice.count += 1;
            twice.accounts[list.count as usize] = list.accounts[0];
            for wrong in [other, fewer, twice] {
                let by = [
                    as_transfers(&question, &wrong),
                    as_letters(&mut run, &question, &wrong),
                ];
                assert!(by.iter().any(Result::is_err));
                for (told, by) in told.iter_mut().zip(by) {
                    *told += usize::from(by.is_err());
                }
            }
        }
        assert!(told.iter().all(|&told| told > 150), "{told:?}");
    }
}
