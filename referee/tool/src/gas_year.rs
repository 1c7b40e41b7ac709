//! Lists of whole gas years: every day delivered and closed, every month measured and metered.
//!
//! The list is made against a referee's ledger, which tells the banks that the next posting has to fit.

use crate::amounts;
use crate::confiscation::{excesses, is_day};
use crate::entries::{self, day_of, Bytes, Day};
use crate::holidays;
use crate::letters;
use crate::random::Random;
use referee::{Account, Date, Ledger, Notice};

/// A posting, and whether it should be accepted.
pub struct Planned {
    pub bytes: Bytes,
    pub valid: bool,
}

/// How a list is made.
#[derive(Clone, Copy)]
pub struct Plan {
    pub first_year: u16,
    pub months: usize,
    pub suppliers: u8,
    /// Forfeits what was confiscated, not all excess.
    pub is_new: bool,
    /// Overdrafts, overfull banks, thresholds, steps up and down, other terms.
    pub wild: bool,
    /// Some trades and transfers one unit past their limit, some CONFISCATED, HOLIDAY and NOTICE where there can be none.
    pub refusals: bool,
    /// Some dates are named, if the ledger is new, and the meters then read on other days.
    pub holidays: bool,
    /// Letters are written, if the ledger is new, and gas then moves by them too.
    pub letters: bool,
}

pub struct Maker<'a> {
    random: &'a mut Random,
    plan: Plan,
    ledger: Ledger,
    list: Vec<Planned>,
}

/// The marked terms, with rates.
pub const TERMS: [u32; 6] = [120_000, 480_000, 5_000_400, 150, 12_550, 32];

/// The list of a plan, from April 1 of its first year.
pub fn make(random: &mut Random, plan: Plan) -> Vec<Planned> {
    let mut maker = Maker {
        random,
        plan,
        ledger: Ledger::fresh(plan.is_new),
        list: Vec::new(),
    };
    maker.begin((plan.first_year, 4, 1));
    let mut months = 0;
    while months < plan.months {
        let Some(date) = maker.ledger.date() else {
            break;
        };
        maker.one_day(date);
        if date.tomorrow().is_none() {
            break;
        }
        months += usize::from(date.is_month_end());
    }
    maker.list
}

impl Maker<'_> {
    fn push(&mut self, bytes: Bytes, valid: bool) {
        referee::post(&mut self.ledger, &bytes);
        self.list.push(Planned { bytes, valid });
    }

    fn begin(&mut self, day: Day) {
        let words = self.terms();
        self.push(entries::terms(day, words), true);
        for account in 0..self.plan.suppliers {
            self.enrol(account, day);
        }
    }

    fn terms(&mut self) -> [u32; 6] {
        let random = &mut *self.random;
        if !self.plan.wild || random.one_in(2) {
            return TERMS;
        }
        let nn = random.between(1_000, 10_000_000);
        let dd = random.between(nn, (nn * 6).min(100_000_000));
        let storage = random.between(nn * 10, nn * 100);
        let retainage = random.pick(&[0, 1, 150, 999, 5_000, 9_999]);
        let rates = [random.below(100_001) as u32, random.below(100_001) as u32];
        [
            nn as u32,
            dd as u32,
            storage as u32,
            retainage,
            rates[0],
            rates[1],
        ]
    }

    fn enrol(&mut self, account: u8, day: Day) {
        let mdq = match self.random.below(4) {
            0 => self.random.between(1_000, 5_999),
            1 => self.random.between(6_000, 300_000),
            _ => self.random.between(6_000, 30_000),
        };
        // BCQ follows from the step and the terms in force.
        let terms = &self.ledger.terms;
        let k = (mdq as u64).div_ceil(3_000);
        let bcq = 3_000 * k * terms.no_notice / terms.design_day * terms.storage / terms.no_notice;
        let most = (25 * bcq).min(1_000_000_000);
        let opening = match self.random.below(4) {
            0 => most,
            _ => self.random.below(most + 1),
        };
        let flags = if mdq < 6_000 { 2 } else { 0 };
        self.push(
            entries::enrol(account, flags, day, mdq as u32, opening as u32),
            true,
        );
    }

    fn one_day(&mut self, date: Date) {
        let day = day_of(date);
        if day.1 == 4 && day.2 == 1 && day.0 != self.plan.first_year {
            let words = self.terms();
            self.push(entries::terms(day, words), true);
        }
        self.name_holidays(date);
        self.confiscate_early(date);
        for account in 0..self.plan.suppliers {
            self.deliver(account, date);
        }
        for _ in 0..self.random.below(3) {
            self.move_gas(date);
        }
        self.write_letters(date);
        for account in 0..self.plan.suppliers {
            if self.ledger.holidays.is_measurement_day(date) {
                let mdq = self.measured(account);
                self.push(entries::measure(account, day, mdq), true);
            }
            // Usage on the last day, or for some accounts earlier.
            if date.is_month_end() && !self.account(account).metered
                || date.day() == 20 && account % 3 == 1
            {
                let mcf = self.random.below(3_000_000) as u32;
                self.push(entries::usage(account, day, mcf), true);
            }
        }
        let prices = [0; 4].map(|_: u32| 2_000 + self.random.below(3_000) as u32);
        let closing = entries::close(date, prices);
        self.confiscate(date, &closing);
        self.confiscate_in_vain(date);
        self.push(closing, date.tomorrow().is_some());
    }

    /// HOLIDAY of dates to come, and of some that are refused.
    fn name_holidays(&mut self, date: Date) {
        // No draw at all, so that a race's list is the same as it was before this kind.
        if !self.plan.holidays {
            return;
        }
        if self.random.one_in(5) {
            let words = match self.random.below(3) {
                0 => holidays::hostile(self.random, &self.ledger),
                _ => holidays::ahead(self.random, date),
            };
            self.name(date, words);
        }
        // Some days in a row from the 25th on, now and then all that there are.
        if date.day() == 12 && self.random.one_in(3) {
            let days = holidays::weekdays(date.year(), date.month().number());
            let count = 1 + self.random.below(days.len() as u64) as usize;
            for &day in &days[..count] {
                self.name(date, holidays::words_of(day));
            }
        }
    }

    fn name(&mut self, date: Date, words: holidays::Words) {
        let valid = self.plan.is_new && holidays::would_pass(&self.ledger, words);
        if valid || self.plan.refusals {
            self.push(entries::holiday(day_of(date), words), valid);
        }
    }

    /// CONFISCATED before the day's deliveries, when nobody can know the excess.
    fn confiscate_early(&mut self, date: Date) {
        for account in 0..self.plan.suppliers {
            if self.plan.is_new && is_day(date) && self.random.one_in(6) {
                let most = 20 * self.account(account).bcq;
                let units = self.random.below(most + 1) as u32;
                self.push(entries::confiscated(account, day_of(date), units), true);
            }
        }
    }

    /// CONFISCATED at the excess and beside it for some, none for others.
    fn confiscate(&mut self, date: Date, closing: &Bytes) {
        if !self.plan.is_new || !is_day(date) {
            return;
        }
        let excesses = excesses(&self.ledger, closing);
        for (account, excess) in (0..self.plan.suppliers).zip(excesses) {
            let units = amounts::confiscated(self.random, excess);
            if let Some(units) = units.filter(|_| !self.account(account).confiscated) {
                self.push(entries::confiscated(account, day_of(date), units), true);
            }
        }
    }

    /// CONFISCATED in an old ledger, on another day, of an account not open, or a second one.
    fn confiscate_in_vain(&mut self, date: Date) {
        // No draw at all, so that a race's list is the same as it was before this kind.
        if !self.plan.refusals {
            return;
        }
        let (tries, chance) = if is_day(date) { (4, 2) } else { (1, 60) };
        for _ in 0..tries {
            let place = self.random.below(16) as u8;
            let account = self.account(place);
            let fits = self.plan.is_new && is_day(date);
            let would_pass = fits && account.opened && !account.confiscated;
            if !would_pass && self.random.one_in(chance) {
                let units = self.random.below(1_000_001) as u32;
                self.push(entries::confiscated(place, day_of(date), units), false);
            }
        }
    }

    fn account(&self, account: u8) -> &Account {
        &self.ledger.accounts[usize::from(account)]
    }

    fn deliver(&mut self, place: u8, date: Date) {
        let account = *self.account(place);
        let amount = if self.plan.wild && self.random.one_in(5) {
            amounts::special(self.random, &account, date)
        } else {
            amounts::planned(self.random, &account, date)
        };
        let gross = amounts::before_retainage(amount, self.ledger.terms.retainage);
        let load = match self.random.below(8) {
            0 => (100 * account.mdq as i64 + self.random.between(-1, 1)).max(0),
            _ => self.random.between(0, 60 * account.mdq as i64),
        };
        let (delivered, back_cast) = amounts::words(gross, load);
        self.push(
            entries::deliver(place, day_of(date), delivered, back_cast),
            true,
        );
    }

    /// Letters that fit those of the day, nearly fit or stand alone; in an old ledger in vain.
    fn write_letters(&mut self, date: Date) {
        let Plan {
            is_new,
            letters,
            refusals,
            ..
        } = self.plan;
        // No draw at all, so that a race's list is the same as it was before this kind.
        let tries = match (is_new && letters, letters && refusals) {
            (true, _) => self.random.below(4) / 2,
            (false, true) => u64::from(self.random.one_in(30)),
            (false, false) => 0,
        };
        for _ in 0..tries {
            let (writer, letter) = letters::next(self.random, &self.ledger);
            self.write(date, writer, letter);
        }
    }

    /// NOTICE, if it is accepted or a refusal is meant.
    fn write(&mut self, date: Date, writer: usize, letter: Notice) {
        if writer == letter.other {
            return;
        }
        let valid = self.plan.is_new && letters::would_pass(&self.ledger, writer, &letter);
        if valid || self.plan.refusals {
            self.push(letters::written(writer, &letter, day_of(date)), valid);
        }
    }

    /// A transfer: by a TRANSFER, which may be retired, or in a new ledger by two letters.
    fn transfer(&mut self, date: Date, parties: [u8; 2], units: u32, valid: bool) {
        let Plan {
            is_new,
            letters,
            refusals,
            ..
        } = self.plan;
        let bytes = entries::transfer(parties[0], parties[1], day_of(date), units);
        let retired = letters::is_retired(is_new, date.year(), date.month().number());
        // An old ledger makes no draw here either.
        let by_letters = is_new && letters && (retired || self.random.one_in(2));
        if !retired && !by_letters {
            self.push(bytes, valid);
        } else if retired && refusals && self.random.one_in(4) {
            self.push(bytes, false);
        }
        if by_letters {
            self.write_both(date, parties, units);
        }
    }

    /// The letters of both parties, in either order.
    fn write_both(&mut self, date: Date, [giver, taker]: [u8; 2], units: u32) {
        let [giver, taker] = [giver, taker].map(usize::from);
        let mut letters = [
            (giver, letters::letter(letters::GIVES, taker, units.into())),
            (taker, letters::letter(letters::TAKES, giver, units.into())),
        ];
        if self.random.one_in(2) {
            letters.reverse();
        }
        for (writer, letter) in letters {
            self.write(date, writer, letter);
        }
    }

    /// A trade or a transfer within its limits, at equality now and then, or one past.
    fn move_gas(&mut self, date: Date) {
        let (a, b) = (self.any_account(), self.any_account());
        let give = |account: &Account| account.bank - (date.month().minimum() * account.bcq) as i64;
        let take = |account: &Account| (date.month().maximum() * account.bcq) as i64 - account.bank;
        let kind = self.random.below(3);
        let (giver, taker) = (self.account(a), self.account(b));
        let most = match kind {
            0 => take(giver),
            1 => give(giver),
            _ => give(giver).min(take(taker)),
        };
        let most = most.clamp(0, 1_000_000_000);
        let past = self.plan.refusals && self.random.one_in(6) && most < 1_000_000_000;
        let units = match self.random.below(3) {
            _ if past => most + 1,
            0 => most,
            _ => self.random.between(0, most / 10),
        };
        if units == 0 || kind == 2 && a == b {
            return;
        }
        let (day, units) = (day_of(date), units as u32);
        match kind {
            2 => self.transfer(date, [a, b], units, !past),
            flag => self.push(entries::trade(a, flag as u8, day, units), !past),
        }
    }

    fn any_account(&mut self) -> u8 {
        self.random.below(self.plan.suppliers.into()) as u8
    }

    /// A measurement that keeps the step, or (wild) one at its edges.
    fn measured(&mut self, account: u8) -> u32 {
        let k = self.account(account).k as i64;
        let edges = amounts::measurements(k);
        let mdq = if self.plan.wild && self.random.one_in(2) {
            self.random.pick(&edges)
        } else {
            self.random.between(3_000 * k - 2_999, 3_000 * k)
        };
        mdq.clamp(0, 300_000) as u32
    }
}

#[cfg(test)]
mod tests {
    use super::*;
    use crate::confiscation::KIND;
    use std::collections::{BTreeMap, BTreeSet};

    const CALM: Plan = Plan {
        first_year: 2023,
        months: 12,
        suppliers: 4,
        is_new: false,
        wild: false,
        refusals: false,
        holidays: false,
        letters: true,
    };

    /// The numbers that CONFISCATED gets, HOLIDAY, all others and NOTICE, each with how often.
    fn holds(plan: Plan, seed: u64) -> [BTreeMap<u64, usize>; 4] {
        let mut ledger = Ledger::fresh(plan.is_new);
        let mut numbers = [const { BTreeMap::new() }; 4];
        for planned in make(&mut Random::new(seed), plan) {
            let number = referee::post(&mut ledger, &planned.bytes).number;
            assert_eq!(number == 0, planned.valid, "{number} {:?}", planned.bytes);
            let place = match planned.bytes[0] {
                KIND => 0,
                holidays::KIND => 1,
                letters::KIND => 3,
                _ => 2,
            };
            *numbers[place].entry(number).or_default() += 1;
        }
        numbers
    }

    fn refused(numbers: &BTreeMap<u64, usize>) -> usize {
        let refused = numbers.iter().filter(|(number, _)| **number != 0);
        refused.map(|(_, count)| count).sum()
    }

    #[test]
    fn a_calm_year_is_accepted() {
        let mut accepted = [0; 2];
        for seed in 0..20 {
            let (is_new, holidays) = (seed % 2 == 0, seed % 4 < 2);
            let plan = Plan {
                is_new,
                holidays,
                ..CALM
            };
            let numbers = holds(plan, seed);
            assert!(numbers[2][&0] > 366 * 5);
            assert_eq!(numbers.iter().map(refused).sum::<usize>(), 0);
            for (kind, sum) in accepted.iter_mut().enumerate() {
                let count = numbers[kind].get(&0).copied().unwrap_or(0);
                assert!(count == 0 || is_new && (holidays || kind == 0));
                *sum += count;
            }
        }
        assert!(accepted[0] > 20 && accepted[1] > 100, "{accepted:?}");
    }

    #[test]
    fn a_wild_year_is_accepted_but_for_what_is_meant() {
        let mut meant = 0;
        for seed in 0..60 {
            let plan = Plan {
                first_year: 2000 + seed as u16,
                suppliers: 1 + (seed % 16) as u8,
                is_new: seed % 3 == 0,
                wild: true,
                refusals: seed % 2 == 0,
                holidays: seed % 4 < 2,
                letters: seed % 8 < 4,
                ..CALM
            };
            let numbers = holds(plan, seed);
            assert!(plan.refusals || numbers.iter().map(refused).sum::<usize>() == 0);
            meant += refused(&numbers[2]);
        }
        assert!(meant > 0);
    }

    /// The numbers that years with meant refusals meet: of CONFISCATED, of HOLIDAY, of all others or of NOTICE.
    fn met(plan: Plan, part: usize) -> Vec<u64> {
        let years = (0..20).map(|seed| holds(plan, seed));
        let numbers: BTreeMap<u64, usize> = years.flat_map(|parts| parts[part].clone()).collect();
        numbers.into_keys().collect()
    }

    /// An old ledger answers 2 alone; a new one accepts, and refuses CONFISCATED by 23, 24 and 26, HOLIDAY by 33 to 35,
    /// NOTICE by 24, 26 and 28.
    #[test]
    fn later_kinds_are_refused_where_it_is_meant() {
        let refused = Plan {
            refusals: true,
            ..CALM
        };
        for is_new in [false, true] {
            let plain = Plan { is_new, ..refused };
            let named = Plan {
                holidays: true,
                ..plain
            };
            let meant = |new: &'static [u64]| if is_new { new } else { &[2] };
            assert_eq!(met(plain, 0), meant(&[0, 23, 24, 26]));
            assert_eq!(met(named, 1), meant(&[0, 33, 34, 35]));
            assert_eq!(met(plain, 3), meant(&[0, 24, 26, 28]));
        }
    }

    /// From its April on a new ledger's gas is transferred by letters alone, if by them; an old one's never is.
    #[test]
    fn transfers_are_retired() {
        let by = |is_new, letters| {
            let plan = Plan {
                first_year: 2026,
                months: 24,
                is_new,
                letters,
                ..CALM
            };
            let years = (0..20).flat_map(|seed| make(&mut Random::new(seed), plan));
            let kinds = years.map(|planned| (planned.bytes[0], is_late(&planned.bytes)));
            let kinds = kinds.filter(|(kind, _)| matches!(*kind, 4 | letters::KIND));
            kinds.collect::<BTreeSet<_>>()
        };
        assert!(by(false, true).into_iter().eq([(4, false), (4, true)]));
        assert!(by(true, false).into_iter().eq([(4, false)]));
        let both = [(4, false), (12, false), (12, true)];
        assert!(by(true, true).into_iter().eq(both));
    }

    /// On 1 April 2027 or later.
    fn is_late(bytes: &Bytes) -> bool {
        (u16::from_le_bytes([bytes[4], bytes[5]]), bytes[6]) >= (2027, 4)
    }

    /// Meters are read once a month, on days that holidays move: past the 27th too.
    #[test]
    fn measurements_move() {
        let mut days = BTreeMap::new();
        for seed in 0..20 {
            let plan = Plan {
                is_new: true,
                suppliers: 1,
                holidays: true,
                ..CALM
            };
            let list = make(&mut Random::new(seed), plan);
            let measured = list.iter().filter(|planned| planned.bytes[0] == 6);
            let on: Vec<u8> = measured.map(|planned| planned.bytes[7]).collect();
            assert_eq!(on.len(), 12);
            for day in on {
                *days.entry(day).or_insert(0) += 1;
            }
        }
        assert!(days.into_keys().eq(25..=31));
    }

    /// The amounts of a few years lie on all sides of the excess, and at it.
    #[test]
    fn amounts_lie_around_the_excess() {
        let mut sides = BTreeMap::new();
        for seed in 0..20 {
            let plan = Plan {
                is_new: true,
                ..CALM
            };
            let mut ledger = Ledger::fresh(true);
            for planned in make(&mut Random::new(seed), plan) {
                if planned.bytes[0] == 9 && ledger.date().is_some_and(is_day) {
                    let all = excesses(&ledger, &planned.bytes);
                    for (account, excess) in ledger.accounts[..4].iter().zip(all) {
                        let side = account.confiscation.cmp(&excess);
                        *sides.entry((ledger.month, side)).or_insert(0) += 1;
                    }
                }
                referee::post(&mut ledger, &planned.bytes);
            }
        }
        assert_eq!(sides.len(), 6, "{sides:?}");
    }

    /// The lists that the race has always run: its times compare with earlier ones.
    #[test]
    fn a_race_runs_the_same_list() {
        for (suppliers, years, entries) in [(4, 1, 2_202), (16, 1, 6_909), (4, 10, 22_237)] {
            let plan = Plan {
                first_year: 2026,
                months: 12 * years,
                suppliers,
                ..CALM
            };
            assert_eq!(make(&mut Random::new(1), plan).len(), entries);
        }
    }

    #[test]
    fn the_last_year_ends_with_a_refusal() {
        let plan = Plan {
            first_year: 2099,
            suppliers: 2,
            wild: true,
            ..CALM
        };
        let [own, _, others, _] = holds(plan, 7);
        assert_eq!((refused(&own), refused(&others)), (0, 1));
    }
}
