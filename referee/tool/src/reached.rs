//! Counters of what the comparison reached, so that a quiet run cannot be an empty one.
//!
//! Not reached through this door: number 11 by more than 2^32 - 1 bytes and number 8 by a longer file (either would
//! need 4 GiB; the same numbers by the count of sections are reached), and number 12 of the year sheet (the safe
//! function always lends 192 cells).

use crate::confiscation;
use crate::events::{age, Events};
use crate::holiday_counts;
use crate::holidays::plain_day;
use crate::letter_counts;
use referee::{Account, Answer, Ledger};
use std::collections::BTreeSet;

const NUMBERS: usize = 37;
/// How often each number was answered.
type Counts = [u64; NUMBERS];
/// Of old and of new ledgers or archives.
type ByAge = [Counts; 2];

/// Functions that answer numbers, in the order of `FUNCTIONS`.
#[derive(Clone, Copy)]
pub enum Function {
    EntryNumber,
    Post,
    Panel,
    Check,
    Place,
    Figures,
    Write,
    Partners,
}

/// Functions, with the numbers that each can answer.
const FUNCTIONS: [(&str, &[usize]); 8] = [
    ("entry_number", &[0, 1, 2, 3, 4, 5, 6, 7]),
    (
        "post",
        &[
            0, 1, 2, 3, 4, 5, 6, 7, 20, 21, 22, 23, 24, 25, 26, 27, 28, 29, 33, 34, 35, 36,
        ],
    ),
    ("panel", &[0, 20]),
    ("check", &[0, 2, 3, 4, 5, 6, 7, 8, 9, 10]),
    ("place", &[0, 2, 3, 4, 5, 6, 7, 8, 9, 10, 13]),
    ("figures", &[0, 2, 3, 4, 5, 6, 7, 8, 9, 10]),
    ("write", &[0, 1, 2, 3, 4, 5, 6, 7, 11, 12]),
    ("partners", &[0, 4, 6, 20, 21, 24]),
];

/// The kind, and the months from 2000 to 2099, with one day each where no holiday moves it.
const MEASURE: usize = 6;
const MONTHS: usize = 1_200;

/// The first number that an old ledger never answers: from it on they are of HOLIDAY, and of TRANSFER where it is retired.
const NEW_ONLY: usize = 33;

/// Kinds, with the numbers of the state that each can get; of the last three, with those of the entry too.
const KINDS: [(&str, &[usize]); 12] = [
    ("TERMS", &[0, 20, 22, 23]),
    ("ENROL", &[0, 20, 21, 22, 23, 24, 25, 28]),
    ("DELIVER", &[0, 20, 21, 22, 24, 26, 29]),
    ("TRANSFER", &[0, 20, 21, 22, 24, 28, 36]),
    ("TRADE", &[0, 20, 21, 22, 24, 28, 29]),
    ("MEASURE", &[0, 20, 21, 22, 23, 24, 26]),
    ("USAGE", &[0, 20, 21, 22, 24, 26]),
    ("CLOSE DAY", &[0, 20, 21, 22, 23, 27, 29]),
    ("CLOSE MONTH", &[0, 20, 21, 22, 23, 27, 29]),
    ("CONFISCATED", &[0, 3, 4, 5, 6, 20, 21, 22, 23, 24, 26]),
    ("HOLIDAY", &[0, 3, 5, 20, 21, 22, 33, 34, 35]),
    ("NOTICE", &[0, 3, 4, 5, 6, 7, 20, 21, 22, 24, 26, 28]),
];

/// Of an accepted entry, by its first byte.
pub fn kind_name(kind: u8) -> &'static str {
    KINDS[usize::from(kind) - 1].0
}

/// All that the last three kinds get in an old ledger.
const UNKNOWN: &[usize] = &[2];

const VIOLATIONS: [&str; 8] = ["V1", "V2", "V3", "V4", "V5", "V6", "V7", "V8"];

pub struct Reached {
    functions: [ByAge; FUNCTIONS.len()],
    kinds: [ByAge; KINDS.len()],
    events: Events,
    /// Year and month of every measurement on the day of the calendar alone.
    measured: BTreeSet<(u64, u64)>,
}

impl Default for Reached {
    fn default() -> Reached {
        Reached {
            functions: [[[0; NUMBERS]; 2]; FUNCTIONS.len()],
            kinds: [[[0; NUMBERS]; 2]; KINDS.len()],
            events: Events::default(),
            measured: BTreeSet::new(),
        }
    }
}

impl Reached {
    pub fn answered(&mut self, function: Function, is_new: bool, number: u64) {
        self.functions[function as usize][usize::from(is_new)][number as usize] += 1;
    }

    pub fn event(&mut self, name: &'static str, column: &'static str, happened: bool) {
        self.events.count(name, column, happened);
    }

    pub fn panel(&mut self, ledger: &Ledger, number: u64) {
        self.answered(Function::Panel, ledger.is_new, number);
        let by_amount = number == 20 && confiscation::is_off_by_amount_alone(ledger);
        let column = age(ledger.is_new);
        self.event("20 of the panel by an amount alone", column, by_amount);
        if number == 20 {
            let name = "20 of the panel by the list alone";
            holiday_counts::other_20(&mut self.events, name, ledger);
            let name = "20 of the panel by a letter alone";
            letter_counts::other_20(&mut self.events, name, ledger);
        }
    }

    /// A partner list refused by the ledger's ranges.
    pub fn partners_20(&mut self, ledger: &Ledger) {
        let name = "20 of a partner list by the list alone";
        holiday_counts::other_20(&mut self.events, name, ledger);
        let name = "20 of a partner list by a letter alone";
        letter_counts::other_20(&mut self.events, name, ledger);
    }

    /// A posting, by its bytes, the ledger before and after, and its answer.
    pub fn posting(&mut self, bytes: &[u8], before: &Ledger, answer: &Answer, after: &Ledger) {
        let number = answer.number as usize;
        self.answered(Function::Post, before.is_new, answer.number);
        let kind = bytes.first().map_or(0, |&kind| usize::from(kind));
        if number == 1 || !(1..=KINDS.len()).contains(&kind) {
            return;
        }
        self.kinds[kind - 1][usize::from(before.is_new)][number] += 1;
        if number != 0 && number < 20 {
            return;
        }
        confiscation::count(&mut self.events, bytes, before, answer, after);
        holiday_counts::count(&mut self.events, bytes, before, answer.number, after);
        letter_counts::count(&mut self.events, bytes, before, answer.number, after);
        let last_day = (before.year, before.month, before.day) == (2099, 12, 31);
        let refused_last = last_day && kind == 9 && number == 23;
        let column = age(before.is_new);
        self.event("31 December 2099 not closed", column, refused_last);
        let plain = || plain_day(before.year, before.month) == before.date();
        if number == 0 && kind == MEASURE && plain() {
            self.measured.insert((before.year, before.month));
        }
        if number == 0 && (kind == 8 || kind == 9) {
            self.closing(before, answer, after);
        }
    }

    fn closing(&mut self, before: &Ledger, answer: &Answer, after: &Ledger) {
        let column = age(before.is_new);
        let leap_day = (before.month, before.day) == (2, 29);
        self.event("29 February closed", column, leap_day);
        for report in &answer.reports {
            for (v, name) in VIOLATIONS.into_iter().enumerate() {
                self.event(name, column, report.mask >> v & 1 == 1);
            }
            let forfeit = report.forfeit != 0;
            self.event("cash-in", column, report.cash > 0);
            self.event("cash-out", column, report.cash < 0);
            self.event("forfeit in January", column, forfeit && before.month == 1);
            self.event("forfeit in March", column, forfeit && before.month == 3);
            self.event("bill below 0", column, report.bill < 0);
        }
        for (old, new) in before.accounts.iter().zip(&after.accounts) {
            if old.opened {
                self.steps(column, old, new, before.month != after.month);
            }
        }
    }

    fn steps(&mut self, column: &'static str, old: &Account, new: &Account, month_ended: bool) {
        self.event("carry not 0", column, month_ended && new.carry != 0);
        self.event("step up", column, new.k > old.k);
        self.event("step down", column, new.k < old.k);
        self.event("excuse set", column, !old.excused && new.excused);
        self.event("excuse ended", column, old.excused && !new.excused);
    }

    /// Prints the tables, and tells whether every counter is above 0. A whole run measures in all months too.
    pub fn print(&self, whole: bool) -> bool {
        println!("\nanswers by function");
        let mut zeros = 0;
        for ((name, numbers), [old, new]) in FUNCTIONS.iter().zip(&self.functions) {
            let known = numbers.partition_point(|&number| number < NEW_ONLY);
            zeros += print_row(name, "old", &numbers[..known], old);
            zeros += print_row("", "new", numbers, new);
        }
        println!("\npostings by kind (0 is accepted)");
        for ((name, numbers), [old, new]) in KINDS.iter().zip(&self.kinds) {
            let known = match *name {
                "CONFISCATED" | "HOLIDAY" | "NOTICE" => UNKNOWN,
                _ => &numbers[..numbers.partition_point(|&number| number < NEW_ONLY)],
            };
            zeros += print_row(name, "old", known, old) + print_row("", "new", numbers, new);
        }
        zeros += self.events.print();
        println!(
            "\nnot reachable through this door: 11 and 8 by more than 2^32 - 1 bytes (both are reached by the count \
             of sections), and 12 of the year sheet (192 cells are always lent)"
        );
        let days = self.measured.len();
        println!("plain measurement days: {days} of {MONTHS}; counters at zero: {zeros}");
        zeros == 0 && (days == MONTHS || !whole)
    }
}

/// One row of counts, `number:count`; tells how many are 0.
fn print_row(name: &str, age: &str, numbers: &[usize], counts: &Counts) -> usize {
    let cells: Vec<String> = numbers
        .iter()
        .map(|&number| format!("{number}:{}", counts[number]))
        .collect();
    println!("  {name:<13} {age} {}", cells.join("  "));
    numbers
        .iter()
        .filter(|&&number| counts[number] == 0)
        .count()
}
