//! The log: each entry in words with its answer.

use super::{never_enrolled, show};
use crate::entry::{Entry, Kind};
use crate::failure::Failure;
use crate::form::Value;
use crate::letters::{Letter, Letters};
use crate::measuring::measuring_day;
use crate::movements::{reported_movements, Cause, Movement, Movements};
use crate::named_day::NamedDay;
use crate::replay::Step;
use crate::rules::Rules;
use crate::shown;
use crate::words::{numbered_violation, refusal, violation_list};
use nedrulov::{Account, Report, Today, ACCOUNTS, ENTRY_BYTES};
use std::io::{self, Write};

/// Which entries are shown.
#[derive(Clone, Copy, Default)]
pub struct Choice {
    /// Those that use the account, and its part of them: its supplier may be handed the log, and what is in another's
    /// bank is not for it.
    pub account: Option<usize>,
    /// Those that were refused.
    pub refused: bool,
}

impl Choice {
    fn shows(&self, step: &Step, movements: &Movements) -> bool {
        let concerned = |account| match step.entry.kind.is_closing() {
            true => movements.is_enrolled(account),
            false => step.entry.kind.form().uses(&step.entry, account),
        };
        self.account.is_none_or(concerned) && !(self.refused && step.accepted())
    }

    fn accounts(&self) -> std::ops::Range<usize> {
        self.account
            .map_or(0..ACCOUNTS, |account| account..account + 1)
    }
}

/// What a step did that its entry does not tell by itself.
struct Outcome {
    moved: Vec<Movement>,
    ended: Vec<Letter>,
}

/// Entries counted by their answer.
#[derive(Default)]
struct Tally {
    accepted: u64,
    refused: u64,
}

impl Tally {
    fn add(&mut self, step: &Step) {
        match step.accepted() {
            true => self.accepted += 1,
            false => self.refused += 1,
        }
    }

    fn all(&self) -> u64 {
        self.accepted + self.refused
    }
}

pub fn write(archive: &[u8], choice: Choice, out: &mut dyn Write) -> Result<(), Failure> {
    let (mut movements, mut letters) = (Movements::default(), Letters::default());
    let (mut whole, mut shown) = (Tally::default(), Tally::default());
    let mut log = Log {
        choice,
        head: Rules::of_archive(archive).note(),
        width: (archive.len() / ENTRY_BYTES).to_string().len(),
        out,
    };
    show(archive, |step| {
        let outcome = Outcome {
            moved: movements.of(step),
            ended: letters.ended_by(step),
        };
        whole.add(step);
        if !choice.shows(step, &movements) {
            return Ok(());
        }
        shown.add(step);
        log.write_step(step, &outcome)
    })?;
    let stranger = choice
        .account
        .filter(|account| !movements.is_enrolled(*account));
    if stranger.is_none() || shown.all() > 0 {
        log.write_head()?;
        write_totals(&whole, &shown, choice, log.out)?;
    }
    match stranger {
        Some(account) => Err(never_enrolled(account)),
        None => Ok(()),
    }
}

/// Of what is shown, and beside it how many entries there are.
fn write_totals(
    whole: &Tally,
    shown: &Tally,
    choice: Choice,
    out: &mut dyn Write,
) -> io::Result<()> {
    let [all, part] = [whole, shown].map(|tally| shown::whole(tally.all()));
    let [accepted, refused] = [shown.accepted, shown.refused].map(shown::whole);
    let entries = match choice {
        Choice {
            account: None,
            refused: false,
        } => format!("{all} entries"),
        _ => format!("{part} of {all} entries shown"),
    };
    writeln!(out, "{entries}: {accepted} accepted, {refused} refused")
}

struct Log<'a> {
    choice: Choice,
    /// Stands above the first line, if there is any.
    head: Option<&'static str>,
    /// Of the entries' indices.
    width: usize,
    out: &'a mut dyn Write,
}

impl Log<'_> {
    fn write_head(&mut self) -> io::Result<()> {
        match self.head.take() {
            Some(head) => writeln!(self.out, "{head}"),
            None => Ok(()),
        }
    }

    fn write_step(&mut self, step: &Step, outcome: &Outcome) -> io::Result<()> {
        self.write_head()?;
        let (index, date, width) = (step.index, step.entry.date, self.width);
        let answer = match step.answer.number {
            0 => "accepted".to_string(),
            number => format!("REFUSED {number}"),
        };
        let what = in_words(&step.entry);
        let effect = effect(step, outcome, self.choice);
        writeln!(
            self.out,
            "{index:>width$}  {date}  {answer:<10}  {what}{effect}"
        )?;
        if step.accepted() && step.entry.kind.is_closing() {
            for account in self.choice.accounts() {
                self.write_closing(step, account, &outcome.ended)?;
            }
        }
        Ok(())
    }

    /// An account's part of a closing, if it has one.
    fn write_closing(&mut self, step: &Step, account: usize, ended: &[Letter]) -> io::Result<()> {
        // Date and answer with the spaces around them, and two more to stand inward.
        const DATE_AND_ANSWER: usize = 28;
        let mut parts = closing_parts(step, account);
        parts.extend(unanswered(account, ended));
        let parts = parts.join("; ");
        match parts.is_empty() {
            true => Ok(()),
            false => {
                let indent = self.width + DATE_AND_ANSWER;
                writeln!(self.out, "{:indent$}account {account}: {parts}", "")
            }
        }
    }
}

/// "deliver account 0: delivered 1,450.00 Dth, back-cast 1,260.00 Dth".
fn in_words(entry: &Entry) -> String {
    let form = entry.kind.form();
    let spoken = |value: &Value| format!("{} {}", value.name, value.spoken(entry));
    let mut words = form.word.to_string();
    for account in form.accounts {
        words += &format!(" {}", spoken(account));
    }
    for flag in form.flags.words(entry.flags) {
        words += &format!(", {flag}");
    }
    for (place, value) in form.values.iter().enumerate() {
        words += if place == 0 { ": " } else { ", " };
        words += &spoken(value);
    }
    words
}

/// What an entry that is no closing did, or why it was refused.
fn effect(step: &Step, outcome: &Outcome, choice: Choice) -> String {
    if !step.accepted() {
        let why = refusal(step.answer.number, Rules::of_ledger(step.after));
        return format!("; {why}");
    }
    let after = &step.after.accounts[usize::from(step.entry.a)];
    match step.entry.kind {
        Kind::Enrol => format!("; {}", capacity(after)),
        Kind::Measure => format!("; {}", step_in_words(after)),
        Kind::Deliver | Kind::Trade | Kind::Transfer => moved_banks(step, &outcome.moved, choice),
        Kind::Notice => reply(step, &outcome.ended) + &moved_banks(step, &outcome.moved, choice),
        Kind::Holiday => moved_measuring(step),
        _ => String::new(),
    }
}

fn moved_banks(step: &Step, moved: &[Movement], choice: Choice) -> String {
    let shown = |movement: &&Movement| choice.accounts().contains(&movement.account);
    let moved = moved.iter().filter(shown).map(|movement| {
        let bank = step.after.accounts[movement.account].bank;
        format!("; {}", moved_in_words(movement, bank))
    });
    moved.collect()
}

/// Which letter a notice answers, and who gives to whom by the two; or whom it awaits.
fn reply(step: &Step, ended: &[Letter]) -> String {
    match ended.first() {
        Some(letter) => {
            let (index, giver, taker) = (letter.index, letter.giver(), letter.taker());
            format!("; answers entry {index}: account {giver} gives to account {taker}")
        }
        None => {
            let letter = Letter::of(step);
            let (other, side) = (letter.other, letter.other_side());
            format!("; stands until the day closes, and awaits that account {other} {side} as much")
        }
    }
}

/// An account's own letters that a closing ended.
fn unanswered(account: usize, ended: &[Letter]) -> impl Iterator<Item = String> + '_ {
    let own = ended.iter().filter(move |letter| letter.writer == account);
    own.map(|letter| {
        let (index, other) = (letter.index, letter.other);
        format!("letter to account {other}, entry {index}, goes unanswered")
    })
}

/// Where a holiday moves the measuring day of its month.
fn moved_measuring(step: &Step) -> String {
    let days = [step.before, step.after].map(|ledger| {
        let named = NamedDay::of(&step.entry).date()?;
        measuring_day(ledger, named.year.into(), named.month)
    });
    match days {
        [Some(before), Some(after)] if before != after => {
            format!("; the measuring day moves from {before} to {after}")
        }
        _ => String::new(),
    }
}

fn moved_in_words(movement: &Movement, bank: i64) -> String {
    let bank = shown::gas(bank);
    let size = shown::gas(movement.units.abs());
    let way = match movement.units {
        0 => return format!("bank {} stays at {bank} Dth", movement.account),
        1.. => "up",
        _ => "down",
    };
    format!("bank {} {way} {size} to {bank} Dth", movement.account)
}

fn step_in_words(account: &Account) -> String {
    let step = &account.step;
    match step.pending == step.k {
        true => format!("step {}", step.k),
        false => format!(
            "step {}, and {} from the next month on",
            step.k, step.pending
        ),
    }
}

fn capacity(account: &Account) -> String {
    let capacity = &account.capacity;
    let [mddq, bcq] = [capacity.mddq, capacity.bcq].map(shown::whole);
    format!("step {}, MDDQ {mddq} Dth, BCQ {bcq} Dth", account.step.k)
}

/// What a closing did to an account; nothing if it only passed.
fn closing_parts(step: &Step, account: usize) -> Vec<String> {
    let report = &step.answer.reports[account];
    let [before, after] = [step.before, step.after].map(|ledger| &ledger.accounts[account]);
    let mut parts = reported(report, &before.today);
    if step.entry.kind == Kind::CloseMonth && after.opened {
        let (bill, owed) = (shown::money(report.bill), shown::money(after.owed));
        parts.push(format!("bill ${bill}, owed ${owed}"));
    }
    if before.step.k != after.step.k {
        let new = capacity(after);
        parts.push(format!("from step {} to {new}", before.step.k));
    }
    if !parts.is_empty() {
        parts.push(format!("bank {} Dth", shown::gas(after.bank)));
    }
    parts
}

/// Violations, cash and forfeit. Where gas was confiscated the forfeit is told beside it, be it of nothing.
fn reported(report: &Report, today: &Today) -> Vec<String> {
    let violated = violation_list(report.mask).into_iter();
    let mut parts: Vec<String> = violated.map(numbered_violation).collect();
    let told_below = |cause: Cause| today.confiscated && cause == Cause::Forfeit;
    let moved = reported_movements(report).filter(|(cause, _)| !told_below(*cause));
    parts.extend(moved.map(|(cause, units)| {
        let size = shown::gas(units.abs());
        format!("{} {size} Dth", cause.name())
    }));
    if today.confiscated {
        let amounts = [report.forfeit, today.confiscation];
        let [forfeit, confiscated] = amounts.map(|units| shown::gas(units as i64));
        parts.push(format!(
            "forfeit {forfeit} Dth of {confiscated} Dth confiscated"
        ));
    }
    parts
}
