//! Counters of letters: what a NOTICE met, what became of those that stand, and where TRANSFER is retired.

use crate::events::{age, Events};
use crate::letters::{self, is_retired, meets, GIVES, KIND, MOST, TAKES};
use crate::reached::kind_name;
use referee::{Ledger, Notice};

const OTHER: &str = "other party";
const NO_UNITS: &str = "no units";
const MANY_UNITS: &str = "too many units";

/// The only fault of a ledger, if it is one of a single letter, and whether its account is open.
fn fault_alone(ledger: &Ledger) -> Option<(&'static str, bool)> {
    let in_range =
        |notice: &Notice| !notice.stands || notice.other < 16 && (1..=MOST).contains(&notice.units);
    let wrong = |place: &usize| !in_range(&ledger.accounts[*place].notice);
    let wrong: Vec<usize> = (0..16).filter(wrong).collect();
    let &[place] = &wrong[..] else { return None };
    let mut without = ledger.clone();
    without.accounts[place].notice = Notice::default();
    if !without.in_range() {
        return None;
    }
    let account = &ledger.accounts[place];
    let fault = match account.notice {
        Notice { units: 0, .. } => NO_UNITS,
        Notice { units, .. } if units > MOST => MANY_UNITS,
        _ => OTHER,
    };
    Some((fault, account.opened))
}

/// Counts a posting that passed 1 to 7.
pub fn count(events: &mut Events, bytes: &[u8], before: &Ledger, number: u64, after: &Ledger) {
    let kind = bytes[0];
    if number == 20 {
        bad_ledger(events, kind, before);
    } else {
        unsent_passes(events, before);
    }
    match (kind, number) {
        (KIND, _) => noticed(events, bytes, before, number, after),
        (4, _) => transferred(events, bytes, before, number),
        (2, 0) => enrolled(events, bytes, before),
        (8 | 9, 0) => cleared(events, kind, before, after),
        (8 | 9, 23 | 27 | 29) => {
            let stands = before.accounts.iter().any(|account| account.notice.stands);
            let name = "letter kept at a refused closing";
            events.count(name, age(before.is_new), stands);
        }
        _ => {}
    }
    if number == 0 && !matches!(kind, 8 | 9) {
        left(events, bytes, before, after);
    }
}

fn bad_ledger(events: &mut Events, kind: u8, before: &Ledger) {
    let Some((fault, open)) = fault_alone(before) else {
        return;
    };
    if kind == KIND {
        events.count("20 to NOTICE by a letter alone", fault, true);
    } else {
        let column = age(before.is_new);
        events.count("20 to another kind by a letter alone", column, true);
    }
    let column = if open { "open" } else { "not open" };
    events.count("20 by the letter of an account", column, true);
    let name = "20 by a letter alone, not begun";
    events.count(name, fault, !before.begun);
}

/// Members that would be out of range, if the letter stood.
fn unsent_passes(events: &mut Events, before: &Ledger) {
    for account in &before.accounts {
        let Notice {
            stands,
            other,
            units,
            ..
        } = account.notice;
        let name = "not 20 by members of none that stands";
        let mut count = |column, met| events.count(name, column, !stands && met);
        count(OTHER, other > 15);
        // Zeros are what every account begins with.
        count(NO_UNITS, units == 0 && other != 0);
        count(MANY_UNITS, units > MOST);
    }
}

/// The panel and the partner list, for a ledger that got 20.
pub fn other_20(events: &mut Events, name: &'static str, ledger: &Ledger) {
    if let Some((fault, _)) = fault_alone(ledger) {
        events.count(name, fault, true);
    }
}

fn noticed(events: &mut Events, bytes: &[u8], before: &Ledger, number: u64, after: &Ledger) {
    let (writer, letter) = letters::read(bytes);
    match number {
        0 if after.accounts[writer].notice == letter => stands(events, before, writer, &letter),
        0 => moves(events, before, writer, &letter),
        24 => closed_party(events, before, writer, &letter),
        26 => second(events, before, writer, &letter),
        28 => past_limit(events, before, writer, &letter),
        _ => {}
    }
    hidden(events, before, writer, &letter, number);
}

/// A letter that comes to stand.
fn stands(events: &mut Events, before: &Ledger, writer: usize, letter: &Notice) {
    let column = match letter.takes {
        GIVES => "gives",
        TAKES => "takes",
    };
    events.count("letter stands, its writer", column, true);
    let fitting = letters::counterpart(writer, letter);
    why(events, &before.accounts[letter.other].notice, &fitting);
    let mut others = (0..16).filter(|&place| place != letter.other);
    let crosses = others.any(|place| before.accounts[place].notice == fitting);
    let name = "letter stands, though a third's would fit";
    events.count(name, age(true), crosses);
}

/// What is not as it would have to be to fit, where that is the only reason.
fn why(events: &mut Events, theirs: &Notice, fitting: &Notice) {
    let apart = theirs.units.abs_diff(fitting.units);
    let [mut stands, mut side, mut party, mut units] = [*theirs; 4];
    stands.stands = true;
    side.takes = fitting.takes;
    party.other = fitting.other;
    units.units = fitting.units;
    for (column, met) in [
        ("is none", !theirs.stands),
        ("is none but would fit", stands == *fitting),
        ("names a third", party == *fitting),
        ("has the same side", side == *fitting),
        ("is 1 unit off", units == *fitting && apart == 1),
        ("is further off", units == *fitting && apart > 1),
    ] {
        events.count("letter stands, as the other party's", column, met);
    }
}

fn side(letter: &Notice) -> &'static str {
    match letter.takes {
        GIVES => "the giver",
        TAKES => "the taker",
    }
}

fn moves(events: &mut Events, before: &Ledger, writer: usize, letter: &Notice) {
    events.count("gas moves by the letter of", side(letter), true);
    let [give, take] = letters::margins(before, writer, letter);
    for (column, met) in [
        ("giver's minimum", give == 0 && take > 0),
        ("taker's maximum", take == 0 && give > 0),
        ("both", give == 0 && take == 0),
        ("10^9 moved", letter.units == MOST),
    ] {
        events.count("gas moves to the", column, met);
    }
    let retired = is_retired(true, before.year, before.month);
    let column = if retired {
        "without TRANSFER"
    } else {
        "with TRANSFER"
    };
    events.count("gas moves on a day", column, true);
    let litter = before.accounts[writer].notice != Notice::default();
    events.count("gas moves, members of none left", age(true), litter);
}

fn closed_party(events: &mut Events, before: &Ledger, writer: usize, letter: &Notice) {
    let open = [writer, letter.other].map(|place| before.accounts[place].opened);
    for (column, met) in [
        ("writer", open == [false, true]),
        ("other party", open == [true, false]),
        ("both", open == [false, false]),
    ] {
        events.count("24 to NOTICE, not open is the", column, met);
    }
}

fn second(events: &mut Events, before: &Ledger, writer: usize, letter: &Notice) {
    let fits = meets(before, writer, letter);
    let own = &before.accounts[writer].notice;
    for (column, met) in [
        ("would match", fits),
        ("would match none", !fits),
        ("is the one that stands", own == letter),
        ("names another party", own.other != letter.other),
    ] {
        events.count("26 to a letter that", column, met);
    }
}

fn past_limit(events: &mut Events, before: &Ledger, writer: usize, letter: &Notice) {
    events.count("28 to the letter of", side(letter), true);
    let [give, take] = letters::margins(before, writer, letter);
    for (column, met) in [
        ("1 unit at the minimum", give == -1 && take >= 0),
        ("1 unit at the maximum", take == -1 && give >= 0),
        ("both limits", give < 0 && take < 0),
    ] {
        events.count("28 to a second letter by", column, met);
    }
}

/// A refusal of NOTICE where another number would apply too.
fn hidden(events: &mut Events, before: &Ledger, writer: usize, letter: &Notice, number: u64) {
    let closed = [writer, letter.other]
        .iter()
        .any(|&place| !before.accounts[place].opened);
    let own = before.accounts[writer].notice.stands;
    let past = || meets(before, writer, letter) && is_past(before, writer, letter);
    for (column, met) in [
        ("20 over 24", number == 20 && closed),
        ("21 over 24", number == 21 && closed),
        ("22 over 24", number == 22 && closed),
        ("22 over 26", number == 22 && own),
        ("24 over 26", number == 24 && own),
        ("26 over 28", number == 26 && past()),
    ] {
        events.count("a refusal of NOTICE that hides another", column, met);
    }
}

/// TRANSFER beside letters, and where it is retired.
fn transferred(events: &mut Events, bytes: &[u8], before: &Ledger, number: u64) {
    let (giver, taker) = (usize::from(bytes[1]), usize::from(bytes[2]));
    let letter = letters::letter(GIVES, taker, letters::units_of(bytes));
    let waits = meets(before, giver, &letter);
    let name = "TRANSFER of gas for which a letter waits";
    events.count(name, "accepted", number == 0 && waits);

    let year = u64::from(bytes[4]) + 256 * u64::from(bytes[5]);
    let dated = [year, bytes[6].into(), bytes[7].into()];
    around_the_end(events, before.is_new, dated, number);
    around_36(events, before, giver, &letter, dated, number);
}

/// Of old and new ledgers, in the last days of TRANSFER and after them.
fn around_the_end(events: &mut Events, is_new: bool, dated: [u64; 3], number: u64) {
    let (last, first) = ([2027, 3, 31], [2027, 4, 1]);
    let name = "36 to TRANSFER";
    events.count(name, "1 April 2027", number == 36 && dated == first);
    events.count(name, "later", number == 36 && dated > first);
    for (column, met) in [
        ("new, 31 March 2027", is_new && dated == last),
        ("new, earlier", is_new && dated < last),
        ("old, 1 April 2027", !is_new && dated == first),
        ("old, later", !is_new && dated > first),
    ] {
        events.count("TRANSFER accepted", column, number == 0 && met);
    }
}

/// What 36 hides, and what hides it.
fn around_36(
    events: &mut Events,
    before: &Ledger,
    giver: usize,
    letter: &Notice,
    [year, month, _]: [u64; 3],
    number: u64,
) {
    let retired = is_retired(before.is_new, year, month);
    let mut parties = [giver, letter.other].into_iter();
    let closed = parties.any(|place| !before.accounts[place].opened);
    let past = || is_past(before, giver, letter);
    for (column, met) in [
        ("20 over 36", number == 20 && retired),
        ("21 over 36", number == 21 && retired),
        ("22 over 36", number == 22 && retired),
        ("36 over 24", number == 36 && closed),
        ("36 over 28", number == 36 && !closed && past()),
        ("36 alone", number == 36 && !closed && !past()),
    ] {
        events.count("numbers around 36", column, met);
    }
}

/// Whether so much gas would break a limit.
fn is_past(before: &Ledger, writer: usize, letter: &Notice) -> bool {
    let margins = letters::margins(before, writer, letter);
    margins.iter().any(|&left| left < 0)
}

fn enrolled(events: &mut Events, bytes: &[u8], before: &Ledger) {
    let place = usize::from(bytes[1]);
    let notice = before.accounts[place].notice;
    let column = age(before.is_new);
    events.count("letter forgotten by ENROL", column, notice.stands);
    let litter = !notice.stands && notice != Notice::default();
    events.count("members of none forgotten by ENROL", column, litter);
    let named = before
        .accounts
        .iter()
        .any(|account| account.notice.stands && account.notice.other == place);
    events.count("letter to the one that ENROL opens", column, named);
}

fn cleared(events: &mut Events, kind: u8, before: &Ledger, after: &Ledger) {
    let column = age(before.is_new);
    for (old, new) in before.accounts.iter().zip(&after.accounts) {
        let gone = old.notice.stands && !new.notice.stands;
        events.count("letter cleared by CLOSE DAY", column, gone && kind == 8);
        events.count("letter cleared by CLOSE MONTH", column, gone && kind == 9);
        let litter = !old.notice.stands && old.notice != new.notice;
        events.count("members of none cleared by a closing", column, litter);
        let stays = !old.opened && new.notice.stands;
        events.count("letter kept by an account not open", column, stays);
    }
}

/// Letters of open accounts that are there as they were.
fn left(events: &mut Events, bytes: &[u8], before: &Ledger, after: &Ledger) {
    let mut pairs = before.accounts.iter().zip(&after.accounts);
    let stays = pairs.any(|(old, new)| old.opened && old.notice.stands && old.notice == new.notice);
    events.count("letter left by", kind_name(bytes[0]), stays);
}

#[cfg(test)]
mod tests {
    use super::*;
    use crate::boundaries::marked;
    use crate::letters::{faulty, letter, FAULTS};
    use crate::random::Random;
    use referee::Date;

    #[test]
    fn faults_are_told_apart() {
        let date = Date::new(2026, 5, 20).expect("a date that exists");
        let mut random = Random::new(1);
        let sound = marked(true, date);
        assert_eq!(fault_alone(&sound), None);
        for (fault, name) in FAULTS.into_iter().zip([OTHER, NO_UNITS, MANY_UNITS]) {
            for (place, open) in [(0, true), (7, false)] {
                let mut ledger = sound.clone();
                ledger.accounts[place].notice = faulty(&mut random, fault);
                assert_eq!(fault_alone(&ledger), Some((name, open)));
                // With a second fault, of a letter or not, it is none alone.
                let mut two = ledger.clone();
                two.accounts[9].notice = letter(TAKES, 16, 5);
                assert_eq!(fault_alone(&two), None);
                ledger.accounts[9].bcq = u64::MAX;
                assert_eq!(fault_alone(&ledger), None);
            }
        }
        let mut ledger = sound;
        ledger.accounts[0].notice = letter(TAKES, 15, MOST);
        assert_eq!(fault_alone(&ledger), None);
    }
}
