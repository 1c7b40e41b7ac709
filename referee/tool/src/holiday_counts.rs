//! Counters of holidays: what HOLIDAY got, what the held dates moved, and what became of the list.

use crate::events::{age, Events};
use crate::holidays::{is_last, list_of, named, plain_day, KIND, MOST};
use crate::reached::kind_name;
use crate::run::Run;
use referee::{Account, Date, Holidays, Ledger, Month, Named};

const TOO_MANY: &str = "17 or more";
const NO_DATE: &str = "no date";
const RUN_DRY: &str = "no business day";

/// The only fault of a ledger, if it is one of its list.
pub fn fault_alone(ledger: &Ledger) -> Option<&'static str> {
    let list = &ledger.holidays;
    if list.in_range() {
        return None;
    }
    let mut other = ledger.clone();
    let mut fits = |holidays: Holidays| {
        other.holidays = holidays;
        other.in_range()
    };
    if !fits(Holidays::default()) {
        return None;
    }
    let full = Holidays {
        count: MOST as u64,
        ..*list
    };
    let dates: Vec<Date> = list
        .held()
        .iter()
        .filter_map(|named| named.date())
        .collect();
    if list.count > MOST as u64 {
        fits(full).then_some(TOO_MANY)
    } else if dates.len() as u64 == list.count {
        Some(RUN_DRY)
    } else {
        fits(list_of(&dates)).then_some(NO_DATE)
    }
}

/// Counts a posting that passed 1 to 7.
pub fn count(events: &mut Events, bytes: &[u8], before: &Ledger, number: u64, after: &Ledger) {
    match (bytes[0], number) {
        (kind, 20) => bad_ledger(events, kind, before),
        (KIND, 0) => accepted(events, bytes, before, after),
        (KIND, _) => {}
        (6, 0 | 23) => measured(events, before, number),
        (8 | 9, 0 | 27) => closed(events, bytes[0], before, number),
        _ => {}
    }
    if bytes[0] == KIND {
        refused(events, bytes, before, number);
        hidden(events, bytes, before, number);
    } else if number == 0 {
        list_after(events, bytes[0], before, after);
    }
}

fn bad_ledger(events: &mut Events, kind: u8, before: &Ledger) {
    let Some(fault) = fault_alone(before) else {
        return;
    };
    let name = if kind == KIND {
        "20 to HOLIDAY by the list alone"
    } else if before.is_new {
        "20 to another kind by the list alone, new"
    } else {
        "20 to another kind by the list alone, old"
    };
    events.count(name, fault, true);
    let name = "20 by the list alone, not begun";
    events.count(name, fault, !before.begun);
}

fn words(bytes: &[u8]) -> Named {
    let word = |at: usize| u32::from_le_bytes(std::array::from_fn(|place| bytes[at + place]));
    named([word(8), word(12), word(16)])
}

fn accepted(events: &mut Events, bytes: &[u8], before: &Ledger, after: &Ledger) {
    let Some(date) = words(bytes).date() else {
        return;
    };
    let (year, month) = (date.year(), date.month());
    let day = |ledger: &Ledger| ledger.holidays.measurement_day(year, month);
    let today = before.date();
    for (column, met) in [
        ("first", before.holidays.count == 0),
        ("sixteenth", after.holidays.count == MOST as u64),
        ("tomorrow", today.and_then(Date::tomorrow) == Some(date)),
        ("weekend", !date.is_weekday()),
        ("before a 25th", date.day() < 25),
        ("moves a day", day(before) != day(after)),
        ("last day of all", date.tomorrow().is_none()),
        ("litter cleared", is_littered(&before.holidays)),
    ] {
        events.count("HOLIDAY accepted", column, met);
    }
}

fn refused(events: &mut Events, bytes: &[u8], before: &Ledger, number: u64) {
    let named = words(bytes);
    let (date, today) = (named.date(), before.date());
    let cut = Named {
        year: named.year & 0xffff,
        month: named.month & 0xff,
        day: named.day & 0xff,
    };
    for (column, met) in [
        ("no date", date.is_none()),
        ("today", date.is_some() && date == today),
        ("earlier", date.is_some() && date < today),
        ("a date if cut off", cut != named && cut.date() > today),
    ] {
        events.count("33 to HOLIDAY", column, number == 33 && met);
    }
    let list = &before.holidays;
    let repeated = list.held().contains(&named);
    let full = list.count == MOST as u64;
    for (column, met) in [
        ("seventeenth", full && !repeated),
        ("repeated", repeated && !full),
        ("both", full && repeated),
    ] {
        events.count("34 to HOLIDAY", column, number == 34 && met);
    }
    let today = today.map(|today| (today.year(), today.month()));
    let same = date.map(|date| (date.year(), date.month())) == today;
    let name = "35 to HOLIDAY";
    events.count(name, "in this month", number == 35 && same);
    events.count(name, "in a later month", number == 35 && !same);
    let past = list.dates[list.held().len()..].contains(&named);
    let name = "date past the count named";
    events.count(name, "accepted", number == 0 && past);
}

/// A refusal where another number would apply too.
fn hidden(events: &mut Events, bytes: &[u8], before: &Ledger, number: u64) {
    let (named, list) = (words(bytes), &before.holidays);
    let date = named.date();
    let by_34 = list.held().contains(&named) || list.count == MOST as u64;
    let by_35 = date.is_some_and(|date| date.is_weekday() && is_last(list, date));
    for (column, met) in [
        ("20 over 33", number == 20 && date.is_none()),
        ("21 over 33", number == 21 && date.is_none()),
        ("22 over 33", number == 22 && date.is_none()),
        ("33 over 34", number == 33 && by_34),
        ("33 over 35", number == 33 && by_35),
        ("34 over 35", number == 34 && by_35),
    ] {
        events.count("a refusal of HOLIDAY that hides another", column, met);
    }
}

const DAYS: [&str; 7] = ["25", "26", "27", "28", "29", "30", "31"];

/// Whether the ledger's date is the day that the calendar alone would measure.
fn is_plain(ledger: &Ledger) -> bool {
    plain_day(ledger.year, ledger.month) == ledger.date()
}

fn measured(events: &mut Events, before: &Ledger, number: u64) {
    let column = age(before.is_new);
    let plain = is_plain(before);
    let name = "MEASURE accepted on a moved day";
    events.count(name, column, number == 0 && !plain);
    let name = "MEASURE refused on the plain day";
    events.count(name, column, number == 23 && plain);
    for (day, column) in (25..).zip(DAYS) {
        let met = number == 0 && before.day == day;
        events.count("MEASURE accepted on the", column, met);
    }
}

/// Closings at which held dates decide whether MEASURE is asked for.
fn closed(events: &mut Events, kind: u8, before: &Ledger, number: u64) {
    let open: Vec<&Account> = before.accounts.iter().filter(|a| a.opened).collect();
    let has_all = |account: &&Account| account.delivered && (kind == 8 || account.metered);
    let unmeasured = open.iter().any(|account| !account.measured);
    let column = age(before.is_new);
    let plain = is_plain(before);
    let by_measure = number == 27 && unmeasured && open.iter().all(has_all);
    let moved = by_measure && !plain;
    events.count("27 for MEASURE on a moved day", column, moved);
    let name = "27 for MEASURE at a month's end";
    events.count(name, column, moved && kind == 9);
    let passed = number == 0 && unmeasured && plain;
    events.count("closed unmeasured on the plain day", column, passed);
}

/// Whether something stands past the count.
fn is_littered(list: &Holidays) -> bool {
    let rest = &list.dates[list.held().len()..];
    rest.iter().any(|&place| place != Named::default())
}

/// What another accepted kind leaves of the list.
fn list_after(events: &mut Events, kind: u8, before: &Ledger, after: &Ledger) {
    let (list, column) = (&before.holidays, age(before.is_new));
    if kind == 9 {
        months_end(events, list, after, column);
        return;
    }
    let littered = is_littered(list);
    events.count("litter past the count left by", kind_name(kind), littered);
    let past = list.held().iter().any(|named| named.date() < after.date());
    events.count("past date left by CLOSE DAY", column, kind == 8 && past);
}

fn months_end(events: &mut Events, list: &Holidays, after: &Ledger, column: &'static str) {
    let first = after.date();
    let (mut dropped, mut kept) = (0, 0);
    for date in list.held().iter().map(|named| named.date()) {
        let (goes, is_eve) = (date < first, date.and_then(Date::tomorrow) == first);
        events.count("date dropped by CLOSE MONTH", column, goes);
        events.count("day before the new date dropped", column, goes && is_eve);
        events.count("date kept by CLOSE MONTH", column, !goes);
        events.count("date equal to the new date kept", column, date == first);
        let moves_up = !goes && dropped > 0;
        events.count("date kept in another place", column, moves_up);
        dropped += usize::from(goes);
        kept += usize::from(!goes);
    }
    events.count("all sixteen dropped", column, dropped == MOST);
    events.count("all sixteen kept", column, kept == MOST);
    events.count("litter cleared by CLOSE MONTH", column, is_littered(list));
}

/// The panel and the partner list, for a ledger that got 20.
pub fn other_20(events: &mut Events, name: &'static str, ledger: &Ledger) {
    if let Some(fault) = fault_alone(ledger) {
        events.count(name, fault, true);
    }
}

/// A measurement day that both answered.
pub fn asked(run: &mut Run, ledger: &Ledger, year: u64, month: u64, day: u64) {
    let exists = (2000..=2099).contains(&year) && Month::new(month).is_some();
    let mut count = |name, column, met| run.reached.event(name, column, met);
    for (at, column) in (25..).zip(DAYS) {
        count("measurement day", column, day == at);
    }
    for (column, met) in [
        ("month", Month::new(month).is_none()),
        ("huge month", month >= 1 << 32),
        ("year", !(2000..=2099).contains(&year)),
        ("huge year", year >= 1 << 32),
    ] {
        count("0 by the", column, day == 0 && met && ledger.in_range());
    }
    let moved = exists && day != 0 && plain_day(year, month).map(Date::day) != Some(day);
    count("moved in a ledger", age(ledger.is_new), moved);
    count("moved in a ledger", "not begun", moved && !ledger.begun);
    let away = (ledger.year, ledger.month) != (year, month);
    count("moved in a ledger", "of another month", moved && away);
    if day == 0 && exists {
        let fault = fault_alone(ledger);
        count("0 by a fault", "other", fault.is_none());
        if let Some(fault) = fault {
            count("0 by a fault", fault, true);
        }
    }
}

#[cfg(test)]
mod tests {
    use super::*;
    use crate::boundaries::marked;
    use crate::holidays::weekdays;

    fn date(year: u64, month: u64, day: u64) -> Date {
        Date::new(year, month, day).expect("a date that exists")
    }

    #[test]
    fn faults_are_told_apart() {
        let mut ledger = marked(true, date(2026, 5, 20));
        assert_eq!(fault_alone(&ledger), None);
        let christmas = date(2026, 12, 25);
        ledger.holidays = list_of(&[christmas; 16]);
        assert_eq!(fault_alone(&ledger), None);
        ledger.holidays.count = 17;
        assert_eq!(fault_alone(&ledger), Some(TOO_MANY));
        // With a second fault it is none alone.
        ledger.holidays.dates[3].day = 0;
        assert_eq!(fault_alone(&ledger), None);
        ledger.holidays.count = 16;
        assert_eq!(fault_alone(&ledger), Some(NO_DATE));
        ledger.holidays = list_of(&weekdays(2026, 12));
        assert_eq!(fault_alone(&ledger), Some(RUN_DRY));
        ledger.accounts[3].bcq = u64::MAX;
        assert_eq!(fault_alone(&ledger), None);
    }

    #[test]
    fn litter_is_past_the_count() {
        let mut list = list_of(&[date(2026, 12, 25)]);
        assert!(!is_littered(&list));
        list.count = 0;
        assert!(is_littered(&list));
        list.count = u64::MAX;
        assert!(!is_littered(&list));
    }
}
