//! Archives to make pages of: the sample whole, cut short and with too much to report.

use crate::common::{holiday_sample, letter_sample, sample};
use efbs::archive::of_list;
use efbs::entry::{Entry, Kind};
use efbs::replay::{replay, Step};
use efbs::report::report;
use efbs::rules::Rules;
use nedrulov::Ledger;

pub const EMPTY: &[u8] = b"EFB1\0\0\0\0";
pub const SAMPLE_YEAR: u16 = 2026;

pub fn page(archive: &[u8], year: u16) -> String {
    report(archive, year).expect("the archive is right")
}

pub fn replayed(archive: &[u8], see: impl FnMut(&Step)) -> Ledger {
    replay(archive, see).expect("the archive is right")
}

/// The sample with far too much delivered to account 1 on every third day: more to report than flags have room for.
pub fn crowded() -> Vec<u8> {
    let mut list = Vec::new();
    replayed(&sample(), |step| {
        let mut entry = step.entry;
        if entry.kind == Kind::Deliver && entry.a == 1 && entry.date.day % 3 == 0 {
            entry.words[0] += 1_000_000;
        }
        list.extend(entry.to_bytes());
    });
    of_list(Rules::Old, &list).expect("the list fits")
}

/// The sample under new rules: of account 0 less is confiscated than the excess of March, of 1 nothing, and of 3 some in
/// January, on a day that overdraws its bank.
pub fn confiscated() -> Vec<u8> {
    let mut list = Vec::new();
    replayed(&sample(), |step| {
        let mut entry = step.entry;
        let told: &[(u8, u32)] = match (entry.kind, entry.date.month, entry.a) {
            (Kind::CloseMonth, 1, _) => &[(3, 2_000)],
            (Kind::CloseMonth, 3, _) => &[(0, 100_000), (1, 0)],
            (Kind::Deliver, 1, 3) if entry.date.day == 31 => {
                entry.words[1] += 2_000_000;
                &[]
            }
            _ => &[],
        };
        for (account, units) in told {
            let mut confiscation = Entry::blank(Kind::Confiscated, entry.date);
            confiscation.a = *account;
            confiscation.words[0] = *units;
            list.extend(confiscation.to_bytes());
        }
        list.extend(entry.to_bytes());
    });
    of_list(Rules::New, &list).expect("the list fits")
}

/// The sample up to and with its closing of a day.
pub fn sample_until(last: &str) -> Vec<u8> {
    let last = last.parse().expect("a date");
    let mut list = Vec::new();
    let mut ended = false;
    replayed(&sample(), |step| {
        if !ended {
            list.extend(step.entry.to_bytes());
            ended = step.entry.date == last && step.entry.kind.is_closing();
        }
    });
    of_list(Rules::Old, &list).expect("the list fits")
}

/// The pages that every general test goes over.
pub fn pages() -> Vec<String> {
    vec![
        page(&sample(), SAMPLE_YEAR),
        page(&sample(), 2031),
        page(&sample(), u16::MAX),
        page(&sample_until("2026-09-17"), SAMPLE_YEAR),
        page(&sample_until("2026-04-01"), SAMPLE_YEAR),
        page(EMPTY, SAMPLE_YEAR),
        page(&crowded(), SAMPLE_YEAR),
        page(&confiscated(), SAMPLE_YEAR),
        page(&holiday_sample(), SAMPLE_YEAR),
        page(&letter_sample(), SAMPLE_YEAR),
        page(&letter_sample(), SAMPLE_YEAR + 1),
    ]
}
