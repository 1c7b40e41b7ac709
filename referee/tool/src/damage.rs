//! Cases (d): archives of both writers, old and new, damaged.

use crate::archives;
use crate::edits::{damage, spoil_entry};
use crate::entries::{self, Bytes};
use crate::gas_year::{make, Plan};
use crate::holidays;
use crate::ledgers::any_date;
use crate::random::Random;
use crate::run::{Run, Same};

/// A whole gas year that another program wrote.
const SAMPLE: &[u8] = include_bytes!("../../../crates/sheets/stdin");

pub fn case(random: &mut Random, run: &mut Run) -> Same {
    if random.one_in(40) {
        many_sections(random, run)?;
    }
    if random.one_in(100) {
        damaged(random, run, SAMPLE)?;
    }
    let is_new = random.one_in(2);
    let mut list = any_list(random, is_new);
    archives::write(random, run, !is_new, &list)?;
    if !is_new {
        // No old archive holds CONFISCATED, HOLIDAY or NOTICE: refused, and then without.
        archives::write(random, run, is_new, &list)?;
        list = entries::for_old(&list);
    }
    let archive = archives::write(random, run, is_new, &list)?;
    damaged(random, run, &archive)?;
    spoil_list(random, &mut list);
    archives::write(random, run, is_new, &list)?;
    Ok(())
}

/// Reads an archive as it is, with other fourth bytes, and then with damage.
fn damaged(random: &mut Random, run: &mut Run, archive: &[u8]) -> Same {
    archives::read(random, run, archive)?;
    fourth_bytes(random, run, archive)?;
    for _ in 0..12 {
        let mut bytes = archive.to_vec();
        for _ in 0..1 + random.below(2) {
            damage(random, &mut bytes);
        }
        archives::read(random, run, &bytes)?;
    }
    Ok(())
}

/// The archive's entries as old, as new and as neither.
fn fourth_bytes(random: &mut Random, run: &mut Run, archive: &[u8]) -> Same {
    for fourth in [48, 49, 50, 51, random.next() as u8] {
        let mut bytes = archive.to_vec();
        bytes[3] = fourth;
        archives::read(random, run, &bytes)?;
    }
    Ok(())
}

/// A few months of few suppliers, with days left out, so that sections are short and some postings refused; now and
/// then a whole year, as gas is not confiscated before its tenth month.
fn any_list(random: &mut Random, is_new: bool) -> Vec<u8> {
    let year = random.one_in(40);
    let few = 1 + random.below(4) as usize;
    let plan = Plan {
        first_year: 2000 + random.below(100) as u16,
        months: if year { 12 } else { few },
        suppliers: 1 + random.below(2) as u8,
        is_new,
        wild: true,
        refusals: true,
        holidays: random.one_in(2),
        letters: random.one_in(2),
    };
    let planned = make(random, plan);
    let whole = year || random.one_in(3);
    let kept = planned.iter().filter(|_| whole || random.one_in(6));
    let mut list: Vec<u8> = kept.flat_map(|planned| planned.bytes).collect();
    for _ in 0..random.below(5) {
        let at = 32 * random.below(list.len() as u64 / 32 + 1) as usize;
        let bytes = match random.below(3) {
            0 => any_confiscated(random),
            1 => any_holiday(random),
            _ => any_notice(random),
        };
        list.splice(at..at, bytes);
    }
    if random.one_in(2) {
        // Ends with a kind 9, so that there is no open section.
        list.extend_from_slice(&entries::close_month((2026, 4, 30), [1; 4]));
    }
    list
}

/// On its days or not: an archive holds what the ledger refuses.
fn any_confiscated(random: &mut Random) -> Bytes {
    let day = random.pick(&[(2026, 4, 1), (2027, 1, 31), (2027, 3, 31), (2027, 6, 30)]);
    let units = random.pick(&[0, 1, 1_000_000_000]);
    entries::confiscated(random.below(16) as u8, day, units)
}

/// Of a date or of no date: both are for the ledger to say.
fn any_holiday(random: &mut Random) -> Bytes {
    let today = any_date(random);
    let words = match random.below(2) {
        0 => holidays::ahead(random, today),
        _ => [0; 3].map(|_: u32| random.next() as u32),
    };
    entries::holiday(entries::day_of(today), words)
}

/// Between any two accounts: whether they are open, and what stands, is for the ledger to say.
fn any_notice(random: &mut Random) -> Bytes {
    let day = entries::day_of(any_date(random));
    let a = random.below(16) as u8;
    let b = (a + 1 + random.below(15) as u8) % 16;
    let units = random.pick(&[1, 5, 1_000_000_000]);
    entries::notice(a, b, random.below(2) as u8, day, units)
}

/// Up to and past 1,200 sections: number 11 of the writer.
fn many_sections(random: &mut Random, run: &mut Run) -> Same {
    let closing = entries::close_month((2026, 4, 30), [1; 4]);
    let is_new = random.one_in(2);
    for sections in [1_199, 1_200, 1_201] {
        let mut list = closing.repeat(sections);
        if random.one_in(2) {
            list.extend_from_slice(&entries::close_day((2026, 4, 30)));
        }
        let archive = archives::write(random, run, is_new, &list)?;
        archives::read(random, run, &archive)?;
        archives::read(random, run, &by_hand(is_new, &list, sections))?;
        if random.one_in(2) {
            spoil_list(random, &mut list);
            archives::write(random, run, is_new, &list)?;
        }
    }
    Ok(())
}

/// An archive as no writer checks it, of sections that are all one entry long but the last.
fn by_hand(is_new: bool, list: &[u8], sections: usize) -> Vec<u8> {
    let opening = if is_new { b"EFB2" } else { b"EFB1" };
    let mut archive = opening.to_vec();
    archive.extend_from_slice(&(sections as u16).to_le_bytes());
    archive.extend_from_slice(&[0, 0]);
    for section in 0..sections {
        let offset = 8 + 8 * sections + 32 * section;
        let last = section + 1 == sections;
        let length = if last { list.len() - 32 * section } else { 32 };
        archive.extend_from_slice(&(offset as u32).to_le_bytes());
        archive.extend_from_slice(&(length as u32).to_le_bytes());
    }
    archive.extend_from_slice(list);
    archive
}

/// Changes a list in a way that some check of the writer sees, or none.
fn spoil_list(random: &mut Random, list: &mut Vec<u8>) {
    match random.below(4) {
        0 => {
            let length = random.below(list.len() as u64 + 1) as usize;
            list.truncate(length);
        }
        1 => list.push(random.next() as u8),
        _ => spoil_entry(random, list, 0),
    }
}
