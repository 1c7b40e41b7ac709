//! The archive: reader, writer, replay, year sheet and the panel program's
//! line.
//!
//! A file opens with EFB1 if it is old or EFB2 if it is new, the number of its
//! sections in two bytes and two bytes of zero. A directory follows, where each
//! section has its offset and its length in four bytes each, and then the
//! sections of whole entries.

use crate::calendar::Month;
use crate::entry::{entry_number, Entry, ENTRY, KIND_CLOSE_MONTH};
use crate::ledger::{panel, Ledger, ACCOUNTS};
use crate::number;
use crate::posting::post;

const HEADER: usize = 8;
const PAIR: usize = 8;
const SECTIONS_MAX: usize = 1_200;
const BYTES_MAX: u64 = u32::MAX as u64;
/// What the panel program reads at most.
const PANEL_BYTES_MAX: usize = 65_536;

/// A number and the index of the entry it is about, 0 where it is about none.
type Refusal = (u64, usize);

type Bytes32 = [u8; ENTRY];

/// The opening bytes of an archive that is old or new.
fn opening(is_new: bool) -> [u8; 4] {
    [69, 70, 66, if is_new { 50 } else { 49 }]
}

/// Whether an archive is new, or nothing where it opens as neither.
fn opens_new(archive: &[u8]) -> Option<bool> {
    [false, true]
        .into_iter()
        .find(|&is_new| archive.starts_with(&opening(is_new)))
}

/// The number of the reader, and the index of the entry refused.
pub fn check(archive: &[u8]) -> (u64, usize) {
    match read(archive) {
        Ok(_) => (number::ACCEPTED, 0),
        Err(refusal) => refusal,
    }
}

/// The part of the caller's bytes that a section is.
pub fn section(archive: &[u8], index: usize) -> Result<&[u8], (u64, usize)> {
    let sections = read(archive)?;
    sections.get(index).ok_or((number::NO_SECTION, 0))
}

/// A checked archive.
#[derive(Clone, Copy)]
struct Sections<'a> {
    is_new: bool,
    archive: &'a [u8],
    pairs: &'a [[u8; PAIR]],
}

impl<'a> Sections<'a> {
    fn get(&self, index: usize) -> Option<&'a [u8]> {
        let (offset, length) = split_pair(self.pairs.get(index)?);
        self.archive.get(offset as usize..)?.get(..length as usize)
    }

    /// All entries in file order. The sections follow each other to the end.
    fn entries(&self) -> &'a [Bytes32] {
        let (entries, _) = self.archive[HEADER + PAIR * self.pairs.len()..].as_chunks();
        entries
    }
}

/// Offset and length, wide enough that their sum does not wrap.
fn split_pair(pair: &[u8; PAIR]) -> (u64, u64) {
    let [a, b, c, d, e, f, g, h] = *pair;
    (
        u32::from_le_bytes([a, b, c, d]).into(),
        u32::from_le_bytes([e, f, g, h]).into(),
    )
}

/// The reader's checks: 8, 9, then each entry by 2 to 7 and 10.
fn read(archive: &[u8]) -> Result<Sections<'_>, Refusal> {
    let sections = directory(archive).ok_or((number::HEADER, 0))?;
    if !pairs_fit(sections.pairs, archive.len() as u64) {
        return Err((number::DIRECTORY, 0));
    }
    check_entries(&sections)?;
    Ok(sections)
}

/// The archive with its directory, or nothing where number 8 applies.
fn directory(archive: &[u8]) -> Option<Sections<'_>> {
    let is_new = opens_new(archive)?;
    let (header, rest) = archive.split_first_chunk::<HEADER>()?;
    let [_, _, _, _, low, high, zero0, zero1] = *header;
    let count = usize::from(u16::from_le_bytes([low, high]));
    let fits =
        archive.len() as u64 <= BYTES_MAX && [zero0, zero1] == [0, 0] && count <= SECTIONS_MAX;
    if !fits {
        return None;
    }
    let (pairs, _) = rest.get(..PAIR * count)?.as_chunks();
    Some(Sections {
        is_new,
        archive,
        pairs,
    })
}

/// Number 9: each section begins where the former ended, and the last one
/// ends with the file.
fn pairs_fit(pairs: &[[u8; PAIR]], file_end: u64) -> bool {
    let mut end = (HEADER + PAIR * pairs.len()) as u64;
    for pair in pairs {
        let (offset, length) = split_pair(pair);
        if offset != end || length == 0 || !length.is_multiple_of(ENTRY as u64) {
            return false;
        }
        end += length;
    }
    end == file_end
}

fn check_entries(sections: &Sections) -> Result<(), Refusal> {
    let entries = sections.entries();
    let mut index = 0;
    for (place, pair) in sections.pairs.iter().enumerate() {
        let (_, length) = split_pair(pair);
        let end = index + length as usize / ENTRY;
        let last_section = place + 1 == sections.pairs.len();
        for (index, entry) in (index..end).zip(&entries[index..end]) {
            accept_entry(sections.is_new, entry, index)?;
            let ends_month = entry[0] == KIND_CLOSE_MONTH;
            let fits = if index + 1 == end {
                ends_month || last_section
            } else {
                !ends_month
            };
            if !fits {
                return Err((number::SECTION_END, index));
            }
        }
        index = end;
    }
    Ok(())
}

/// Numbers 1 to 7 of one entry, as a refusal at its index.
fn accept_entry(is_new: bool, entry: &[u8], index: usize) -> Result<(), Refusal> {
    match entry_number(is_new, entry) {
        number::ACCEPTED => Ok(()),
        number => Err((number, index)),
    }
}

/// The writer's answer: length is the archive's, 0 if refused.
#[derive(Clone, Copy, PartialEq, Eq, Debug)]
pub struct Written {
    pub number: u64,
    pub index: usize,
    pub length: usize,
}

/// Writes a list of entries as an archive, old or new, into the first bytes of
/// the output. Refused, the output is untouched; bytes past the archive always
/// are.
pub fn write(is_new: bool, list: &[u8], out: &mut [u8]) -> Written {
    let (number, index, length) = match try_write(is_new, list, out) {
        Ok(length) => (number::ACCEPTED, 0, length),
        Err((number, index)) => (number, index, 0),
    };
    Written {
        number,
        index,
        length,
    }
}

fn try_write(is_new: bool, list: &[u8], out: &mut [u8]) -> Result<usize, Refusal> {
    let (entries, rest) = list.as_chunks::<ENTRY>();
    if !rest.is_empty() {
        return Err((number::LENGTH, 0));
    }
    for (index, entry) in entries.iter().enumerate() {
        accept_entry(is_new, entry, index)?;
    }

    let count = split_list(entries).count();
    let size = archive_size(count, list.len()).ok_or((number::TOO_LARGE, 0))?;
    let out = out.get_mut(..size).ok_or((number::OUTPUT, 0))?;

    out[..4].copy_from_slice(&opening(is_new));
    out[4..6].copy_from_slice(&(count as u16).to_le_bytes());
    out[6..HEADER].fill(0);
    let mut offset = HEADER + PAIR * count;
    for (place, section) in split_list(entries).enumerate() {
        let section = section.as_flattened();
        let pair = &mut out[HEADER + PAIR * place..][..PAIR];
        pair[..4].copy_from_slice(&(offset as u32).to_le_bytes());
        pair[4..].copy_from_slice(&(section.len() as u32).to_le_bytes());
        fill_section(&mut out[offset..], section);
        offset += section.len();
    }
    Ok(size)
}

/// Every kind 9 ends a section; none is empty.
fn split_list(entries: &[Bytes32]) -> impl Iterator<Item = &[Bytes32]> {
    entries.split_inclusive(|entry| entry[0] == KIND_CLOSE_MONTH)
}

/// The size of an archive, or nothing where number 11 applies.
fn archive_size(sections: usize, list: usize) -> Option<usize> {
    if sections > SECTIONS_MAX {
        return None;
    }
    let size = list.checked_add(HEADER + PAIR * sections)?;
    (size as u64 <= BYTES_MAX).then_some(size)
}

/// Fills a section at the front of the part that begins at its offset.
fn fill_section(part: &mut [u8], section: &[u8]) {
    part[..section.len()].copy_from_slice(section);
}

/// What a replay of an archive gives; of a refused one, no counts and a fresh
/// ledger, which is new exactly if the archive opens as a new one.
#[derive(Clone, PartialEq, Eq, Debug)]
pub struct Replay {
    pub number: u64,
    pub index: usize,
    pub accepted: u64,
    pub refused: u64,
    pub ledger: Ledger,
}

/// Posts all entries of an archive, from the fresh ledger on.
pub fn replay(archive: &[u8]) -> Replay {
    replay_watched(archive, |_, _| {})
}

/// Replays, and shows each accepted entry with the ledger just after it.
fn replay_watched(archive: &[u8], mut watch: impl FnMut(&Bytes32, &Ledger)) -> Replay {
    let mut replay = Replay {
        number: number::ACCEPTED,
        index: 0,
        accepted: 0,
        refused: 0,
        ledger: Ledger::fresh(opens_new(archive).unwrap_or(false)),
    };
    match read(archive) {
        Ok(sections) => {
            for entry in sections.entries() {
                if post(&mut replay.ledger, entry).number == number::ACCEPTED {
                    replay.accepted += 1;
                    watch(entry, &replay.ledger);
                } else {
                    replay.refused += 1;
                }
            }
        }
        Err((number, index)) => {
            replay.number = number;
            replay.index = index;
        }
    }
    replay
}

/// Banks of the gas year from April of the year to March of the next, by
/// account and month, as each accepted CLOSE MONTH left them.
pub fn year_sheet(archive: &[u8], year: u64) -> [[i64; 12]; ACCOUNTS] {
    let mut sheet = [[0; 12]; ACCOUNTS];
    replay_watched(archive, |bytes, ledger| {
        let Some(month) = closed_month(ledger.is_new, bytes, year) else {
            return;
        };
        for (row, account) in sheet.iter_mut().zip(&ledger.accounts) {
            if account.opened {
                row[month.in_gas_year()] = account.bank;
            }
        }
    });
    sheet
}

/// The month of that gas year that an entry closes, if it does.
fn closed_month(is_new: bool, bytes: &Bytes32, year: u64) -> Option<Month> {
    if bytes[0] != KIND_CLOSE_MONTH {
        return None;
    }
    let date = Entry::decode(is_new, bytes).ok()?.date;
    (date.gas_year() == year).then_some(date.month())
}

/// The panel program's line for its whole input, without the newline.
pub fn panel_line(input: &[u8]) -> String {
    if input.len() > PANEL_BYTES_MAX {
        return "too long".to_string();
    }
    let replay = replay(input);
    if replay.number != number::ACCEPTED {
        return format!("archive {} {}", replay.number, replay.index);
    }
    let (_, figure) = panel(&replay.ledger);
    format!("{} {} {}", replay.accepted, replay.refused, figure)
}

#[cfg(test)]
mod tests {
    use super::*;

    #[test]
    fn sizes_that_number_11_refuses() {
        assert_eq!(archive_size(0, 0), Some(8));
        assert_eq!(archive_size(1_200, 0), Some(9_608));
        assert_eq!(archive_size(1_201, 0), None);
        assert_eq!(
            archive_size(1, u32::MAX as usize - 16),
            Some(u32::MAX as usize)
        );
        assert_eq!(archive_size(1, u32::MAX as usize - 15), None);
        assert_eq!(archive_size(1, usize::MAX), None);
    }
}
