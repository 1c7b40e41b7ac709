//! An archive and the list of entries in it.

use crate::entry::Kind;
use crate::rules::Rules;
use nedrulov::ENTRY_BYTES;

/// The first bytes of every archive, an old one and a new one.
pub const OPENINGS: [&[u8]; 2] = [b"EFB1", b"EFB2"];
/// And a section ends with each month's closing.
pub const MOST_SECTIONS: usize = 1_200;

const HEADER: usize = 8;
const PAIR: usize = 8;

/// Why the library refuses an archive or a list, and at which entry.
#[derive(Clone, Copy, Debug, PartialEq, Eq)]
pub struct Refusal {
    pub number: u64,
    pub index: usize,
}

/// Whether bytes begin as an archive does.
pub fn opens(bytes: &[u8]) -> bool {
    OPENINGS.iter().any(|opening| bytes.starts_with(opening))
}

/// The entries of an archive in file order, each as its bytes.
pub fn entries(archive: &[u8]) -> Result<impl Iterator<Item = &[u8; ENTRY_BYTES]>, Refusal> {
    let whole = list(archive)?.chunks_exact(ENTRY_BYTES);
    Ok(whole.filter_map(|bytes| bytes.try_into().ok()))
}

/// What the library says of an archive.
pub fn check(archive: &[u8]) -> Result<(), Refusal> {
    let checked = nedrulov::check(archive);
    match checked.number {
        0 => Ok(()),
        number => Err(Refusal {
            number,
            index: checked.index,
        }),
    }
}

/// What follows the directory of an archive that the library accepts: its list.
fn list(archive: &[u8]) -> Result<&[u8], Refusal> {
    check(archive)?;
    Ok(&archive[directory_end(archive)..])
}

/// Where the directory ends, of an archive that has a header.
fn directory_end(archive: &[u8]) -> usize {
    let count = [archive[4], archive[5]];
    HEADER + PAIR * usize::from(u16::from_le_bytes(count))
}

/// How long an archive has to be, as far as it is there to tell.
#[derive(Clone, Copy, Debug, PartialEq, Eq)]
pub enum Length {
    Exactly(u64),
    /// Header or directory are cut off themselves.
    AtLeast(u64),
    /// It would have more sections than there can be.
    Unknown,
}

pub fn length_by_directory(archive: &[u8]) -> Length {
    if archive.len() < HEADER {
        return Length::AtLeast(HEADER as u64);
    }
    let end = directory_end(archive);
    match archive.get(end - PAIR..end) {
        _ if end > HEADER + PAIR * MOST_SECTIONS => Length::Unknown,
        None => Length::AtLeast(end as u64),
        Some(_) if end == HEADER => Length::Exactly(end as u64),
        // The last section's offset and length.
        Some(pair) => Length::Exactly(
            pair.chunks_exact(PAIR / 2)
                .filter_map(|number| number.try_into().ok())
                .map(|number| u64::from(u32::from_le_bytes(number)))
                .sum(),
        ),
    }
}

/// The old or new archive of a list.
pub fn of_list(rules: Rules, list: &[u8]) -> Result<Vec<u8>, Refusal> {
    let closes_month = |entry: &&[u8]| entry[0] == Kind::CloseMonth as u8;
    let months = list.chunks(ENTRY_BYTES).filter(closes_month).count();
    // One section more than months, for what follows the last closing.
    let length = HEADER + PAIR * (months + 1) + list.len();
    let mut archive = Vec::new();
    // Where there is no memory for it the library finds too little room.
    if archive.try_reserve_exact(length).is_ok() {
        archive.resize(length, 0);
    }
    let written = nedrulov::write(rules.is_new(), list, &mut archive);
    archive.truncate(written.length);
    match written.number {
        0 => Ok(archive),
        number => Err(Refusal {
            number,
            index: written.index,
        }),
    }
}

#[cfg(test)]
mod tests {
    use super::*;

    #[test]
    fn the_writer_opens_archives_so() {
        for (rules, opening) in Rules::ALL.into_iter().zip(OPENINGS) {
            let empty = of_list(rules, &[]).expect("an empty list fits");
            assert_eq!(empty, [opening, &[0; 4]].concat());
            assert!(opens(&empty) && Rules::of_archive(&empty) == rules);
        }
        assert!(!opens(b"EFB0") && !opens(b"EFB3") && !opens(b"EFB"));
    }
}
