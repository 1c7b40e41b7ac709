//! What to do about a file that the library refuses, as far as its number, length and first bytes tell.

use crate::archive::{length_by_directory, opens, Length, OPENINGS};
use crate::shown::whole;

const DAMAGED: &str = "It is damaged: take another copy of it.";
/// So many bytes are looked at to tell a text.
const BEGINNING: usize = 512;

/// What to do next, told from the number alone.
pub fn by_number(number: u64) -> String {
    match number {
        11 => "Begin another archive.",
        12 => "This machine has too little memory for it.",
        _ => DAMAGED,
    }
    .to_string()
}

/// The same of an archive that is at hand.
pub fn of_archive(number: u64, archive: &[u8]) -> String {
    match number {
        8 | 9 if archive.is_empty() => "It is empty: take another copy of it.".to_string(),
        8 | 9 if opens(archive) || is_cut_opening(archive) => of_length(archive),
        8 | 9 if is_text(archive) => {
            "It looks like a text: efbs pack makes an archive of one.".to_string()
        }
        8 | 9 => {
            "It does not begin with EFB1 or EFB2, as an archive does: check its name.".to_string()
        }
        _ => by_number(number),
    }
}

fn is_cut_opening(archive: &[u8]) -> bool {
    OPENINGS.iter().any(|opening| opening.starts_with(archive))
}

fn of_length(archive: &[u8]) -> String {
    let found = archive.len() as u64;
    let (told, lengths) = match length_by_directory(archive) {
        Length::Exactly(told) => (told, format!("its directory tells of {}", whole(told))),
        Length::AtLeast(told) => (
            told,
            format!("header and directory alone have {}", whole(told)),
        ),
        Length::Unknown => return DAMAGED.to_string(),
    };
    let lengths = format!("it has {} bytes, {lengths}", whole(found));
    match found {
        _ if found < told => format!("It is cut off: {lengths}. Take another copy of it."),
        _ if found > told => format!("It is too long: {lengths}. Take another copy of it."),
        _ => DAMAGED.to_string(),
    }
}

fn is_text(bytes: &[u8]) -> bool {
    let beginning = &bytes[..bytes.len().min(BEGINNING)];
    let prints = |byte: &u8| !byte.is_ascii_control() || byte.is_ascii_whitespace();
    beginning.iter().all(prints)
}

#[cfg(test)]
mod tests {
    use super::*;

    /// Two sections, of 32 and 64 bytes.
    fn archive(opening: &[u8]) -> Vec<u8> {
        let mut bytes = [opening, b"\x02\0\0\0"].concat();
        for number in [24u32, 32, 56, 64] {
            bytes.extend(number.to_le_bytes());
        }
        bytes.resize(120, 1);
        bytes
    }

    #[test]
    fn lengths_are_told() {
        for opening in OPENINGS {
            lengths_of(&archive(opening));
        }
        assert_eq!(
            of_archive(8, b"EFB1\xb1\x04\0\0"),
            DAMAGED,
            "1,201 sections"
        );
        assert!(of_archive(8, b"").contains("empty"));
    }

    fn lengths_of(whole: &[u8]) {
        for (length, expected) in [
            (3, "header and directory alone have 8"),
            (7, "header and directory alone have 8"),
            (8, "header and directory alone have 24"),
            (23, "header and directory alone have 24"),
            (24, "its directory tells of 120"),
            (119, "its directory tells of 120"),
        ] {
            let told = of_archive(9, &whole[..length]);
            let expected = format!("cut off: it has {length} bytes, {expected}.");
            assert!(told.contains(&expected), "{told}");
        }
        let longer = of_archive(9, &[whole, &[0; 5]].concat());
        assert!(longer.contains("too long: it has 125 bytes, its directory tells of 120."));
        assert_eq!(of_archive(9, whole), DAMAGED);
        assert_eq!(of_archive(3, &whole[..100]), DAMAGED);
    }

    #[test]
    fn texts_are_told_from_other_files() {
        assert!(of_archive(8, "2026-04-01 close-day # é\r\n".as_bytes()).contains("text"));
        assert!(of_archive(8, b"\x89PNG\r\n\x1a\n\0").contains("does not begin with EFB1 or EFB2"));
    }
}
