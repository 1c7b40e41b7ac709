//! Input in a message: cut where it is long, and with nothing in it that a terminal would obey.

use std::ffi::OsStr;
use std::os::unix::ffi::OsStrExt;
use std::path::Path;

const WORD: usize = 60;
const PATH: usize = 300;
const APOSTROPHE: [char; 1] = ['\''];
const QUOTES: [char; 3] = ['\'', '"', '\\'];

/// A word in quotes.
pub fn word(text: impl AsRef<OsStr>) -> String {
    format!("\"{}\"", bare(text))
}

/// A name or number that stands without quotes.
pub fn bare(text: impl AsRef<OsStr>) -> String {
    escaped(text.as_ref().as_bytes(), WORD, &APOSTROPHE)
}

/// A word of a table, where quotes and backslashes mean nothing.
pub fn cell(text: &str) -> String {
    escaped(text.as_bytes(), WORD, &QUOTES)
}

/// The same for other programs to read: all of it.
pub fn uncut(text: &str) -> String {
    escaped(text.as_bytes(), usize::MAX, &QUOTES)
}

/// The name of a file; an empty one is shown too.
pub fn path(path: &Path) -> String {
    match path.as_os_str().is_empty() {
        true => word(path),
        false => escaped(path.as_os_str().as_bytes(), PATH, &APOSTROPHE),
    }
}

/// The first `most` characters; what does not print is written as Rust writes it, a byte that is no UTF-8 as \xff. Of
/// what prints Rust escapes quotes and the backslash; those in `kept` stay.
fn escaped(bytes: &[u8], most: usize, kept: &[char]) -> String {
    let mut out = String::new();
    let mut room = most;
    for chunk in bytes.utf8_chunks() {
        for character in chunk.valid().chars() {
            if room == 0 {
                return out + "…";
            }
            room -= 1;
            match kept.contains(&character) {
                true => out.push(character),
                false => out.extend(character.escape_debug()),
            }
        }
        for byte in chunk.invalid() {
            if room == 0 {
                return out + "…";
            }
            room -= 1;
            out += &format!("\\x{byte:02x}");
        }
    }
    out
}

#[cfg(test)]
mod tests {
    use super::*;

    #[test]
    fn what_prints_stays() {
        for text in ["gas-year.txt", "café", "it's", "5,000.00", "日本"] {
            assert_eq!(word(text), format!("\"{text}\""));
        }
    }

    #[test]
    fn nothing_reaches_the_terminal() {
        for (text, shown) in [
            ("\u{1b}[31m", "\\u{1b}[31m"),
            ("\u{7f}", "\\u{7f}"),
            ("\u{9b}2J", "\\u{9b}2J"),
            (
                "a\u{202e}b\u{2066}c\u{200f}",
                "a\\u{202e}b\\u{2066}c\\u{200f}",
            ),
            ("a\nb\rc\td\0", "a\\nb\\rc\\td\\0"),
            ("\u{2028}\u{feff}", "\\u{2028}\\u{feff}"),
            ("a\"b\\c", "a\\\"b\\\\c"),
        ] {
            assert_eq!(bare(text), shown);
        }
        let bytes = OsStr::from_bytes(b"a\xff\xc3b");
        assert_eq!(word(bytes), "\"a\\xff\\xc3b\"");
        assert_eq!(path(Path::new(bytes)), "a\\xff\\xc3b");
        assert_eq!(path(Path::new("")), "\"\"");
        for shown in [cell, uncut] {
            assert_eq!(shown("\u{1b}[2J\n\u{202e}"), "\\u{1b}[2J\\n\\u{202e}");
        }
    }

    #[test]
    fn cells_keep_what_prints() {
        let text = "it's_6\",C:\\é";
        assert_eq!(cell(text), text);
        let long = text.repeat(1_000);
        assert_eq!(uncut(&long), long);
        assert_eq!(cell(&long).chars().count(), WORD + 1);
    }

    #[test]
    fn long_words_are_cut() {
        let long = "é".repeat(WORD);
        assert_eq!(bare(&long), long);
        assert_eq!(bare(&(long.clone() + "é")), long + "…");
        assert_eq!(
            path(Path::new(&"x".repeat(5_000_000))).chars().count(),
            PATH + 1
        );
        let bytes = [0xff; WORD + 1];
        assert_eq!(
            word(OsStr::from_bytes(&bytes)),
            format!("\"{}…\"", "\\xff".repeat(WORD))
        );
    }
}
