//! The lines of a text and the words of a line, each with its place. docs/TEXT-FORMAT.md says what any text may have:
//! comments, empty lines, two ends of a line, a mark of UTF-8, and limits.

use crate::archive::opens;
use crate::echo;
use crate::shown::whole;
use std::fmt;
use std::io::{self, BufRead, Read};

/// With its end. An entry needs some 200 bytes at most.
const LONGEST_LINE: usize = 1 << 16;
/// Many times the entries that an archive can have; so an endless text of comments ends too.
const MOST_LINES: usize = u32::MAX as usize;

/// Why a text cannot be read.
#[derive(Debug)]
pub enum Fault {
    /// In a line, counted from 1.
    Wrong {
        line: usize,
        wrong: Wrong,
    },
    /// It is no text but an archive.
    Archive,
    Unreadable(io::Error),
}

impl fmt::Display for Fault {
    fn fmt(&self, f: &mut fmt::Formatter) -> fmt::Result {
        match self {
            Fault::Wrong { line, wrong } => {
                write!(f, "line {line}, column {}: {}", wrong.column, wrong.message)
            }
            Fault::Archive => write!(f, "an archive"),
            Fault::Unreadable(error) => write!(f, "{error}"),
        }
    }
}

/// A place in a line, counted from 1, and what is wrong there.
#[derive(Debug)]
pub struct Wrong {
    pub column: usize,
    pub message: String,
}

impl Wrong {
    pub fn in_line(self, line: usize) -> Fault {
        Fault::Wrong { line, wrong: self }
    }
}

/// A word of a line, with the column of its first character.
pub struct Token<'a> {
    pub column: usize,
    pub text: &'a str,
}

impl Token<'_> {
    pub fn end(&self) -> usize {
        self.column + self.text.chars().count()
    }

    pub fn wrong(&self, message: String) -> Wrong {
        Wrong {
            column: self.column,
            message,
        }
    }

    pub fn expected(&self, what: &str) -> Wrong {
        self.wrong(format!("expected {what}; found {}", echo::word(self.text)))
    }

    /// Where it is the last of its line and something has to follow.
    pub fn followed_by(&self, what: &str) -> Wrong {
        Wrong {
            column: self.end() + 1,
            message: format!("expected {what}"),
        }
    }
}

/// Hands over each line that has words: its number, the first word and those after it.
pub fn read<F: From<Fault>>(
    text: impl BufRead,
    take: impl FnMut(usize, &Token, &[Token]) -> Result<(), F>,
) -> Result<(), F> {
    read_up_to(MOST_LINES, text, take)
}

fn read_up_to<F: From<Fault>>(
    most: usize,
    mut text: impl BufRead,
    mut take: impl FnMut(usize, &Token, &[Token]) -> Result<(), F>,
) -> Result<(), F> {
    let mut bytes = Vec::new();
    for line in 1..=most {
        bytes.clear();
        // One byte more than is allowed, to see that there is one.
        let mut beginning = text.by_ref().take(LONGEST_LINE as u64 + 1);
        let length = beginning.read_until(b'\n', &mut bytes);
        match length.map_err(Fault::Unreadable)? {
            0 => return Ok(()),
            _ if line == 1 && opens(&bytes) => return Err(Fault::Archive.into()),
            length if length > LONGEST_LINE => return Err(too_long().in_line(line).into()),
            _ => {}
        }
        if let Some((first, rest)) = tokens(&String::from_utf8_lossy(&bytes)).split_first() {
            take(line, first, rest)?;
        }
    }
    let message = format!("a text has at most {} lines", whole(most as u64));
    Err(Wrong { column: 1, message }.in_line(most).into())
}

fn too_long() -> Wrong {
    let most = whole(LONGEST_LINE as u64);
    Wrong {
        column: 1,
        message: format!("the line has more than {most} bytes, the most that one may have"),
    }
}

/// Up to a comment, which begins with # at the start of the line or after a blank.
fn tokens(line: &str) -> Vec<Token<'_>> {
    // Some editors begin a file with a mark of its encoding.
    let line = line.strip_prefix('\u{feff}').unwrap_or(line);
    let mut found = Vec::new();
    let mut column = 1;
    for text in line.split([' ', '\t', '\r', '\n']) {
        if text.starts_with('#') {
            break;
        }
        if !text.is_empty() {
            found.push(Token { column, text });
        }
        column += text.chars().count() + 1;
    }
    found
}

#[cfg(test)]
mod tests {
    use super::*;
    use crate::archive::OPENINGS;

    /// The number, columns and words of each line, or why there are none.
    fn words(most: usize, text: impl BufRead) -> Result<Vec<String>, Fault> {
        let mut found = Vec::new();
        read_up_to(most, text, |line, first, rest| {
            let words = std::iter::once(first).chain(rest);
            let shown = words.map(|word| format!(" {}:{}", word.column, word.text));
            found.push(format!("{line}{}", shown.collect::<String>()));
            Ok::<(), Fault>(())
        })?;
        Ok(found)
    }

    #[test]
    fn words_have_places() {
        let text = "\u{feff}# a comment\r\n\r\n  é\t b#c  #d e\r\n#\nlast";
        let found = words(MOST_LINES, text.as_bytes());
        assert_eq!(
            found.ok(),
            Some(vec!["3 3:é 6:b#c".into(), "5 1:last".into()])
        );
    }

    #[test]
    fn endless_texts_end() {
        let zeros = words(MOST_LINES, io::BufReader::new(io::repeat(0)));
        assert!(matches!(zeros, Err(Fault::Wrong { line: 1, .. })));
        let empty_lines = words(5_000, io::BufReader::new(io::repeat(b'\n')));
        assert!(matches!(empty_lines, Err(Fault::Wrong { line: 5_000, .. })));
    }

    #[test]
    fn the_longest_line() {
        let comment = |length: usize| [b"a\n", &vec![b'#'; length - 1][..], b"\nb\n"].concat();
        let found =
            [LONGEST_LINE, LONGEST_LINE + 1].map(|length| words(MOST_LINES, &comment(length)[..]));
        assert!(matches!(&found[0], Ok(lines) if lines.len() == 2));
        assert!(matches!(&found[1], Err(Fault::Wrong { line: 2, .. })));
    }

    #[test]
    fn archives_are_no_texts() {
        for opening in OPENINGS {
            let archive = [opening, &[0; 4]].concat();
            assert!(matches!(words(9, &archive[..]), Err(Fault::Archive)));
            let later = [b"a\n", opening].concat();
            assert!(words(9, &later[..]).is_ok());
        }
    }
}
