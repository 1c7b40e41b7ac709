//! The letters that nobody answered, as a page or as JSON.

use super::never_enrolled;
use crate::failure::Failure;
use crate::json::{array, number_or_null, object, string};
use crate::letters::{unanswered, Counts, Fate, Fates, Letter};
use crate::movements::Movements;
use crate::replay::replay;
use crate::shown::gas;
use std::io::{self, Write};

const NAMES: [&str; 6] = ["entry", "date", "account", "other", "side", "gas, Dth"];

pub fn write(
    archive: &[u8],
    account: Option<usize>,
    json: bool,
    out: &mut dyn Write,
) -> Result<(), Failure> {
    let (mut movements, mut fates) = (Movements::default(), Fates::default());
    replay(archive, |step| {
        movements.of(step);
        fates.add(step);
    })?;
    // No letter is accepted of an account that is not enrolled.
    if let Some(stranger) = account.filter(|account| !movements.is_enrolled(*account)) {
        return Err(never_enrolled(stranger));
    }
    let mut list = fates.list();
    list.retain(|(letter, _)| account.is_none_or(|account| letter.concerns(account)));
    match json {
        true => write_json(account, &list, out)?,
        false => write_page(&list, out)?,
    }
    Ok(())
}

/// Gas in whole units.
fn write_json(
    account: Option<usize>,
    list: &[(Letter, Fate)],
    out: &mut dyn Write,
) -> io::Result<()> {
    let counts = Counts::of(list);
    let letters: Vec<String> = unanswered(list).map(in_json).collect();
    let members = [
        ("account", number_or_null(account)),
        ("letters", array(&letters)),
        ("answered", counts.answered.to_string()),
        ("cleared", counts.cleared.to_string()),
        ("standing", counts.standing.to_string()),
    ];
    writeln!(out, "{}", object(&members))
}

fn in_json((letter, fate): &(Letter, Fate)) -> String {
    object(&[
        ("entry", letter.index.to_string()),
        ("date", string(&letter.date.to_string())),
        ("account", letter.writer.to_string()),
        ("other", letter.other.to_string()),
        ("side", string(letter.side())),
        ("gas", letter.units.to_string()),
        ("cleared_by", number_or_null(fate.closing())),
    ])
}

fn write_page(list: &[(Letter, Fate)], out: &mut dyn Write) -> io::Result<()> {
    let rows: Vec<&(Letter, Fate)> = unanswered(list).collect();
    match rows.is_empty() {
        true => writeln!(out, "No letter went unanswered.\n")?,
        false => write_table(&rows, out)?,
    }
    writeln!(out, "{}", counted(&Counts::of(list)))
}

fn counted(counts: &Counts) -> String {
    let letters = match counts.all() {
        1 => "letter",
        _ => "letters",
    };
    let [all, answered, cleared, standing] = counts.shown();
    format!("{all} {letters} came to stand: {answered} answered, {cleared} cleared unanswered, {standing} standing")
}

fn write_table(rows: &[&(Letter, Fate)], out: &mut dyn Write) -> io::Result<()> {
    let mut lines = vec![(NAMES.map(str::to_string), String::new())];
    lines.extend(
        rows.iter()
            .map(|(letter, fate)| (cells(letter), became(letter, *fate))),
    );
    let longest = |column: usize| lines.iter().map(|(cells, _)| cells[column].len()).max();
    let widths: [usize; NAMES.len()] = std::array::from_fn(|column| longest(column).unwrap_or(0));
    for (cells, became) in &lines {
        let cells = cells.iter().zip(&widths);
        let line = cells.map(|(cell, width)| format!("{cell:>width$}  "));
        let line = line.collect::<String>() + became;
        writeln!(out, "{}", line.trim_end())?;
    }
    writeln!(out)
}

fn cells(letter: &Letter) -> [String; NAMES.len()] {
    [
        letter.index.to_string(),
        letter.date.to_string(),
        letter.writer.to_string(),
        letter.other.to_string(),
        letter.side().to_string(),
        gas(letter.units),
    ]
}

fn became(letter: &Letter, fate: Fate) -> String {
    match fate.closing() {
        Some(closing) => format!("cleared by the closing, entry {closing}"),
        None => format!("stands, and awaits account {}", letter.other),
    }
}
