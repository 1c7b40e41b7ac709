//! The year's letters that nobody answered.

use super::html::{table, time, Row};
use crate::calendar::gas_year_of;
use crate::letters::{unanswered, Counts, Fate, Letter};
use crate::shown::{gas, whole};

/// Nothing of a year in which no letter came to stand.
pub fn letters(list: &[(Letter, Fate)], year: u16) -> String {
    let mut list = list.to_vec();
    list.retain(|(letter, _)| gas_year_of(letter.date) == year);
    match list.is_empty() {
        true => String::new(),
        false => format!(
            "<section>\n<h2>Letters without an answer</h2>\n<p>{}</p>\n{}</section>\n",
            counted(&Counts::of(&list)),
            unanswered_table(&list)
        ),
    }
}

fn counted(counts: &Counts) -> String {
    let [all, answered, cleared, standing] = counts.shown();
    format!(
        "A notice stands until the other party’s is accepted or its day closes. Letters of this gas year that stood: {all}; \
         answered: {answered}; cleared by a closing without an answer: {cleared}; standing as the archive ends: {standing}."
    )
}

fn unanswered_table(list: &[(Letter, Fate)]) -> String {
    let heads = [
        "Entry",
        "Date",
        "Account",
        "Other",
        "Side",
        "Gas, Dth",
        "Cleared by",
    ];
    let rows: Vec<Row> = unanswered(list).map(row_of).collect();
    match rows.is_empty() {
        true => String::new(),
        false => table(
            "letters",
            "Entries by their place in the archive, counted from 0",
            &heads,
            &rows,
        ),
    }
}

fn row_of((letter, fate): &(Letter, Fate)) -> Row {
    let entry = |closing: usize| format!("entry {}", whole(closing as u64));
    let cleared_by = fate.closing().map_or("–".to_string(), entry);
    Row::of(vec![
        whole(letter.index as u64),
        time(letter.date),
        letter.writer.to_string(),
        letter.other.to_string(),
        letter.side().to_string(),
        gas(letter.units),
        cleared_by,
    ])
}
