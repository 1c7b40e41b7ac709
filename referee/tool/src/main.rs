//! Compares the proved library with the referee, and races both and others.

mod accounting;
mod amounts;
mod archives;
mod backcasts;
mod both;
mod boundaries;
mod compare;
mod confiscation;
mod convert;
mod damage;
mod edits;
mod entries;
mod events;
mod forfeits;
mod gas_year;
mod holiday_counts;
mod holidays;
mod hostile;
mod ledgers;
mod letter_counts;
mod letters;
mod measuring;
mod naming;
mod noise;
mod pairs;
mod partner_counts;
mod partners;
mod race;
mod random;
mod reached;
mod run;
mod years;

use std::process::ExitCode;

const USAGE: &str =
    "usage: referee compare [--seconds N] [--seed S] [--kind a|b|c|d|e|f|g]\n       referee race";

fn main() -> ExitCode {
    let words: Vec<String> = std::env::args().skip(1).collect();
    let done = match words.first().map(String::as_str) {
        Some("compare") => {
            compare::Options::read(&words[1..]).map(|options| compare::run(&options))
        }
        Some("race") if words.len() == 1 => {
            race::run();
            Some(true)
        }
        _ => None,
    };
    match done {
        Some(true) => ExitCode::SUCCESS,
        Some(false) => ExitCode::FAILURE,
        None => {
            eprintln!("{USAGE}");
            ExitCode::from(2)
        }
    }
}
