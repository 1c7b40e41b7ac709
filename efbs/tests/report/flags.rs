//! What stands above and below a chart adds up to the statement.

use crate::archives::{confiscated, page, sample_until, SAMPLE_YEAR};
use crate::common::{pack, sample};
use crate::reading::{charts, number};
use efbs::statement::{statements, Statement};

/// A bank below zero on two days running, by different amounts.
const TWO_DAYS: &str = "\
2026-04-01 terms no-notice=120000 design-day=480000 storage=5000400 retainage=0.00% demand-rate=0.000 commodity-rate=0.000
2026-04-01 enrol account=0 wants-efbs mdq=4200 opening=0.00
2026-04-01 deliver account=0 delivered=0.00 back-cast=100.00
2026-04-01 close-day
2026-04-02 deliver account=0 delivered=0.00 back-cast=200.00
2026-04-02 close-day
";

const MOVES: [&str; 3] = ["cash-in", "cash-out", "forfeit"];

/// Days of V1 to V8, and hundredths of each movement.
type Sums = ([u64; 8], [i64; 3]);

fn stated(statement: &Statement) -> Sums {
    let moves = [statement.cash_ins, statement.cash_outs, statement.forfeits];
    (statement.violations, moves)
}

fn units(amount: &str) -> i64 {
    (number(amount) * 100.0).round() as i64
}

fn add_days(sums: &mut Sums, names: &str, days: u64) {
    for (v, sum) in (1..).zip(&mut sums.0) {
        *sum += days * u64::from(names.split(' ').any(|name| name == format!("V{v}")));
    }
}

/// The words of every flag: "V2 V7 ×2", "cash-in 275.05".
fn flagged(chart: &str) -> Sums {
    let mut sums = Sums::default();
    for flag in chart.split("class=\"flag\"").skip(1) {
        let words = flag.split(['>', '<']).nth(1).unwrap_or("");
        let moved = MOVES.iter().position(|name| words.starts_with(name));
        match (moved, words.split_once(" ×")) {
            (Some(place), None) => sums.1[place] += units(&words[MOVES[place].len() + 1..]),
            (None, Some((names, days))) => add_days(&mut sums, names, number(days) as u64),
            (None, None) => add_days(&mut sums, words, 1),
            (Some(_), Some(_)) => panic!("movements are told one by one: {words}"),
        }
    }
    sums
}

/// The rows of the table below.
fn listed(chart: &str) -> Sums {
    let mut sums = Sums::default();
    for row in chart.split("<tr><th scope=\"row\">").skip(1) {
        let cells: Vec<&str> = row.split("<td>").collect();
        let cell = |place: usize| cells[place].split("</td>").next().unwrap_or("");
        let days = match cells[0].split_once(" (") {
            Some((_, days)) => number(days.split(' ').next().unwrap_or("")) as u64,
            None => 1,
        };
        add_days(&mut sums, cell(1), days);
        for (place, sum) in sums.1.iter_mut().enumerate() {
            let moved = cell(2 + place);
            assert!(days == 1 || moved == "–", "{row}");
            *sum += if moved == "–" { 0 } else { units(moved) };
        }
    }
    sums
}

#[test]
fn flags_and_tables_add_up_to_the_statement() {
    let mut flags = 0;
    for archive in [
        sample(),
        sample_until("2026-11-04"),
        pack(TWO_DAYS),
        confiscated(),
    ] {
        let page = page(&archive, SAMPLE_YEAR);
        let statements = statements(&archive, None).expect("the archive is right");
        for (chart, statement) in charts(&page).iter().zip(&statements) {
            assert_eq!(flagged(chart), stated(statement));
            assert_eq!(listed(chart), stated(statement));
            flags += chart.matches("class=\"flag\"").count();
        }
    }
    assert_eq!(flags, 10 + 6 + 3 + 14);
}

#[test]
fn the_headline_is_of_the_year_with_its_date() {
    for (archive, year, figure, date) in [
        (
            sample(),
            2026,
            "62,888.86 <span>Dth</span>",
            "31 March 2027",
        ),
        (
            sample_until("2026-09-17"),
            2026,
            "Dth</span>",
            "17 September 2026",
        ),
        (
            pack(TWO_DAYS),
            2026,
            ">0.00 <span>Dth</span>",
            "2 April 2026",
        ),
        (
            sample(),
            2025,
            ">–</p>",
            "no accepted posting of this gas year",
        ),
        (
            sample(),
            2027,
            ">–</p>",
            "no accepted posting of this gas year",
        ),
    ] {
        let page = page(&archive, year);
        let (_, rest) = page.split_once("<p class=\"number\"").expect("a figure");
        let headline = rest.split("</div>").next().unwrap_or("");
        assert!(
            headline.contains(figure) && headline.contains(date),
            "{headline}"
        );
    }
}
