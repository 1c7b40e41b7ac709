//! Statements of small lists, worked out by hand.

mod common;

use common::pack;
use efbs::entry::Day;
use efbs::statement::{statements, Bill, Statement};

const BEGINNING: &str = "\
2026-04-01 terms no-notice=120000 design-day=480000 storage=5000400 retainage=1.50% demand-rate=0.000 commodity-rate=0.000
2026-04-01 enrol account=2 wants-efbs mdq=4200 opening=10.00
2026-04-01 enrol account=5 wants-efbs mdq=4200 opening=20.00
";

/// Gas moves in every way that one day has. Refused: an entry of a later day, one of an account that is not open, terms.
const FIRST_DAY: &str = "\
2026-12-31 close-day
2026-04-01 deliver account=2 delivered=10.00 back-cast=0.00
2026-04-01 deliver account=5 delivered=0.00 back-cast=30.01
2026-04-01 trade account=2 company-sells gas=7.00
2026-04-01 trade account=2 company-buys gas=2.00
2026-04-01 transfer from=2 to=5 gas=1.00
2026-04-01 transfer from=2 to=9 gas=1.00
2026-04-01 terms no-notice=120000 design-day=480000 storage=5000400 retainage=50.00% demand-rate=0.000 commodity-rate=0.000
2026-04-01 close-day
";

/// Account 2 injects what the refused terms would have halved. An entry of the day before is refused.
const SECOND_DAY: &str = "\
2026-04-02 deliver account=2 delivered=10.00 back-cast=0.00
2026-04-01 trade account=2 company-sells gas=7.00
2026-04-02 deliver account=5 delivered=0.00 back-cast=0.00
2026-04-02 close-day
";

const NO_PRICES: &str =
    "average-cost=0.000 highest-price=0.000 lowest-price=0.000 pipeline-charges=0.000";

fn day(text: &str) -> Option<Day> {
    Some(text.parse().expect("a date"))
}

/// What the first day leaves. Account 5: 20.00 less 29.55, and 1.00 from account 2, so 8.55 are cashed in.
fn after_first_day() -> Vec<Statement> {
    vec![
        Statement {
            account: 2,
            opening: 1_000,
            deliveries: 985,
            sales: 700,
            purchases: 200,
            transfers_out: 100,
            bank: 2_385,
            ..Statement::default()
        },
        Statement {
            account: 5,
            opening: 2_000,
            deliveries: -2_955,
            transfers_in: 100,
            cash_ins: 855,
            violation_days: 1,
            violations: [0, 0, 0, 0, 0, 0, 1, 0],
            days: 1,
            ..Statement::default()
        },
    ]
}

#[test]
fn one_day() {
    let found = statements(&pack(&[BEGINNING, FIRST_DAY].concat()), None);
    assert_eq!(found, Ok(after_first_day()));
}

/// Account 2 gives and takes by letters, of which the first came from either; what stands or is refused is in no term.
#[test]
fn two_letters_are_a_transfer() {
    const LETTERS: &str = "\
2026-04-01 notice account=2 other=5 gives gas=3.00
2026-04-01 notice account=5 other=2 takes gas=3.00
2026-04-01 notice account=2 other=5 takes gas=1.25
2026-04-01 notice account=2 other=5 takes gas=1.00
2026-04-01 notice account=5 other=2 gives gas=1.25
2026-04-01 transfer from=2 to=5 gas=0.50
2026-04-01 notice account=5 other=2 gives gas=4.00
2026-04-01 notice account=2 other=5 gives gas=4.00
";
    let archive = pack(&["rules new\n", BEGINNING, LETTERS].concat());
    let found = statements(&archive, None).expect("the archive is right");
    let moved = found
        .iter()
        .map(|s| (s.transfers_in, s.transfers_out, s.bank));
    assert_eq!(
        moved.collect::<Vec<_>>(),
        [(125, 350, 775), (350, 125, 2_225)]
    );
    assert!(found.iter().all(Statement::agrees));
}

#[test]
fn sums() {
    for statement in after_first_day() {
        assert!(statement.agrees());
        assert_eq!(statement.sum(), statement.bank);
    }
}

#[test]
fn until_a_day() {
    let archive = pack(&[BEGINNING, FIRST_DAY, SECOND_DAY].concat());
    assert_eq!(
        statements(&archive, day("2026-04-01")),
        Ok(after_first_day())
    );
    assert_eq!(statements(&archive, day("2026-03-31")), Ok(Vec::new()));
    assert_eq!(
        statements(&archive, day("2026-04-02")),
        statements(&archive, None)
    );
}

#[test]
fn retainage_is_that_of_the_accepted_terms() {
    let found = statements(&pack(&[BEGINNING, FIRST_DAY, SECOND_DAY].concat()), None);
    let deliveries: Vec<i64> = found.into_iter().flatten().map(|s| s.deliveries).collect();
    assert_eq!(deliveries, [985 + 985, -2_955]);
}

/// A whole April in which nothing is delivered.
fn idle_april() -> String {
    let mut text = String::from(BEGINNING);
    for day in 1..=30 {
        let date = format!("2026-04-{day:02}");
        for account in [2, 5] {
            text += &format!("{date} deliver account={account} delivered=0.00 back-cast=0.00\n");
            text += &match day {
                27 => format!("{date} measure account={account} mdq=4200\n"),
                30 => format!("{date} usage account={account} consumed=9\n"),
                _ => String::new(),
            };
        }
        text += &match day {
            30 => format!("{date} close-month {NO_PRICES}\n"),
            _ => format!("{date} close-day\n"),
        };
    }
    text
}

#[test]
fn bills_of_nothing_are_bills() {
    let found = statements(&pack(&idle_april()), None).expect("the archive is right");
    let date = "2026-04-30".parse().expect("a date");
    assert_eq!(found.len(), 2);
    for statement in found {
        assert_eq!(statement.bills, [Bill { date, mills: 0 }]);
    }
}
