//! The signs that stand on a chart for what happened on a day. Each has a shape of its own, so that colour alone tells
//! nothing.

use super::gas_year::BankDay;
use crate::movements::{reported_movements, Cause};

#[derive(Clone, Copy, Debug, PartialEq, Eq)]
pub enum Sign {
    Violation,
    CashIn,
    CashOut,
    Forfeit,
    Confiscated,
}

/// Of what a closing reports: these have flags or lanes. What is confiscated moves nothing and has none.
pub const REPORTED: [Sign; 4] = [Sign::Violation, Sign::CashIn, Sign::CashOut, Sign::Forfeit];
pub const ALL: [Sign; 5] = [
    Sign::Violation,
    Sign::CashIn,
    Sign::CashOut,
    Sign::Forfeit,
    Sign::Confiscated,
];

impl Sign {
    /// Why gas was moved, if it was.
    fn cause(self) -> Option<Cause> {
        match self {
            Sign::Violation | Sign::Confiscated => None,
            Sign::CashIn => Some(Cause::CashIn),
            Sign::CashOut => Some(Cause::CashOut),
            Sign::Forfeit => Some(Cause::Forfeit),
        }
    }

    pub fn name(self) -> &'static str {
        match self {
            Sign::Violation => "violation day",
            Sign::Confiscated => "confiscated",
            _ => self.class(),
        }
    }

    /// The name that the style sheet knows it by. What is confiscated has the colour of the forfeit that it limits.
    pub fn class(self) -> &'static str {
        match self {
            Sign::Confiscated => Sign::Forfeit.class(),
            _ => self.cause().map_or("violation", Cause::name),
        }
    }

    /// The size of what was moved or confiscated, in units; nothing if the day had none.
    pub fn moved(self, day: &BankDay) -> Option<i64> {
        match (self, self.cause()) {
            (Sign::Confiscated, _) => day.confiscated.map(|units| units as i64),
            (_, None) => day.is_violation_day().then_some(0),
            (_, Some(cause)) => reported_movements(&day.report)
                .find(|(reported, _)| *reported == cause)
                .map(|(_, units)| units.abs()),
        }
    }

    /// How far below its day's bank the sign stands, so that two of one day do not cover each other: gas that came in
    /// pushes from below, gas that went out from above. What was confiscated takes the place that cash leaves.
    pub fn drop(self, day: &BankDay) -> f64 {
        let cash = day.report.cash;
        match self {
            Sign::Violation => 0.0,
            Sign::Confiscated if cash > 0 => -24.0,
            Sign::CashIn | Sign::Confiscated => 12.0,
            Sign::Forfeit if cash < 0 => -24.0,
            Sign::CashOut | Sign::Forfeit => -12.0,
        }
    }

    /// The shape around a point, `r` from its middle to its edge.
    pub fn shape(self, x: f64, y: f64, r: f64) -> String {
        let corners = match self {
            Sign::Violation => vec![(0.0, -r), (r, 0.0), (0.0, r), (-r, 0.0)],
            Sign::CashIn => vec![(0.0, -r), (r, r), (-r, r)],
            Sign::CashOut => vec![(-r, -r), (r, -r), (0.0, r)],
            Sign::Forfeit => vec![(-r, -r), (r, -r), (r, r), (-r, r)],
            Sign::Confiscated => cross(r, 0.4 * r),
        };
        let corners = corners
            .iter()
            .map(|(dx, dy)| format!("{:.1} {:.1}", x + dx, y + dy));
        format!("M{}Z", corners.collect::<Vec<_>>().join("L"))
    }
}

/// From its middle to its ends, and to the edge of its arms.
fn cross(end: f64, edge: f64) -> Vec<(f64, f64)> {
    let right = [(edge, -edge), (end, -edge), (end, edge), (edge, edge)];
    let lower = [(edge, end), (-edge, end)];
    let rest = right.iter().chain(&lower).map(|(x, y)| (-x, -y));
    right.into_iter().chain(lower).chain(rest).collect()
}

#[cfg(test)]
mod tests {
    use super::*;
    use crate::entry::Day;
    use nedrulov::Report;

    #[test]
    fn no_two_signs_of_a_day_stand_in_one_place() {
        for cash in [-1, 0, 1] {
            let day = BankDay {
                date: Day {
                    year: 2027,
                    month: 1,
                    day: 31,
                },
                offset: 305,
                bank: 0,
                bcq: 1,
                report: Report {
                    mask: 1,
                    cash,
                    forfeit: 1,
                    bill: 0,
                },
                confiscated: Some(0),
            };
            let stands = ALL.into_iter().filter(|sign| sign.moved(&day).is_some());
            let mut drops: Vec<i64> = stands.map(|sign| sign.drop(&day) as i64).collect();
            drops.sort();
            assert!(
                drops.windows(2).all(|two| two[1] - two[0] >= 12),
                "{drops:?}"
            );
            assert_eq!(drops.len() as i64, 3 + cash.abs());
        }
    }
}
