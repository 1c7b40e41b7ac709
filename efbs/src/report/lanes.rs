//! The days of a chart that has too much to report for flags: a lane for each kind of report that occurred, with a bar
//! over its days.

use super::gas_year::{BankDay, Course};
use super::scale::{Scale, FOOT, LEFT, NAMES, RIGHT};
use super::signs::{Sign, REPORTED};
use crate::words::violation_list;

const LANE: f64 = 17.0;
/// Of the line that tells how to read the lanes.
const KEY: f64 = 23.0;

pub struct Lane {
    name: String,
    class: &'static str,
    /// Offsets of the first day of each run of days, and of the day after its last.
    runs: Vec<(usize, usize)>,
}

/// V1 to V8, then cash-in, cash-out and forfeit; those that occurred.
pub fn lanes(course: &Course) -> Vec<Lane> {
    let violations = (1..=8).map(|v| {
        let runs = runs(course, |day| violation_list(day.report.mask).contains(&v));
        Lane {
            name: format!("V{v}"),
            class: Sign::Violation.class(),
            runs,
        }
    });
    let moves = REPORTED
        .into_iter()
        .filter(|sign| *sign != Sign::Violation)
        .map(|sign| {
            let runs = runs(course, |day| sign.moved(day).is_some());
            Lane {
                name: sign.name().to_string(),
                class: sign.class(),
                runs,
            }
        });
    violations
        .chain(moves)
        .filter(|lane| !lane.runs.is_empty())
        .collect()
}

fn runs(course: &Course, reported: impl Fn(&BankDay) -> bool) -> Vec<(usize, usize)> {
    let mut runs: Vec<(usize, usize)> = Vec::new();
    for day in course.days.iter().filter(|day| reported(day)) {
        match runs.last_mut().filter(|(_, end)| *end == day.offset) {
            Some((_, end)) => *end += 1,
            None => runs.push((day.offset, day.offset + 1)),
        }
    }
    runs
}

/// Room that the lanes take, with their key.
pub fn height(lanes: &[Lane]) -> f64 {
    match lanes.len() {
        0 => 0.0,
        rows => KEY + LANE * rows as f64,
    }
}

/// Under everything else, a lane for each kind of report.
pub fn bars(scale: &Scale, lanes: &[Lane]) -> String {
    if lanes.is_empty() {
        return String::new();
    }
    let top = scale.bottom() + FOOT;
    let mut all = format!(
        "<text class=\"key\" x=\"{LEFT:.1}\" y=\"{:.1}\">A bar covers the days on which a closing reported what stands \
         before it; flags would have no room.</text>\n",
        top + 13.0
    );
    for (row, lane) in lanes.iter().enumerate() {
        let y = top + KEY + LANE * row as f64;
        let bar = |(from, to): &(usize, usize)| {
            format!(
                "M{:.1} {:.1}H{:.1}V{y:.1}H{0:.1}Z",
                scale.x(*from),
                y + 11.0,
                scale.x(*to)
            )
        };
        all += &format!(
            "<text class=\"tick\" x=\"{:.1}\" y=\"{:.1}\">{}</text>\n<path class=\"grid\" d=\"M{LEFT:.1} {:.1}H{:.1}\"/>\n\
             <path class=\"{}\" d=\"{}\"/>\n",
            NAMES,
            y + 10.0,
            lane.name,
            y + 13.5,
            RIGHT,
            lane.class,
            lane.runs.iter().map(bar).collect::<String>()
        );
    }
    all
}
