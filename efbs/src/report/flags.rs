//! The words above a chart: a flag for each movement of gas and for each group of days with the same violations, placed
//! in rows so that no flag covers another and no pole runs through a word.

use super::gas_year::{BankDay, Course};
use super::scale::{Scale, FLAG_ROW, WIDTH};
use super::signs::{Sign, REPORTED};
use crate::shown::gas;
use crate::words::violation_list;

const MOST_ROWS: usize = 4;
/// Of a letter in a flag, in the chart's own measure; a generous mean.
const LETTER: f64 = 6.6;
/// From the pole to the first letter, and from the last letter to the next pole.
const BEFORE_WORDS: f64 = 17.0;
const AFTER_WORDS: f64 = 8.0;

/// Adjoining days with exactly the same violations, or one day's movement.
struct Group {
    sign: Sign,
    /// Offset of the first day in the year, where the pole stands.
    first: usize,
    days: usize,
    mask: u64,
    moved: i64,
}

pub struct Flag {
    group: Group,
    /// 0 is the row next to the chart.
    row: usize,
}

impl Flag {
    /// The rows that it takes with those below it.
    pub fn height(&self) -> usize {
        self.row + 1
    }
}

impl Group {
    /// "V2 V7 ×3", "cash-in 275.05".
    fn text(&self) -> String {
        let what = match self.sign {
            Sign::Violation => violation_names(self.mask),
            _ => format!("{} {}", self.sign.name(), gas(self.moved)),
        };
        match self.days {
            1 => what,
            days => format!("{what} ×{days}"),
        }
    }

    fn width(&self) -> f64 {
        BEFORE_WORDS + self.text().chars().count() as f64 * LETTER + AFTER_WORDS
    }

    fn goes_on_with(&self, day: &BankDay) -> bool {
        let adjoins = self.first + self.days == day.offset;
        adjoins && self.sign == Sign::Violation && self.mask == day.report.mask
    }
}

fn violation_names(mask: u64) -> String {
    let names = violation_list(mask).into_iter().map(|v| format!("V{v}"));
    names.collect::<Vec<_>>().join(" ")
}

/// The flags of a chart; none at all where they need too many rows or the last would run out of the drawing.
pub fn flags(course: &Course, scale: &Scale) -> Option<Vec<Flag>> {
    let signs = REPORTED.iter();
    let mut groups: Vec<Group> = signs.flat_map(|sign| groups(*sign, course)).collect();
    groups.sort_by_key(|group| group.first);
    let rows = rows(&groups, |offset| scale.mid(offset));
    let inside = |group: &Group| scale.mid(group.first) + group.width() <= WIDTH;
    let fit = rows.iter().all(|row| *row < MOST_ROWS) && groups.iter().all(inside);
    let flags = groups.into_iter().zip(rows);
    fit.then(|| flags.map(|(group, row)| Flag { group, row }).collect())
}

fn groups(sign: Sign, course: &Course) -> Vec<Group> {
    let mut groups: Vec<Group> = Vec::new();
    for day in &course.days {
        let Some(moved) = sign.moved(day) else {
            continue;
        };
        match groups.last_mut().filter(|group| group.goes_on_with(day)) {
            Some(group) => group.days += 1,
            None => groups.push(Group {
                sign,
                first: day.offset,
                days: 1,
                mask: day.report.mask,
                moved,
            }),
        }
    }
    groups
}

/// The row of each group. Words run to the right of their pole, so the last flag is placed first, and a flag takes all
/// rows below it up to its pole.
fn rows(groups: &[Group], x: impl Fn(usize) -> f64) -> Vec<usize> {
    let mut free_to: Vec<f64> = Vec::new();
    let mut rows = vec![0; groups.len()];
    for (row, group) in rows.iter_mut().zip(groups).rev() {
        let pole = x(group.first);
        let end = pole + group.width();
        *row = free_to
            .iter()
            .position(|free| end <= *free)
            .unwrap_or(free_to.len());
        free_to.resize(free_to.len().max(*row + 1), pole);
        free_to[..=*row].fill(pole);
    }
    rows
}

fn baseline(scale: &Scale, flag: &Flag) -> f64 {
    scale.top - flag.row as f64 * FLAG_ROW - 4.0
}

/// From a flag down to the first day of its group.
pub fn poles(scale: &Scale, course: &Course, flags: &[Flag]) -> String {
    let mut all = String::new();
    for flag in flags {
        let Some(day) = course
            .days
            .iter()
            .find(|day| day.offset == flag.group.first)
        else {
            continue;
        };
        let (x, y) = scale.point(day);
        let (from, to) = (baseline(scale, flag) - 10.0, y + flag.group.sign.drop(day));
        all += &format!("<path class=\"pole\" d=\"M{x:.1} {from:.1}V{to:.1}\"/>\n");
    }
    all
}

/// The flags themselves: a small sign and its words.
pub fn words(scale: &Scale, flags: &[Flag]) -> String {
    let mut all = String::new();
    for flag in flags {
        let (x, y, sign) = (
            scale.mid(flag.group.first),
            baseline(scale, flag),
            flag.group.sign,
        );
        all += &format!(
            "<path class=\"sign {}\" data-part=\"flag\" d=\"{}\"/>\n<text class=\"flag\" x=\"{:.1}\" y=\"{y:.1}\">{}</text>\n",
            sign.class(),
            sign.shape(x + BEFORE_WORDS / 2.0 + 1.0, y - 4.0, 4.0),
            x + BEFORE_WORDS,
            flag.group.text()
        );
    }
    all
}

#[cfg(test)]
mod tests {
    use super::*;
    use crate::entry::Day;
    use nedrulov::Report;

    fn group(first: usize, mask: u64) -> Group {
        Group {
            sign: Sign::Violation,
            first,
            days: 1,
            mask,
            moved: 0,
        }
    }

    #[test]
    fn flags_of_one_day_stand_above_each_other() {
        let groups = [group(10, 1), group(10, 2), group(300, 4)];
        assert_eq!(rows(&groups, |offset| offset as f64), [1, 0, 0]);
    }

    #[test]
    fn no_pole_runs_through_the_words_of_a_lower_flag() {
        let groups = [group(0, 255), group(45, 1), group(50, 3)];
        let rows = rows(&groups, |offset| offset as f64);
        assert_eq!(rows, [2, 1, 0]);
    }

    #[test]
    fn words_that_would_run_out_of_the_drawing_are_left_to_the_lanes() {
        let forfeiting = |forfeit| {
            let date = Day {
                year: 2027,
                month: 3,
                day: 31,
            };
            let report = Report {
                forfeit,
                ..Report::default()
            };
            let day = BankDay {
                date,
                offset: 364,
                bank: 0,
                bcq: 1,
                report,
                confiscated: None,
            };
            Course {
                account: 0,
                days: vec![day],
            }
        };
        let fits = |course: Course| flags(&course, &Scale::of(&course, 365)).is_some();
        assert!(fits(forfeiting(12_345_678)));
        assert!(!fits(forfeiting(123_456_789_000)));
    }
}
