//! The chart of one account: its bank after each closing of the year, against the band that the month allows.

use super::axes;
use super::flags::{self, Flag};
use super::gas_year::{BankDay, Course, GasYear};
use super::html::violation_days;
use super::lanes;
use super::reported::named;
use super::scale::{stretches, Scale, Stretch, FOOT, WIDTH};
use super::signs::{self, Sign};
use crate::calendar::month_starts;
use crate::shown::gas;
use nedrulov::MONTHS;

/// Of a sign, from its middle; less where signs stand day by day.
const SIGN: f64 = 4.6;
const CROWDED_SIGN: f64 = 4.0;
const CROWDED: u64 = 40;

pub fn chart(course: &Course, year: &GasYear) -> String {
    let starts = month_starts(year.year);
    let scale = Scale::of(course, starts[MONTHS]);
    let (flags, lanes) = match flags::flags(course, &scale) {
        Some(flags) => (flags, Vec::new()),
        None => (Vec::new(), lanes::lanes(course)),
    };
    let scale = scale.below_flags(flags.iter().map(Flag::height).max().unwrap_or(0));
    let height = scale.bottom() + FOOT + lanes::height(&lanes);
    let parts = [
        words(course, year),
        axes::amounts(&scale),
        axes::months(&scale, &starts, year),
        band(&scale, course),
        flags::poles(&scale, course, &flags),
        line_and_marks(&scale, course),
        flags::words(&scale, &flags),
        ends(&scale, course),
        axes::capacities(&scale, course),
        lanes::bars(&scale, &lanes),
    ];
    format!(
        "<svg viewBox=\"0 0 {WIDTH:.0} {height:.0}\" role=\"img\" \
         aria-labelledby=\"name-{0} about-{0}\">\n{1}</svg>\n",
        course.account,
        parts.concat()
    )
}

/// What the chart shows, in words.
fn words(course: &Course, year: &GasYear) -> String {
    let account = course.account;
    let title = format!("Bank of account {account} in the gas year {}", year.name());
    let extent = match (course.days.first(), course.days.last()) {
        (Some(first), Some(last)) => format!(
            "from {} Dth on {} to {} Dth on {}",
            gas(first.bank),
            first.date,
            gas(last.bank),
            last.date
        ),
        _ => "no closing".to_string(),
    };
    let days = violation_days(course.violation_days());
    format!(
        "<title id=\"name-{account}\">{title}</title>\n<desc id=\"about-{account}\">Bank after each closing, {extent}, \
         against the month’s minimum and maximum; {days}. The table below lists them.</desc>\n"
    )
}

/// The month's minimum to maximum, in steps where the month or the BCQ changes.
fn band(scale: &Scale, course: &Course) -> String {
    let minima = edge(scale, &stretches(course, BankDay::minimum));
    let maxima = edge(scale, &stretches(course, BankDay::maximum));
    let mut area = maxima.clone();
    area.extend(minima.iter().rev());
    format!(
        "<path class=\"band\" d=\"{}Z\"/>\n<path class=\"edge maximum\" d=\"{}\"/>\n<path class=\"edge minimum\" d=\"{}\"/>\n",
        path(&area),
        path(&maxima),
        path(&minima)
    )
}

fn edge(scale: &Scale, stretches: &[Stretch<i64>]) -> Vec<(f64, f64)> {
    let corners = |stretch: &Stretch<i64>| {
        [stretch.from, stretch.to].map(|offset| (scale.x(offset), scale.y(stretch.value)))
    };
    stretches.iter().flat_map(corners).collect()
}

fn path(points: &[(f64, f64)]) -> String {
    let points: Vec<String> = points
        .iter()
        .map(|(x, y)| format!("{x:.1} {y:.1}"))
        .collect();
    format!("M{}", points.join("L"))
}

/// The bank itself; a dot where there is only one closing.
fn line(scale: &Scale, course: &Course) -> String {
    let points: Vec<_> = course.days.iter().map(|day| scale.point(day)).collect();
    let dot = match points.as_slice() {
        [(x, y)] => format!("<circle class=\"dot\" cx=\"{x:.1}\" cy=\"{y:.1}\" r=\"2.5\"/>\n"),
        _ => String::new(),
    };
    format!("<path class=\"bank\" d=\"{}\"/>\n{dot}", path(&points))
}

/// Marks stand on the line; where they crowd, they lie behind it, so that it stays whole.
fn line_and_marks(scale: &Scale, course: &Course) -> String {
    let line = line(scale, course);
    match course.violation_days() {
        0..=CROWDED => line + &marks(scale, course, SIGN),
        _ => marks(scale, course, CROWDED_SIGN) + &line,
    }
}

fn marks(scale: &Scale, course: &Course, size: f64) -> String {
    let mut all = String::new();
    for day in &course.days {
        let (x, y) = scale.point(day);
        for sign in signs::ALL {
            let Some(moved) = sign.moved(day) else {
                continue;
            };
            let what = match sign {
                Sign::Violation => named(day.report.mask),
                _ => format!("{} {} Dth", sign.name(), gas(moved)),
            };
            all += &format!(
                "<path class=\"sign {}\" d=\"{}\"><title>{}: {what}</title></path>\n",
                sign.class(),
                sign.shape(x, y + sign.drop(day), size),
                day.date
            );
        }
    }
    all
}

/// What each line is, written where it ends.
fn ends(scale: &Scale, course: &Course) -> String {
    let Some(last) = course.days.last() else {
        return String::new();
    };
    let mut labels = [
        (scale.y(last.maximum()), "end", "maximum".to_string()),
        (
            scale.y(last.bank),
            "end bank-end",
            format!("bank {}", gas(last.bank)),
        ),
        (scale.y(last.minimum()), "end", "minimum".to_string()),
    ];
    labels.sort_by(|a, b| b.0.total_cmp(&a.0));
    let mut limit = f64::INFINITY;
    let mut all = String::new();
    for (y, class, text) in labels {
        // From the lowest upward, each a line above the one before.
        let y = y.min(limit);
        limit = y - 14.0;
        let x = scale.x(last.offset + 1) + 7.0;
        all += &format!(
            "<text class=\"{class}\" x=\"{x:.1}\" y=\"{:.1}\">{text}</text>\n",
            y + 4.0
        );
    }
    all
}
