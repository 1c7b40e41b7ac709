//! The axes of a chart: amounts to the left, months and the BCQ below.

use super::gas_year::{Course, GasYear};
use super::html::escape;
use super::scale::{stretches, Scale, LEFT, NAMES, RIGHT, UNITS_PER_DTH};
use crate::amounts::grouped;
use crate::calendar;
use crate::shown::whole;
use crate::words::month_name;
use nedrulov::MONTHS;

pub fn amounts(scale: &Scale) -> String {
    let mut lines = format!(
        "<text class=\"tick\" x=\"{:.1}\" y=\"{:.1}\">Dth</text>\n",
        NAMES,
        scale.top + 12.0
    );
    for tick in ticks(scale.low, scale.high) {
        let (y, class) = (scale.y(tick), if tick == 0 { "zero" } else { "grid" });
        lines += &format!(
            "<path class=\"{class}\" d=\"M{LEFT:.1} {y:.1}H{:.1}\"/>\n<text class=\"tick\" x=\"{:.1}\" y=\"{:.1}\">{}</text>\n",
            RIGHT,
            NAMES,
            y + 4.0,
            grouped(&(tick / UNITS_PER_DTH).to_string())
        );
    }
    lines
}

/// The amounts at which lines are drawn: about five, at 1, 2 or 5 times a power of ten Dth.
fn ticks(low: i64, high: i64) -> Vec<i64> {
    let mut steps =
        (0..10).flat_map(|power| [1, 2, 5].map(|n| n * UNITS_PER_DTH * 10_i64.pow(power)));
    let step = steps
        .find(|step| (high - low) / step <= 6)
        .unwrap_or(high - low);
    (low.div_euclid(step)..=high.div_euclid(step))
        .map(|n| n * step)
        .filter(|tick| *tick >= low)
        .collect()
}

pub fn months(scale: &Scale, starts: &[usize; MONTHS + 1], year: &GasYear) -> String {
    let mut all = String::new();
    for start in starts {
        let x = scale.x(*start);
        all += &format!(
            "<path class=\"grid\" d=\"M{x:.1} {:.1}V{:.1}\"/>\n",
            scale.top,
            scale.bottom()
        );
    }
    for ((year, month), ends) in calendar::months(year.year).iter().zip(starts.windows(2)) {
        let middle = (scale.x(ends[0]) + scale.x(ends[1])) / 2.0;
        let name = month_name(*month);
        let short = escape(name.get(..3).unwrap_or(name));
        let label = match month {
            4 | 1 => format!("{short} {year}"),
            _ => short,
        };
        all += &format!(
            "<text class=\"month\" x=\"{middle:.1}\" y=\"{:.1}\">{label}</text>\n",
            scale.bottom() + 17.0
        );
    }
    all
}

/// The BCQ that the band is a share of, under the months for which it held.
pub fn capacities(scale: &Scale, course: &Course) -> String {
    let y = scale.bottom() + 40.0;
    let mut all = format!(
        "<text class=\"tick\" x=\"{:.1}\" y=\"{y:.1}\">BCQ, Dth</text>\n",
        NAMES
    );
    for stretch in stretches(course, |day| day.bcq) {
        let (from, to) = (scale.x(stretch.from), scale.x(stretch.to));
        all += &format!(
            "<path class=\"span\" d=\"M{:.1} {:.1}V{:.1}H{:.1}\"/>\n<text class=\"bcq\" x=\"{:.1}\" y=\"{y:.1}\">{}</text>\n",
            from + 1.0,
            y + 2.0,
            y - 12.0,
            to - 3.0,
            from + 6.0,
            whole(stretch.value)
        );
    }
    all
}
