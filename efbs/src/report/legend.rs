//! How to read a chart.

use super::gas_year::{Course, GasYear};
use super::html::escape;
use super::signs::{Sign, REPORTED};
use crate::words::violation;

pub fn legend(year: &GasYear) -> String {
    let confiscated = year.courses().any(Course::has_confiscations);
    let signs = REPORTED
        .into_iter()
        .chain(confiscated.then_some(Sign::Confiscated));
    let sign = |sign: Sign| {
        key(
            sign.name(),
            &format!(
                "<path class=\"sign {}\" d=\"{}\"/>",
                sign.class(),
                sign.shape(17.0, 8.0, 5.0)
            ),
        )
    };
    let names: String = (1..=8)
        .map(|v| format!("<li><b>V{v}</b> {}</li>\n", escape(violation(v))))
        .collect();
    format!(
        "<div class=\"legend\">\n<ul class=\"keys\">\n{}{}{}</ul>\n<ul class=\"names\">\n{names}\
         <li><b>×2</b> the same on two days running</li>\n</ul>\n</div>\n",
        key("bank after the day’s closing", "<path class=\"bank\" d=\"M1 8H33\"/>"),
        key(
            "month’s minimum to maximum",
            "<path class=\"band\" d=\"M1 1H33V15H1Z\"/><path class=\"edge maximum\" d=\"M1 1H33\"/>\
             <path class=\"edge minimum\" d=\"M1 15H33\"/>"
        ),
        signs.map(sign).collect::<String>()
    )
}

fn key(name: &str, drawing: &str) -> String {
    format!("<li><svg viewBox=\"0 0 34 16\" aria-hidden=\"true\">{drawing}</svg> {name}</li>\n")
}
