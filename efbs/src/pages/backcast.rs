//! Back-casts: what a load curve says of each temperature.

use crate::amounts::gas;
use crate::curve::Curve;
use crate::echo;
use crate::failure::Failure;
use crate::readings::{Reading, Readings};
use crate::rules::Rules;
use crate::shown::whole;
use crate::words::refusal;
use nedrulov::BackCast;
use std::io::{self, Write};

const LABEL: &str = "label";
const TEMPERATURE: &str = "temperature";
const BACK_CAST: &str = "back-cast, Dth";

/// A refused reading does not keep the others from being shown.
pub fn write(
    curve: &Curve,
    readings: &Readings,
    csv: bool,
    out: &mut dyn Write,
) -> Result<(), Failure> {
    let refused = match csv {
        true => write_csv(curve, readings, out)?,
        false => write_page(curve, readings, out)?,
    };
    match refused {
        0 => Ok(()),
        _ => Err(told(curve, refused, readings.iter().count())),
    }
}

/// Writes each reading with its answer, and counts those that are refused.
fn write_each(
    curve: &Curve,
    readings: &Readings,
    mut write: impl FnMut(&Reading, BackCast) -> io::Result<()>,
) -> io::Result<usize> {
    let mut refused = 0;
    for reading in readings.iter() {
        let answer = curve.back_cast(reading.temperature);
        refused += usize::from(answer.number != 0);
        write(&reading, answer)?;
    }
    Ok(refused)
}

/// How many were refused, and what to do next.
fn told(curve: &Curve, refused: usize, all: usize) -> Failure {
    let [refused, all] = [refused, all].map(|count| whole(count as u64));
    let infinite = curve.not_finite().join(" and --");
    let next = match infinite.is_empty() {
        true => {
            ". Check the curve and their temperatures; a load must be from 0 to 10,000,000.00 Dth"
        }
        false => {
            &format!(": the curve itself is not finite. Check --{infinite}; no double is as large")
        }
    };
    Failure::Told(format!("{refused} of {all} readings refused{next}."))
}

fn write_csv(curve: &Curve, readings: &Readings, out: &mut dyn Write) -> io::Result<usize> {
    writeln!(out, "label,temperature,back-cast,number")?;
    write_each(curve, readings, |reading, answer| {
        let label = quoted(&echo::uncut(reading.label.unwrap_or_default()));
        let amount = match answer.number {
            0 => gas(answer.quantity as i64),
            _ => String::new(),
        };
        let (temperature, number) = (reading.temperature.text, answer.number);
        writeln!(out, "{label},{temperature},{amount},{number}")
    })
}

/// In quotes where it would break the line, with quotes doubled, as RFC 4180 has it.
fn quoted(text: &str) -> String {
    match text.contains([',', '"']) {
        true => format!("\"{}\"", text.replace('"', "\"\"")),
        false => text.to_string(),
    }
}

fn write_page(curve: &Curve, readings: &Readings, out: &mut dyn Write) -> io::Result<usize> {
    let [base, slope, turning] =
        [curve.base, curve.slope, curve.turning].map(|number| echo::cell(number.text));
    writeln!(
        out,
        "Load curve: {base} Dth at {turning} degrees and above, {slope} Dth more for each degree below\n"
    )?;
    let columns = Columns::of(readings);
    columns.write(LABEL, TEMPERATURE, BACK_CAST, out)?;
    write_each(curve, readings, |reading, answer| {
        let label = reading.label.map(echo::cell).unwrap_or_default();
        let temperature = echo::cell(reading.temperature.text);
        let amount = match answer.number {
            0 => gas(answer.quantity as i64),
            // The numbers of a back-cast mean the same under both rules.
            number => format!("refused with {number}: {}", refusal(number, Rules::Old)),
        };
        columns.write(&label, &temperature, &amount, out)
    })
}

/// The widths of the table's columns; that of labels is there if a reading has one.
struct Columns {
    label: Option<usize>,
    temperature: usize,
}

impl Columns {
    fn of(readings: &Readings) -> Columns {
        let width = |text: &str| echo::cell(text).chars().count();
        let labels = readings.iter().filter_map(|reading| reading.label);
        let temperatures = readings.iter().map(|reading| reading.temperature.text);
        Columns {
            label: labels.map(width).max().map(|most| most.max(LABEL.len())),
            temperature: temperatures.map(width).fold(TEMPERATURE.len(), usize::max),
        }
    }

    /// A line. Words in the place of the last column may be longer than it.
    fn write(
        &self,
        label: &str,
        temperature: &str,
        amount: &str,
        out: &mut dyn Write,
    ) -> io::Result<()> {
        if let Some(width) = self.label {
            write!(out, "{label:<width$}  ")?;
        }
        let (width, last) = (self.temperature, BACK_CAST.len());
        writeln!(out, "{temperature:>width$}  {amount:>last$}")
    }
}

#[cfg(test)]
mod tests {
    use super::*;
    use crate::decimal::Decimal;

    /// What is written of a text of readings, and what is told of refusals.
    fn written(base: &str, text: &str, csv: bool) -> (String, Option<String>) {
        let curve = Curve {
            base: Decimal::dth(base).expect("plain"),
            slope: Decimal::dth("61.75").expect("plain"),
            turning: Decimal::degrees("65").expect("plain"),
        };
        let mut readings = Readings::of(&[]);
        readings.read(text.as_bytes()).expect("right");
        let mut out = Vec::new();
        let told = match write(&curve, &readings, csv, &mut out) {
            Ok(()) => None,
            Err(Failure::Told(why)) => Some(why),
            Err(_) => panic!("another failure"),
        };
        (String::from_utf8(out).expect("UTF-8"), told)
    }

    #[test]
    fn the_column_of_labels_is_there_if_needed() {
        let head =
            "Load curve: 520 Dth at 65 degrees and above, 61.75 Dth more for each degree below\n\n";
        let (page, told) = written("520", "31.7\n70\n", false);
        assert_eq!(told, None);
        assert_eq!(
            page,
            head.to_string()
                + "temperature  back-cast, Dth\n\
                  \x20      31.7         2576.27\n\
                  \x20        70          520.00\n"
        );
        let (page, _) = written("520", "06:00 31.7\n70\n", false);
        assert_eq!(
            page,
            head.to_string()
                + "label  temperature  back-cast, Dth\n\
                   06:00         31.7         2576.27\n\
                  \x20               70          520.00\n"
        );
    }

    #[test]
    fn cells_do_not_break_lines() {
        let (csv, told) = written("520", "a,b 70\n\"q\" 70\nC:\\x\u{1b}[2J 70\n70\n", true);
        assert_eq!(told, None);
        let lines: Vec<_> = csv.split('\n').collect();
        assert_eq!(
            lines,
            [
                "label,temperature,back-cast,number",
                "\"a,b\",70,520.00,0",
                "\"\"\"q\"\"\",70,520.00,0",
                "C:\\x\\u{1b}[2J,70,520.00,0",
                ",70,520.00,0",
                ""
            ]
        );
    }

    #[test]
    fn refusals_stand_among_the_others() {
        let nines = "9".repeat(400);
        let text = format!("31.7\n-{nines}\n-999999\n70\n");
        let (csv, told) = written("520", &text, true);
        let ends: Vec<_> = csv.lines().map(|line| line.rsplit_once(',')).collect();
        assert!(csv.contains("\n,-999999,,32\n,70,520.00,0\n"), "{csv}");
        assert_eq!(
            ends.iter()
                .flatten()
                .filter(|(_, number)| *number == "31")
                .count(),
            1
        );
        let told = told.expect("refusals");
        assert!(told.starts_with("2 of 4 readings refused. Check"), "{told}");
        let (page, _) = written("520", &text, false);
        for words in [
            "2576.27\n",
            "refused with 31: ",
            "refused with 32: ",
            "520.00\n",
        ] {
            assert_eq!(page.matches(words).count(), 1, "{words}");
        }
        let (_, told) = written(&nines, "31.7\n70\n", false);
        let told = told.expect("refusals");
        assert!(
            told.starts_with(
                "2 of 2 readings refused: the curve itself is not finite. Check --base;"
            ),
            "{told}"
        );
    }
}
