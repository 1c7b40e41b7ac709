//! Line, band and signs lie where the ledger has them.

use crate::archives::{confiscated, crowded, page, pages, replayed, sample_until, SAMPLE_YEAR};
use crate::common::sample;
use crate::reading::{charts, drawing, height_at, number, on_axis, paths, plot, points, Path};
use efbs::words::{numbered_violation, violation_list};

/// Percent of the BCQ from April to March, as R10 has them; the page asks the library.
const MINIMUM: [u64; 12] = [0, 0, 14, 34, 54, 75, 88, 95, 78, 59, 36, 18];
const MAXIMUM: [u64; 12] = [25, 60, 60, 60, 85, 85, 98, 98, 98, 98, 65, 45];

#[test]
fn every_violation_day_has_one_mark_and_is_named() {
    let page = page(&sample(), SAMPLE_YEAR);
    let charts = charts(&page);
    let mut seen = vec![0; charts.len()];
    replayed(&sample(), |step| {
        let reports = step.answer.reports.iter().enumerate();
        for (account, report) in reports.filter(|(_, report)| report.mask != 0) {
            let violated = violation_list(report.mask).into_iter();
            let names: Vec<String> = violated.map(numbered_violation).collect();
            let names = names.join("; ").replace('\'', "&#39;");
            let title = format!("<title>{}: {names}</title>", step.entry.date);
            assert_eq!(charts[account].matches(&title).count(), 1, "{title}");
            seen[account] += 1;
        }
    });
    for (chart, days) in charts.iter().zip(&seen) {
        assert_eq!(
            chart.matches("<path class=\"sign violation\" d=").count(),
            *days
        );
    }
    assert_eq!(seen, [1, 0, 2, 5]);
}

/// The days that the table under a chart names with a violation, runs counted by their length.
fn days_in_table(chart: &str) -> usize {
    let rows = chart
        .split("<tr><th scope=\"row\">")
        .skip(1)
        .filter(|row| row.contains("<td>V"));
    let days = |row: &str| match row.split_once(" days)") {
        Some((head, _)) => head
            .rsplit('(')
            .next()
            .map_or(0, |days| number(days) as usize),
        None => 1,
    };
    rows.map(days).sum()
}

#[test]
fn the_table_under_a_chart_names_every_violation_day() {
    let page = page(&sample(), SAMPLE_YEAR);
    let ledger = replayed(&sample(), |_| {});
    for (chart, account) in charts(&page).iter().zip(&ledger.accounts) {
        assert_eq!(days_in_table(chart) as u64, account.violation_days);
    }
}

/// What is drawn of an account, and for each closing the ledger's bank, minimum and maximum in Dth.
fn drawn_and_due(archive: &[u8], account: usize) -> (String, Vec<[f64; 3]>) {
    let page = page(archive, SAMPLE_YEAR);
    let mut due = Vec::new();
    replayed(archive, |step| {
        if step.accepted() && step.entry.kind.is_closing() {
            let month = usize::from(step.entry.date.month);
            let bcq = step.before.accounts[account].capacity.bcq;
            let percents = [MINIMUM, MAXIMUM].map(|table| table[(month + 8) % 12]);
            let [minimum, maximum] = percents.map(|percent| (percent * bcq) as f64 / 100.0);
            due.push([
                step.after.accounts[account].bank as f64 / 100.0,
                minimum,
                maximum,
            ]);
        }
    });
    (charts(&page)[account].to_string(), due)
}

#[test]
fn line_and_band_lie_where_the_ledger_has_them() {
    for archive in [sample(), crowded()] {
        for account in 0..4 {
            let (chart, due) = drawn_and_due(&archive, account);
            let bank = points(&chart, "bank");
            let edges = ["edge minimum", "edge maximum"].map(|class| points(&chart, class));
            assert_eq!((bank.len(), due.len()), (365, 365));
            for ((x, y), due) in bank.iter().zip(&due) {
                let drawn = [*y, height_at(&edges[0], *x), height_at(&edges[1], *x)];
                for (drawn, due) in drawn.iter().zip(due) {
                    assert!(
                        (drawn - on_axis(&chart, *due)).abs() < 0.25,
                        "account {account}: {due}"
                    );
                }
            }
        }
    }
}

#[test]
fn a_step_of_the_bcq_is_named_under_the_months() {
    let page = page(&sample(), SAMPLE_YEAR);
    let named = |chart: &str| chart.matches("<text class=\"bcq\"").count();
    assert_eq!(
        charts(&page).into_iter().map(named).collect::<Vec<_>>(),
        [1, 2, 2, 1]
    );
}

#[test]
fn days_are_evenly_spaced_from_april_on() {
    let [whole, part] = [sample(), sample_until("2026-09-17")].map(|archive| {
        let page = page(&archive, SAMPLE_YEAR);
        points(charts(&page)[0], "bank")
    });
    let day = (whole[364].0 - whole[0].0) / 364.0;
    for (offset, (x, _)) in whole.iter().enumerate() {
        assert!((x - whole[0].0 - day * offset as f64).abs() < 0.11);
    }
    let drawn: Vec<f64> = part.iter().map(|(x, _)| *x).collect();
    let expected: Vec<f64> = whole.iter().take(170).map(|(x, _)| *x).collect();
    assert_eq!(
        drawn, expected,
        "a year that is not over keeps its scale of days"
    );
}

#[test]
fn cash_and_forfeits_are_marked() {
    let page = page(&sample(), SAMPLE_YEAR);
    let charts = charts(&page);
    assert!(charts[0].contains("<title>2027-03-31: forfeit 1,442.33 Dth</title>"));
    assert!(charts[3].contains("<title>2026-04-07: cash-in 275.05 Dth</title>"));
    assert!(charts[3].contains("<title>2026-11-04: cash-out 1,387.57 Dth</title>"));
}

#[test]
fn confiscations_are_marked_and_listed_beside_forfeits() {
    let page = page(&confiscated(), SAMPLE_YEAR);
    let charts = charts(&page);
    for (account, marks) in [
        (
            0,
            &["03-31: forfeit 1,000.00", "03-31: confiscated 1,000.00"][..],
        ),
        (1, &["03-31: confiscated 0.00"]),
        (2, &[]),
        (3, &["01-31: cash-in 23,698.75", "01-31: confiscated 20.00"]),
    ] {
        for mark in marks {
            let title = format!("<title>2027-{mark} Dth</title>");
            assert_eq!(charts[account].matches(&title).count(), 1, "{title}");
        }
        let told = marks.iter().any(|mark| mark.contains("confiscated"));
        assert_eq!(
            charts[account].contains("<th scope=\"col\">Confiscated</th>"),
            told
        );
    }
    assert_eq!(
        page.matches("</svg> confiscated</li>").count(),
        1,
        "the legend"
    );
    for other in [sample(), crowded()] {
        assert!(!crate::archives::page(&other, SAMPLE_YEAR)
            .to_lowercase()
            .contains("confiscated"));
    }
}

/// What must lie in the plot of a path: bank and band wholly, a sign with its middle; nothing of the others.
fn in_plot(path: &Path) -> Vec<(f64, f64)> {
    let corners = path.corners();
    match path.class.split(' ').next() {
        Some("bank" | "band" | "edge") => corners,
        Some("sign") if !path.of_flag => {
            let mean = |part: fn(&(f64, f64)) -> f64| {
                corners.iter().map(part).sum::<f64>() / corners.len() as f64
            };
            vec![(mean(|point| point.0), mean(|point| point.1))]
        }
        _ => Vec::new(),
    }
}

#[test]
fn every_point_lies_inside() {
    let (mut in_plots, mut in_drawings) = (0, 0);
    for page in pages() {
        for chart in charts(&page) {
            let (drawing, plot) = (drawing(chart), plot(chart));
            for path in paths(chart) {
                let (all, of_plot) = (path.corners(), in_plot(&path));
                assert!(all.iter().all(|point| drawing.holds(*point)), "{all:?}");
                assert!(of_plot.iter().all(|point| plot.holds(*point)), "{all:?}");
                in_drawings += all.len();
                in_plots += of_plot.len();
            }
        }
    }
    assert!(
        in_plots > 4_000 && in_drawings > in_plots,
        "points are read"
    );
}
