//! Lanes stand in where flags have no room.

use crate::archives::{crowded, page, SAMPLE_YEAR};
use crate::reading::{charts, points};
use efbs::statement::statements;

/// The days that the bars of a lane cover, by their width.
fn days_in_lane(chart: &str, name: &str) -> u64 {
    let lane = chart.split(&format!(">{name}</text>")).nth(1);
    let bars = points(lane.expect("a lane"), "violation");
    let bank = points(chart, "bank");
    let day = (bank[364].0 - bank[0].0) / 364.0;
    let widths: f64 = bars.chunks(4).map(|bar| bar[1].0 - bar[0].0).sum();
    (widths / day).round() as u64
}

#[test]
fn lanes_stand_in_where_flags_have_no_room() {
    let archive = crowded();
    let page = page(&archive, SAMPLE_YEAR);
    let (chart, statement) = (
        charts(&page)[1],
        &statements(&archive, None).expect("the archive is right")[1],
    );
    assert!(statement.violation_days > 40, "crowded");
    for (mark, in_crowd) in [("class=\"flag\"", false), ("class=\"key\"", true)] {
        let found = [chart, charts(&page)[0]].map(|chart| chart.contains(mark));
        assert_eq!(found, [in_crowd, !in_crowd], "{mark}");
    }
    assert_eq!(
        chart.matches("<path class=\"sign violation\" d=").count() as u64,
        statement.violation_days
    );
    for (v, days) in (1..).zip(statement.violations) {
        let name = format!("V{v}");
        match days {
            0 => assert!(!chart.contains(&format!(">{name}</text>"))),
            _ => assert_eq!(days_in_lane(chart, &name), days, "{name}"),
        }
    }
}
