//! A page is well made, needs nothing from elsewhere and says what it does not have.

use crate::archives::{page, pages, EMPTY, SAMPLE_YEAR};
use crate::common::{holiday_sample, letter_sample, pack, sample};
use crate::reading::charts;
use efbs::archive::Refusal;
use efbs::report::report;

/// The names of tags that are opened and never closed, or closed in the wrong order.
fn unclosed(page: &str) -> Vec<String> {
    let mut open: Vec<&str> = Vec::new();
    for tag in page
        .split('<')
        .skip(1)
        .map(|rest| rest.split('>').next().unwrap_or(""))
    {
        let name = tag
            .split([' ', '\n', '/'])
            .find(|part| !part.is_empty())
            .unwrap_or("");
        match tag {
            _ if tag.ends_with('/') || tag.starts_with('!') || name == "meta" => {}
            _ if tag.starts_with('/') && open.last() == Some(&name) => drop(open.pop()),
            _ if tag.starts_with('/') => return vec![format!("</{name}> after {open:?}")],
            _ => open.push(name),
        }
    }
    open.into_iter().map(String::from).collect()
}

#[test]
fn tags_are_closed() {
    assert_eq!(unclosed("<p><b>x</b>"), ["p"]);
    assert_eq!(unclosed("<p><b>x</p></b>").len(), 1);
    for page in pages() {
        assert_eq!(unclosed(&page), [""; 0]);
    }
}

#[test]
fn pages_need_nothing_from_elsewhere_and_have_no_broken_number() {
    for page in pages() {
        for word in [
            "NaN", "inf ", "http:", "https:", "src=", "url(", "@import", "<script", "<link",
        ] {
            assert!(!page.contains(word), "{word}");
        }
        for target in page
            .split(" href=\"")
            .skip(1)
            .filter_map(|rest| rest.split('"').next())
        {
            assert!(
                page.contains(&format!(" id=\"{}\"", target.trim_start_matches('#'))),
                "{target}"
            );
        }
    }
}

#[test]
fn a_year_without_closings_says_so() {
    let other = page(&sample(), 2031);
    assert!(other.contains("No closings in this gas year"));
    assert!(other.contains("run from <time class=\"unbroken\">2026-04-01</time> to <time class=\"unbroken\">2027-03-31</time>."));
    assert!(other.contains("and not over the gas year 2031–32 alone"));
    assert!(charts(&other).is_empty());
    assert!(page(EMPTY, SAMPLE_YEAR).contains("no accepted posting at all"));
}

/// The part of a page between a heading and the end of its section.
fn part<'a>(page: &'a str, heading: &str) -> &'a str {
    let part = page.split(&format!("<h2>{heading}</h2>")).nth(1);
    part.map_or("", |rest| rest.split("</section>").next().unwrap_or(""))
}

fn measuring_days(page: &str) -> &str {
    part(page, "Measuring days")
}

#[test]
fn measuring_days_and_holidays_are_told() {
    let holidays = page(&holiday_sample(), SAMPLE_YEAR);
    let part = measuring_days(&holidays);
    assert!(part.contains("<td>Mon 27</td><td>Tue 26</td><td>Thu 25</td>"));
    assert!(part.contains("<th scope=\"row\">Moved from</th><td>–</td><td>Mon 25</td>"));
    assert!(part.contains("Thursday, 26 November 2026</span>; <span"));
    assert_eq!(part.matches("<span class=\"unbroken\">").count(), 7);
    let plain = page(&sample(), SAMPLE_YEAR);
    let part = measuring_days(&plain);
    assert!(part.contains("<td>Mon 27</td><td>Mon 25</td><td>Thu 25</td>"));
    assert!(!part.contains("Moved from") && !part.to_lowercase().contains("holiday"));
    let later = page(&holiday_sample(), SAMPLE_YEAR + 1);
    assert!(measuring_days(&later).contains("No holiday of this gas year is named."));
    for without in [
        page(EMPTY, SAMPLE_YEAR),
        page(&sample(), 2025),
        page(&sample(), 2100),
    ] {
        assert!(!without.contains("Measuring days"));
    }
}

#[test]
fn letters_without_an_answer_are_told() {
    let [first, later] = [SAMPLE_YEAR, SAMPLE_YEAR + 1].map(|year| page(&letter_sample(), year));
    let [first, later] = [&first, &later].map(|page| part(page, "Letters without an answer"));
    assert!(first.contains("that stood: 10; answered: 4; cleared by a closing without an answer: 6; standing as the archive ends: 0."));
    assert_eq!(first.matches("<tr>").count(), 1 + 6);
    assert!(later.contains("<td>takes</td><td>300.00</td><td>–</td></tr>"));
    assert!(later.contains("that stood: 4; answered: 2;"));
    assert!(part(&page(&answered(), 2027), "Letters without an answer").ends_with("</p>\n"));
    for without in [
        page(EMPTY, SAMPLE_YEAR),
        page(&sample(), SAMPLE_YEAR),
        page(&holiday_sample(), SAMPLE_YEAR),
        page(&letter_sample(), 2025),
    ] {
        assert!(!without.contains("Letters without an answer"));
    }
}

/// Two letters of which the second answers the first.
fn answered() -> Vec<u8> {
    pack(
        "rules new
2027-04-01 terms no-notice=120000 design-day=480000 storage=5000400 retainage=0.00% demand-rate=0.000 commodity-rate=0.000
2027-04-01 enrol account=0 wants-efbs mdq=4200 opening=10.00
2027-04-01 enrol account=1 wants-efbs mdq=4200 opening=0.00
2027-04-01 notice account=0 other=1 gives gas=10.00
2027-04-01 notice account=1 other=0 takes gas=10.00
",
    )
}

#[test]
fn a_refused_archive_has_no_page() {
    let refusal = Refusal {
        number: 8,
        index: 0,
    };
    assert_eq!(report(&sample()[..100], SAMPLE_YEAR), Err(refusal));
}
