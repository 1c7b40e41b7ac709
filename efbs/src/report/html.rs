//! The few forms of HTML that the page is made of.

use crate::entry::Day;
use crate::shown::whole;

/// Text with the characters that markup gives a meaning replaced.
pub fn escape(text: &str) -> String {
    let mut safe = String::with_capacity(text.len());
    for character in text.chars() {
        match character {
            '&' => safe.push_str("&amp;"),
            '<' => safe.push_str("&lt;"),
            '>' => safe.push_str("&gt;"),
            '"' => safe.push_str("&quot;"),
            '\'' => safe.push_str("&#39;"),
            plain => safe.push(plain),
        }
    }
    safe
}

/// A date that does not break over two lines.
pub fn time(day: Day) -> String {
    format!("<time class=\"unbroken\">{day}</time>")
}

/// "1 violation day", "2 violation days".
pub fn violation_days(number: u64) -> String {
    let days = if number == 1 { "day" } else { "days" };
    format!("{} violation {days}", whole(number))
}

/// A row of a table; its cells are markup, the first one its head.
pub struct Row {
    class: &'static str,
    cells: Vec<String>,
}

pub fn row<const N: usize>(cells: [String; N]) -> Row {
    Row {
        class: "",
        cells: cells.into(),
    }
}

impl Row {
    pub fn of(cells: Vec<String>) -> Row {
        Row { class: "", cells }
    }

    /// A row that sums up the ones above.
    pub fn into_sum(self) -> Row {
        Row {
            class: " class=\"sum\"",
            ..self
        }
    }

    fn markup(&self) -> String {
        let mut cells = self.cells.iter();
        let head = cells.next().map_or(String::new(), |head| {
            format!("<th scope=\"row\">{head}</th>")
        });
        let rest: String = cells.map(|cell| format!("<td>{cell}</td>")).collect();
        format!("<tr{}>{head}{rest}</tr>\n", self.class)
    }
}

/// A table in a box of its own that scrolls where the window is narrow.
pub fn table(class: &str, caption: &str, heads: &[impl AsRef<str>], rows: &[Row]) -> String {
    let head = |head: &_| format!("<th scope=\"col\">{}</th>", AsRef::<str>::as_ref(head));
    let heads: String = heads.iter().map(head).collect();
    let rows: String = rows.iter().map(Row::markup).collect();
    format!(
        "<div class=\"scroll\"><table class=\"{class}\">\n<caption>{caption}</caption>\n\
         <thead><tr>{heads}</tr></thead>\n<tbody>\n{rows}</tbody></table></div>\n"
    )
}
