//! Entries as text, one a line; docs/TEXT-FORMAT.md describes it.

mod list;
mod reading;
mod writing;

pub use list::List;
pub use reading::{read, Fault};
pub use writing::{line, write};

/// Begins the line that names the rules.
const RULES: &str = "rules";
