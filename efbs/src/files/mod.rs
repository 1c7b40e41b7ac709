//! Files and standard streams: the one place that opens them.

mod input;
mod output;
pub mod partial;
mod same;
pub mod standard;

pub use input::{name, open, read_archive, unreadable};
pub use output::{write, Writer};
pub use same::refuse_same;
