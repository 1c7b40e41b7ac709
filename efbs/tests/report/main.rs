//! What can be wrong with a page: marks that do not match the ledger, points that are off, tags left open.

#[path = "../common/mod.rs"]
mod common;

mod archives;
mod charts;
mod flags;
mod lanes;
mod markup;
mod reading;
