//! Whether output would go over the input, by whatever names the two are called.

use super::input::{is_standard, name};
use super::{output, standard};
use crate::failure::Failure;
use std::fs::{self, Metadata};
use std::io;
use std::os::unix::fs::{FileTypeExt, MetadataExt};
use std::path::Path;

/// An output that is the input is refused before anything is written. None stands for no input, or standard output.
pub fn refuse_same(input: Option<&Path>, output: Option<&Path>) -> Result<(), Failure> {
    let Some(input) = input else {
        return Ok(());
    };
    let outgoing = match output {
        Some(path) if !is_standard(path) => fs::metadata(path),
        _ => standard::output_metadata(),
    };
    // What cannot be looked at yet is told where it is opened.
    let (Ok(incoming), Ok(outgoing)) = (about_input(input), outgoing) else {
        return Ok(());
    };
    if !is_same(&incoming, &outgoing) || !can_be_lost(&incoming) {
        return Ok(());
    }
    let fate = match incoming.len() {
        // As after "> A.efb", which the shell does first.
        0 => "has been emptied before efbs began",
        _ => "would be lost",
    };
    Err(Failure::Told(format!(
        "the output, {}, is the same file as the input, {}, which {fate}. Nothing was written; name another file for the \
         output.",
        output::name(output),
        name(input)
    )))
}

fn about_input(path: &Path) -> io::Result<Metadata> {
    match is_standard(path) {
        true => standard::input()?.metadata(),
        false => fs::metadata(path),
    }
}

pub fn is_same(one: &Metadata, other: &Metadata) -> bool {
    (one.dev(), one.ino()) == (other.dev(), other.ino())
}

/// A terminal or a pipe may well be both; what was read from it is not kept there.
fn can_be_lost(about: &Metadata) -> bool {
    about.is_file() || about.file_type().is_block_device()
}
