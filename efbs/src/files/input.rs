//! Input: a file, or standard input by the name of -.

use super::standard;
use crate::archive::opens;
use crate::echo;
use crate::failure::Failure;
use std::fs::File;
use std::io::{self, ErrorKind, Read};
use std::path::Path;

/// No archive is longer than one byte less; what follows cannot make it right.
const ENOUGH: u64 = 1 << 32;
const BEGINNING: u64 = 1 << 12;

pub fn open(path: &Path) -> Result<File, Failure> {
    let opened = match is_standard(path) {
        true => standard::input(),
        false => File::open(path),
    };
    opened.map_err(|error| unreadable(path, error))
}

/// Whether a name stands for standard input or output.
pub fn is_standard(path: &Path) -> bool {
    path == Path::new("-")
}

/// The name of an input for readers.
pub fn name(path: &Path) -> String {
    match is_standard(path) {
        true => "standard input".to_string(),
        false => echo::path(path),
    }
}

pub fn unreadable(path: &Path, error: io::Error) -> Failure {
    let next = match error.kind() {
        ErrorKind::OutOfMemory => "It is too large for this machine.",
        ErrorKind::FileTooLarge => "Divide it.",
        _ => "Check its name and who may read it.",
    };
    Failure::Told(format!("{} cannot be read: {error}. {next}", name(path)))
}

pub fn read_archive(path: &Path) -> Result<Vec<u8>, Failure> {
    let file = open(path)?;
    read_from(file).map_err(|error| unreadable(path, error))
}

/// As much as can matter: of what does not begin as an archive does, only the beginning.
fn read_from(mut file: File) -> io::Result<Vec<u8>> {
    let mut bytes = Vec::new();
    file.by_ref().take(BEGINNING).read_to_end(&mut bytes)?;
    if opens(&bytes) {
        let length = file.metadata().map_or(0, |about| about.len().min(ENOUGH));
        bytes.try_reserve_exact(length as usize)?;
        file.take(ENOUGH - BEGINNING).read_to_end(&mut bytes)?;
    }
    Ok(bytes)
}
