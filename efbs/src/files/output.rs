//! Output: to standard output, straight to a device or pipe, or to a file that is replaced whole or not at all.

use super::input::is_standard;
use super::partial::Partial;
use super::same::is_same;
use super::standard;
use crate::echo;
use crate::failure::Failure;
use std::fs::{self, File};
use std::io::{self, BufWriter, ErrorKind, Write};
use std::os::unix::fs::MetadataExt;
use std::path::{Path, PathBuf};

const BUFFER: usize = 1 << 16;
/// As many as Linux itself follows.
const MOST_LINKS: usize = 40;

pub type Writer<'a> = &'a mut dyn Write;

/// What a name after -o stands for.
enum Place {
    StandardOutput,
    /// A device, a pipe or an open descriptor: a rename would put a file in its place.
    Straight(PathBuf),
    /// A file that is there or not yet; links to it have been followed, so that they stay.
    Replaced(PathBuf),
}

/// Writes to a file, or without one to standard output.
pub fn write(
    path: Option<&Path>,
    write: impl FnOnce(Writer) -> Result<(), Failure>,
) -> Result<(), Failure> {
    let Some(path) = path else {
        return to_standard_output(write);
    };
    let written = match place(path) {
        Ok(Place::StandardOutput) => return to_standard_output(write),
        Ok(Place::Straight(path)) => straight(&path, write),
        Ok(Place::Replaced(path)) => replace(&path, write),
        Err(error) => Err(error.into()),
    };
    written.map_err(|failure| match failure {
        Failure::Output(error) if error.kind() != ErrorKind::BrokenPipe => unwritable(path, error),
        other => other,
    })
}

/// The name of an output for readers.
pub fn name(path: Option<&Path>) -> String {
    match path {
        Some(path) if !is_standard(path) => echo::path(path),
        _ => "standard output".to_string(),
    }
}

fn unwritable(path: &Path, error: io::Error) -> Failure {
    let path = echo::path(path);
    Failure::Told(match error.kind() {
        ErrorKind::IsADirectory => format!("{path} is a folder. Name a file in it."),
        _ => format!(
            "{path} cannot be written: {error}. Check that its folder is there and has room, and who may write there."
        ),
    })
}

/// What was written before a failure is shown too.
fn to_standard_output(write: impl FnOnce(Writer) -> Result<(), Failure>) -> Result<(), Failure> {
    let mut out = standard::output()?;
    let written = write(&mut out);
    match out.flush() {
        Err(error) if written.is_ok() => Err(error.into()),
        _ => written,
    }
}

fn place(path: &Path) -> io::Result<Place> {
    if is_standard(path) {
        return Ok(Place::StandardOutput);
    }
    match fs::metadata(path) {
        Ok(about) if about.is_dir() => return Err(ErrorKind::IsADirectory.into()),
        Err(error) if error.kind() != ErrorKind::NotFound => return Err(error),
        _ => {}
    }
    let mut path = path.to_path_buf();
    for _ in 0..MOST_LINKS {
        let about = match fs::symlink_metadata(&path) {
            Err(error) if error.kind() == ErrorKind::NotFound => break,
            about => about?,
        };
        if about.is_file() {
            break;
        }
        if !about.is_symlink() {
            return Ok(Place::Straight(path));
        }
        if is_descriptor(&path) {
            return descriptor(path);
        }
        path = folder(&path).join(fs::read_link(&path)?);
    }
    Ok(Place::Replaced(path))
}

/// Whether a link is one of those in /proc that stand for an open file.
fn is_descriptor(link: &Path) -> bool {
    let device = |path: &Path| fs::metadata(path).map(|about| about.dev());
    let devices = (device(folder(link)), device(Path::new("/proc")));
    matches!(devices, (Ok(here), Ok(there)) if here == there)
}

fn descriptor(path: PathBuf) -> io::Result<Place> {
    match is_same(&fs::metadata(&path)?, &standard::output_metadata()?) {
        true => Ok(Place::StandardOutput),
        false => Ok(Place::Straight(path)),
    }
}

/// The folder that a path lies in, which may be the one that we are in.
pub fn folder(path: &Path) -> &Path {
    match path.parent() {
        Some(parent) if parent != Path::new("") => parent,
        _ => Path::new("."),
    }
}

fn straight(path: &Path, write: impl FnOnce(Writer) -> Result<(), Failure>) -> Result<(), Failure> {
    // Behind a descriptor there may be a file, which others may have written to.
    let appends = fs::metadata(path)?.is_file();
    let file = File::options().write(true).append(appends).open(path)?;
    write_into(&file, write)
}

fn replace(path: &Path, write: impl FnOnce(Writer) -> Result<(), Failure>) -> Result<(), Failure> {
    let part = Partial::beside(path)?;
    write_into(part.file(), write)?;
    Ok(part.put_in_place(path)?)
}

fn write_into(
    file: &File,
    write: impl FnOnce(Writer) -> Result<(), Failure>,
) -> Result<(), Failure> {
    let mut out = BufWriter::with_capacity(BUFFER, file);
    write(&mut out)?;
    Ok(out.flush()?)
}
