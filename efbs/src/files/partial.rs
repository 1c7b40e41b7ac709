//! A file that is being written beside the one it will replace. Unless it is put in place it goes away again, even if
//! the program is killed: another process, its guard, makes the file and waits for the end of whoever writes it.

use super::output::folder;
use std::ffi::OsStr;
use std::fs::{self, File, Metadata};
use std::io::{self, BufRead, BufReader, ErrorKind, Read, Write};
use std::os::unix::fs::{fchown, MetadataExt, OpenOptionsExt, PermissionsExt};
use std::os::unix::process::CommandExt;
use std::path::{Path, PathBuf};
use std::process::{Child, Command, Stdio};

/// The first word of a guard's command line; no help names it.
pub const GUARD: &str = "guard-part";

const NEW_FILE: u32 = 0o666;
const OWNER_WRITES: u32 = 0o200;
const PERMISSIONS: u32 = 0o777;
/// Files of that name are left by a machine that went down, or belong to a process of the same number elsewhere.
const MOST_NAMES: u32 = 100;

pub struct Partial {
    path: PathBuf,
    file: File,
    /// Removes the file, if it is still there, when this one is dropped.
    _guard: Guard,
}

impl Partial {
    /// A new file in the folder of `real`, with the mode and, where that is allowed, the owner of the file it replaces.
    pub fn beside(real: &Path) -> io::Result<Partial> {
        let old = fs::metadata(real).ok();
        let mode = old.as_ref().map_or(NEW_FILE, |old| {
            old.permissions().mode() & PERMISSIONS | OWNER_WRITES
        });
        let (path, guard) = guarded(folder(real), mode)?;
        let file = File::options().write(true).open(&path)?;
        if let Some(old) = old {
            take_over(&file, &old)?;
        }
        Ok(Partial {
            path,
            file,
            _guard: guard,
        })
    }

    pub fn file(&self) -> &File {
        &self.file
    }

    /// Everything written is on the disk before the name leads to it.
    pub fn put_in_place(self, real: &Path) -> io::Result<()> {
        self.file.sync_all()?;
        fs::rename(&self.path, real)?;
        // The file is in place; a folder that cannot be synced is left to the system.
        let _ = File::open(folder(real)).and_then(|folder| folder.sync_all());
        Ok(())
    }
}

fn take_over(file: &File, old: &Metadata) -> io::Result<()> {
    // Only root may give a file away; from anyone else it is the writer's, as from an editor.
    let _ = fchown(file, Some(old.uid()), Some(old.gid()));
    file.set_permissions(old.permissions())
}

/// A new file under the first name that is free, and its guard.
fn guarded(folder: &Path, mode: u32) -> io::Result<(PathBuf, Guard)> {
    let process = std::process::id();
    let mut taken = io::Error::from(ErrorKind::AlreadyExists);
    for number in 0..MOST_NAMES {
        let path = folder.join(format!("efbs-{process}-{number}.part"));
        match Guard::over(&path, mode) {
            Err(error) if error.kind() == ErrorKind::AlreadyExists => taken = error,
            guard => return Ok((path, guard?)),
        }
    }
    Err(taken)
}

struct Guard(Child);

impl Guard {
    /// Starts a guard in a group of its own, which no signal from the terminal reaches, and waits until it has made the
    /// file.
    fn over(path: &Path, mode: u32) -> io::Result<Guard> {
        let mut child = Command::new("/proc/self/exe")
            .arg0("efbs")
            .arg(GUARD)
            .arg(path)
            .arg(mode.to_string())
            .stdin(Stdio::piped())
            .stdout(Stdio::piped())
            .stderr(Stdio::null())
            .process_group(0)
            .spawn()
            .map_err(|error| io::Error::other(format!("its guard does not start: {error}")))?;
        let answer = child.stdout.take();
        let guard = Guard(child);
        let mut line = String::new();
        if let Some(answer) = answer {
            BufReader::new(answer).read_line(&mut line)?;
        }
        match line.trim().parse() {
            Ok(0) => Ok(guard),
            Ok(error) => Err(io::Error::from_raw_os_error(error)),
            Err(_) => Err(io::Error::other("its guard ended early")),
        }
    }
}

impl Drop for Guard {
    fn drop(&mut self) {
        // Its input ends, and it with it.
        let _ = self.0.wait();
    }
}

/// The guard's own work: makes the file, answers 0 or the system's number for why not, and as soon as its input ends
/// removes the file if it has not been renamed. It removes nothing but what it made.
pub fn guard(path: &OsStr, mode: &OsStr) {
    let mode = mode.to_str().and_then(|mode| mode.parse().ok());
    let made = make(path, mode.unwrap_or(NEW_FILE));
    let number = match &made {
        Ok(_) => 0,
        Err(error) => error.raw_os_error().unwrap_or(-1),
    };
    // If nobody is left to hear it, the input has ended too.
    let _ = writeln!(io::stdout(), "{number}");
    if let Ok(made) = made {
        let _ = io::stdin().lock().read_to_end(&mut Vec::new());
        remove(path, &made);
    }
}

fn make(path: &OsStr, mode: u32) -> io::Result<Metadata> {
    let mut options = File::options();
    let file = options.write(true).create_new(true).mode(mode).open(path)?;
    file.metadata()
}

fn remove(path: &OsStr, made: &Metadata) {
    let same = |found: &Metadata| super::same::is_same(found, made);
    if fs::symlink_metadata(path).is_ok_and(|found| same(&found)) {
        // There is nobody to tell.
        let _ = fs::remove_file(path);
    }
}
