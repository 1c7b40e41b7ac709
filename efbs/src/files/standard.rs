//! Standard output, and whether it was open at all.

use std::fs::{File, Metadata};
use std::io::{self, BufWriter, ErrorKind, Write};
use std::os::fd::AsFd;
use std::sync::atomic::{AtomicBool, Ordering};

const BUFFER: usize = 1 << 16;

static CLOSED: AtomicBool = AtomicBool::new(false);

/// To be called before main begins.
pub extern "C" fn note_if_closed() {
    let open = io::stdout().as_fd().try_clone_to_owned().is_ok();
    CLOSED.store(!open, Ordering::Relaxed);
}

/// Standard output for writing, unless it was closed when the program began.
pub fn output() -> io::Result<impl Write> {
    match CLOSED.load(Ordering::Relaxed) {
        true => Err(io::Error::new(
            ErrorKind::NotConnected,
            "standard output is closed",
        )),
        false => Ok(BufWriter::with_capacity(BUFFER, io::stdout().lock())),
    }
}

pub fn output_metadata() -> io::Result<Metadata> {
    File::from(io::stdout().as_fd().try_clone_to_owned()?).metadata()
}

pub fn input() -> io::Result<File> {
    io::stdin().as_fd().try_clone_to_owned().map(File::from)
}
