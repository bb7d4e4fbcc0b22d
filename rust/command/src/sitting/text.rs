//! The text of a script. Whoever hands in scripts decides what stands by a name, so that nothing is waited for.

use crate::files;
use std::fs::{self, Metadata, OpenOptions};
use std::io;
use std::os::unix::fs::{FileTypeExt, OpenOptionsExt};
use std::path::Path;

/// Linux's O_NONBLOCK, which std does not name.
const NONBLOCK: i32 = 0o4000;

/// The text of a regular file, also by a link; of whatever else stands there nothing is read.
pub fn text(path: &Path) -> io::Result<Vec<u8>> {
    // asked before it is opened, which would wake whoever holds the other end of a pipe, or a device
    regular(&fs::metadata(path)?)?;
    let mut file = OpenOptions::new().read(true).custom_flags(NONBLOCK).open(path)?;
    // and again of what was opened: another thing may have got the name between
    regular(&file.metadata()?)?;
    files::beginning(&mut file)
}

/// An error that says what it is, where it is no regular file.
fn regular(what: &Metadata) -> io::Result<()> {
    let kind = what.file_type();
    let name = match kind {
        _ if kind.is_file() => return Ok(()),
        _ if kind.is_dir() => "it is a folder",
        _ if kind.is_fifo() => "it is a named pipe",
        _ if kind.is_socket() => "it is a socket",
        _ => "it is a device",
    };
    Err(io::Error::other(name))
}
