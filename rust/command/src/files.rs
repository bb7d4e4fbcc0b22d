//! Texts read from files and from standard input.

use crate::descriptors::{self, STANDARD_INPUT};
use acornsled::limits::MOST_BYTES;
use std::fs::File;
use std::io::{self, Read};
use std::mem::ManuallyDrop;
use std::os::fd::FromRawFd;
use std::path::Path;

/// The text of a file. What is not ready yet, as a pipe, is waited for.
pub fn text(path: &Path) -> io::Result<Vec<u8>> {
    beginning(&mut File::open(path)?)
}

/// The text on standard input.
pub fn input() -> io::Result<Vec<u8>> {
    beginning(&mut *standard_input()?)
}

/// Standard input as a file, for std's `Stdin` takes one that is closed for an empty one.
pub fn standard_input() -> io::Result<ManuallyDrop<File>> {
    descriptors::open(STANDARD_INPUT)?;
    // SAFETY: it is open, and the file made of it is never closed.
    Ok(ManuallyDrop::new(unsafe { File::from_raw_fd(STANDARD_INPUT) }))
}

/// As many bytes as are looked at: one more than a text may have shows that it is too long, so that an endless file ends too.
pub fn beginning(file: &mut File) -> io::Result<Vec<u8>> {
    let mut text = Vec::new();
    file.take(MOST_BYTES as u64 + 1).read_to_end(&mut text)?;
    Ok(text)
}
