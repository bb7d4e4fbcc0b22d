//! A file held in memory as a text, as the exam host in Rust holds it.

use crate::meaning::MOST_BYTES;
use std::fs::File;
use std::io::{self, Read};

/// The beginning of a file, no bytes where it cannot be opened or read. One byte more than a text may have shows that it
/// is too long, so that an endless file ends too.
pub fn held(file: io::Result<File>) -> Vec<u8> {
    let mut text = Vec::new();
    let read = file.and_then(|file| file.take(MOST_BYTES as u64 + 1).read_to_end(&mut text));
    if read.is_err() {
        text.clear();
    }
    text
}
