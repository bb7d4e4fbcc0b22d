//! Standard output and standard error. std's `Stdout` takes one that is closed for one that is written to, so that standard
//! output is written to as a file here, and every byte that is lost is told.

use crate::descriptors::{self, STANDARD_OUTPUT};
use crate::status::Status;
use std::fs::File;
use std::io::{self, Write};
use std::mem::ManuallyDrop;
use std::os::fd::FromRawFd;

/// Linux's SIGPIPE, SIGXFSZ and SIG_IGN, which std does not name.
const BROKEN_PIPE: i32 = 13;
const FILE_TOO_LARGE: i32 = 25;
const IGNORED: usize = 1;

extern "C" {
    fn signal(number: i32, handler: usize) -> usize;
}

/// Makes a reader that is gone, and a limit on the size of files, an error of writing, which is told, and not the end of this
/// program, which is silent.
pub fn outlive_losses() {
    for number in [BROKEN_PIPE, FILE_TOO_LARGE] {
        // SAFETY: no function is installed to be called; the signal is only passed over.
        unsafe { signal(number, IGNORED) };
    }
}

/// Whether standard output is open. To be asked before a file is opened, which would get its number.
pub fn open() -> io::Result<()> {
    descriptors::open(STANDARD_OUTPUT)
}

/// Standard output, as a file that is never closed.
pub fn stream() -> ManuallyDrop<File> {
    // SAFETY: standard output was open when the program began, and nothing closes it.
    ManuallyDrop::new(unsafe { File::from_raw_fd(STANDARD_OUTPUT) })
}

/// Writes an answer; the status says whether all of it was taken.
pub fn answer(bytes: &[u8]) -> Status {
    match stream().write_all(bytes) {
        Ok(()) => Status::Answered,
        Err(fault) => lost(&fault),
    }
}

/// Tells that the answer could not be written.
pub fn lost(fault: &io::Error) -> Status {
    tell(&format!("the answer cannot be written to standard output: {fault}"));
    Status::Failed
}

/// A message for the user, on standard error.
pub fn tell(message: &str) {
    say(&format!("acornsled: {message}\n"));
}

/// Words on standard error as they are. Where that is closed or full there is nobody left to tell, and it changes no answer.
pub fn say(words: &str) {
    let _ = io::stderr().write_all(words.as_bytes());
}
