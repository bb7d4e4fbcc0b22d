//! The command `acornsled`. What it answers goes to standard output, as document 01 has it where it says what is printed;
//! what is told beside goes to standard error.
//!
//! C's `main` is defined here and not by std: before its own `main` std opens /dev/null in the place of a standard stream
//! that is closed, and what is written there would be lost without a word.
#![no_main]

use acornsled_command::{output, run, threads};
use std::env;
use std::ffi::OsString;

/// Runs the command that the arguments name; answers the exit status.
#[no_mangle]
pub extern "C" fn main() -> i32 {
    output::outlive_losses();
    let given: Vec<OsString> = env::args_os().skip(1).collect();
    threads::run(|| run(&given)) as i32
}
