//! The exam host in Rust. `exam SHEET SCRIPT` reads two files into memory and prints, on a line, the number that
//! `acornsled_mark` gives for their bytes. A file that cannot be read counts as an empty text.

use acornsled::calls;
use judge::held::held;
use std::env;
use std::ffi::OsString;
use std::fs::File;
use std::process::exit;

fn main() {
    let given: Vec<OsString> = env::args_os().skip(1).collect();
    let [sheet, script] = &given[..] else {
        eprintln!("exam SHEET SCRIPT");
        exit(2);
    };
    println!("{}", calls::mark(&held(File::open(sheet)), &held(File::open(script))));
}
