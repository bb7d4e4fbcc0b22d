//! A folder for one test, and the command run on files in it. Each test uses what it needs of this.
#![allow(dead_code)]

use std::env;
use std::ffi::OsStr;
use std::fs;
use std::io::Write;
use std::path::PathBuf;
use std::process::{self, Command, Stdio};
use std::thread;

/// Document 01's sheet A.
pub const SHEET: &str = "quantities=3\nhidden=2\nrules=3\nrule=+1+2:5\nrule=+1-2:2\nrule=+3-2:0\n";

/// Removed when the test ends.
pub struct Room(PathBuf);

impl Room {
    /// An empty folder; the test's name keeps it apart from those of other tests.
    pub fn new(test: &str) -> Room {
        let path = env::temp_dir().join(format!("acornsled-{test}-{}", process::id()));
        fs::create_dir_all(&path).expect("a folder can be made");
        Room(path)
    }

    /// The path of a name in the folder, where nothing need be.
    pub fn at(&self, name: impl AsRef<OsStr>) -> PathBuf {
        self.0.join(name.as_ref())
    }

    /// A file with these bytes.
    pub fn file(&self, name: impl AsRef<OsStr>, bytes: impl AsRef<[u8]>) -> PathBuf {
        let path = self.at(name);
        fs::write(&path, bytes).expect("a file can be written");
        path
    }
}

impl Drop for Room {
    fn drop(&mut self) {
        let _ = fs::remove_dir_all(&self.0);
    }
}

/// The exit status, none where a signal ended the command, and what went to standard output and standard error.
#[derive(PartialEq, Eq, Debug)]
pub struct Ran {
    pub status: Option<i32>,
    pub output: String,
    pub told: String,
}

/// The command with these arguments.
pub fn acornsled<S: AsRef<OsStr>>(arguments: impl IntoIterator<Item = S>) -> Command {
    let mut command = Command::new(env!("CARGO_BIN_EXE_acornsled"));
    command.args(arguments).stdin(Stdio::null());
    command
}

/// A line of the shell, in which `$0` is the command and `$1` and further are the arguments.
pub fn shell<S: AsRef<OsStr>>(line: &str, arguments: impl IntoIterator<Item = S>) -> Command {
    let mut command = Command::new("bash");
    command.args(["-c", line, env!("CARGO_BIN_EXE_acornsled")]).args(arguments).stdin(Stdio::null());
    command
}

/// What comes of it. What is not UTF-8 there would be a fault too.
pub fn ran(command: &mut Command) -> Ran {
    let got = command.output().expect("the command can be run");
    let text = |bytes| String::from_utf8(bytes).expect("what is printed is UTF-8");
    Ran { status: got.status.code(), output: text(got.stdout), told: text(got.stderr) }
}

/// What comes of it with these bytes on standard input.
pub fn ran_on(command: &mut Command, input: &[u8]) -> Ran {
    command.stdin(Stdio::piped()).stdout(Stdio::piped()).stderr(Stdio::piped());
    let mut child = command.spawn().expect("the command can be run");
    let mut pipe = child.stdin.take().expect("standard input is a pipe");
    let input = input.to_vec();
    // the command need not read all of it
    let writer = thread::spawn(move || drop(pipe.write_all(&input)));
    let got = child.wait_with_output().expect("the command ends");
    writer.join().expect("the writer ends");
    let text = |bytes| String::from_utf8(bytes).expect("what is printed is UTF-8");
    Ran { status: got.status.code(), output: text(got.stdout), told: text(got.stderr) }
}
