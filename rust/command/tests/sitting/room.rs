//! What the tests share: document 01's sheet A, scripts of every kind, a folder of them, and the command run in it.

use crate::temporary::Folder;
use std::ffi::OsStr;
use std::fs;
use std::io::Write;
use std::os::unix::ffi::OsStrExt;
use std::path::{Path, PathBuf};
use std::process::{Command, Output, Stdio};

pub const SHEET: &[u8] = b"quantities=3\nhidden=2\nrules=3\nrule=+1+2:5\nrule=+1-2:2\nrule=+3-2:0\n";
pub const EQUAL: &[u8] = b"quantities=3\nhidden=2\nrules=2\nrule=+1+1:7\nrule=+1+3:5\n";
pub const LOOSE: &[u8] = b"quantities=3\nhidden=2\nrules=1\nrule=+1:3\n";
pub const TIGHT: &[u8] = b"quantities=3\nhidden=2\nrules=2\nrule=+1:2\nrule=+1+3:5\n";

pub const HEADER: &str = "script,verdict,refused,paper,line,rule,values\n";
/// The cells after the name. The integers are the program's choice: 3 and 3 break the key's +1+3:5 and the loose script allows
/// them; 3, 1 and 0 satisfy the sheet and break the tight script's +1:2.
pub const AS_EQUAL: &str = ",equal,,,,,";
pub const AS_LOOSE: &str = ",loose,,,,rule=+1+3:5,\"values=3,0,3\"";
pub const AS_TIGHT: &str = ",tight,,,,rule=+1:2,\"values=3,1,0\"";
pub const AS_EMPTY: &str = ",,2,script,1,,";

/// A command that still runs after so many seconds waits for something, and is ended.
const PATIENCE: &str = "60";

/// A folder that holds a file `sheet` and a folder `scripts`, in which commands run.
pub struct Room(Folder);

impl Room {
    pub fn new(test: &str) -> Room {
        let room = Room(Folder::new(&format!("sitting-{test}")));
        room.put("sheet", SHEET);
        fs::create_dir(room.at("scripts")).expect("a folder can be made");
        room
    }

    pub fn at(&self, name: impl AsRef<Path>) -> PathBuf {
        self.0.path().join(name)
    }

    /// The place of a script.
    pub fn script(&self, name: impl AsRef<[u8]>) -> PathBuf {
        self.at("scripts").join(OsStr::from_bytes(name.as_ref()))
    }

    pub fn put(&self, name: impl AsRef<Path>, text: &[u8]) {
        fs::write(self.at(name), text).expect("a file can be written");
    }

    pub fn hand_in(&self, name: impl AsRef<[u8]>, text: &[u8]) {
        self.put(self.script(name), text);
    }

    /// `acornsled sitting` with these arguments, in this folder.
    pub fn sitting<A: AsRef<OsStr>>(&self, arguments: &[A]) -> Command {
        let mut command = self.command("timeout");
        command.args([PATIENCE, env!("CARGO_BIN_EXE_acornsled"), "sitting"]).args(arguments);
        command
    }

    /// Lines for the shell, which finds `acornsled` by its name.
    pub fn shell(&self, lines: &str) -> Command {
        let folder = Path::new(env!("CARGO_BIN_EXE_acornsled")).parent().expect("a program stands in a folder");
        let path = std::env::var("PATH").expect("there is a PATH");
        let mut command = self.command("timeout");
        command.args([PATIENCE, "sh", "-c", lines]).env("PATH", format!("{}:{path}", folder.display()));
        command
    }

    fn command(&self, program: &str) -> Command {
        let mut command = Command::new(program);
        // GNU parallel leaves files at home
        command.current_dir(self.0.path()).stdin(Stdio::null()).env("HOME", self.0.path());
        command
    }
}

/// The exit status, standard output, and standard error without the progress, which is told where the machine is busy; the
/// bytes that are no plain text are escaped.
pub fn ran(command: &mut Command) -> (Option<i32>, String, String) {
    told(command.output().expect("the command runs"))
}

/// The same with these bytes on standard input.
pub fn ran_with(command: &mut Command, input: &[u8]) -> (Option<i32>, String, String) {
    let mut child =
        command.stdin(Stdio::piped()).stdout(Stdio::piped()).stderr(Stdio::piped()).spawn().expect("the command runs");
    // all tests give less than a pipe holds, and a command that reads nothing may have ended before
    let _ = child.stdin.take().expect("standard input is a pipe").write_all(input);
    told(child.wait_with_output().expect("the command ends"))
}

fn told(output: Output) -> (Option<i32>, String, String) {
    let told = plain(&output.stderr);
    let told = told.split_inclusive('\n').filter(|line| !line.ends_with(" scripts marked\n")).collect();
    (output.status.code(), plain(&output.stdout), told)
}

/// Bytes as text that can be read and compared: byte 10 and what ASCII prints as they are, all others escaped.
pub fn plain(bytes: &[u8]) -> String {
    let lines = bytes.split(|&byte| byte == b'\n');
    let lines = lines.map(|line| line.escape_ascii().to_string().replace("\\\"", "\"").replace("\\'", "'"));
    lines.collect::<Vec<_>>().join("\n")
}
