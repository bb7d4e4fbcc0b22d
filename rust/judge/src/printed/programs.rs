//! What prints: the built programs, run as a user runs them. They are known by a trait, so that the judge can be tried on
//! wrong answers too.

use super::folder::Folder;
use std::env;
use std::fs;
use std::io::{self, Write};
use std::path::{Path, PathBuf};
use std::process::{Command, Output, Stdio};
use std::thread;

/// Shared by threads, for two may run at once. A failure is told where nothing can be judged.
pub trait Printer: Sync {
    /// What *key* prints for this text.
    fn key(&self, text: &[u8]) -> Result<Vec<u8>, String>;

    /// What *mark* prints for the texts of a sheet and a script.
    fn mark(&self, sheet: &[u8], script: &[u8]) -> Result<Vec<u8>, String>;
}

/// The programs that `rt run` builds.
pub struct Built {
    key: PathBuf,
    mark: PathBuf,
}

impl Built {
    /// Finds them in the directory that ACORNSLED_BIN names, else where `tools/programs` puts them.
    pub fn found() -> Result<Built, String> {
        let directory = match env::var_os("ACORNSLED_BIN") {
            Some(named) => PathBuf::from(named),
            None => Path::new(env!("CARGO_MANIFEST_DIR")).join("../../build/programs"),
        };
        // *mark* runs in another directory, where a relative path would lead nowhere
        let built = |name: &str| {
            let path = directory.join(name);
            let hint = format!("run tools/programs, or name its directory in ACORNSLED_BIN");
            fs::canonicalize(&path).map_err(|e| format!("no program {}: {e}: {hint}", path.display()))
        };
        Ok(Built { key: built("key")?, mark: built("mark")? })
    }
}

impl Printer for Built {
    fn key(&self, text: &[u8]) -> Result<Vec<u8>, String> {
        printed(fed(&mut Command::new(&self.key), text).map_err(|e| format!("key does not run: {e}"))?)
    }

    fn mark(&self, sheet: &[u8], script: &[u8]) -> Result<Vec<u8>, String> {
        printed(beside(&mut Command::new(&self.mark), sheet, script).map_err(|e| format!("mark does not run: {e}"))?)
    }
}

/// Runs a program with these bytes on standard input. They are written while its output is read, so that neither waits
/// for the other.
pub fn fed(program: &mut Command, bytes: &[u8]) -> io::Result<Output> {
    let mut child = program.stdin(Stdio::piped()).stdout(Stdio::piped()).stderr(Stdio::piped()).spawn()?;
    let mut input = child.stdin.take().expect("standard input is a pipe");
    thread::scope(|scope| {
        // a program may end before it has read all: of a text that is too long the rest does not matter
        scope.spawn(move || _ = input.write_all(bytes));
        child.wait_with_output()
    })
}

/// Runs a program where these texts are the files `sheet` and `script`.
pub fn beside(program: &mut Command, sheet: &[u8], script: &[u8]) -> io::Result<Output> {
    let folder = Folder::holding(&[("sheet", sheet), ("script", script)])?;
    program.current_dir(folder.path()).stdin(Stdio::null()).output()
}

/// Standard output, of a program that ends as it should and says nothing else.
fn printed(output: Output) -> Result<Vec<u8>, String> {
    if !output.status.success() || !output.stderr.is_empty() {
        return Err(format!("{}, with '{}' on standard error", output.status, output.stderr.escape_ascii()));
    }
    Ok(output.stdout)
}
