//! The built command, run as a user runs it.

use super::answer::Said;
use crate::printed::folder::Folder;
use crate::printed::programs::{beside, fed};
use std::env;
use std::fs;
use std::io;
use std::path::{Path, PathBuf};
use std::process::{Command, Output, Stdio};

pub struct Acornsled {
    path: PathBuf,
}

impl Acornsled {
    /// Finds it where ACORNSLED_COMMAND says, else where the repository's commands build it.
    pub fn found() -> Result<Acornsled, String> {
        let path = match env::var_os("ACORNSLED_COMMAND") {
            Some(named) => PathBuf::from(named),
            None => Path::new(env!("CARGO_MANIFEST_DIR")).join("../../build/bin/acornsled"),
        };
        // it runs in other directories, where a relative path would lead nowhere
        let path = fs::canonicalize(&path)
            .map_err(|e| format!("no command {}: {e}: build it, or name it in ACORNSLED_COMMAND", path.display()))?;
        Ok(Acornsled { path })
    }

    /// The key of a text on standard input.
    pub fn key(&self, text: &[u8]) -> Result<Said, String> {
        said(fed(&mut self.with(&["key"]), text))
    }

    /// The key of a text in a file.
    pub fn key_of_file(&self, text: &[u8]) -> Result<Said, String> {
        let folder = Folder::holding(&[("sheet", text)]).map_err(|e| format!("no folder is made: {e}"))?;
        said(self.with(&["key", "sheet"]).current_dir(folder.path()).stdin(Stdio::null()).output())
    }

    /// The marking of two texts in files.
    pub fn mark(&self, sheet: &[u8], script: &[u8]) -> Result<Said, String> {
        said(beside(&mut self.with(&["mark", "sheet", "script"]), sheet, script))
    }

    /// The marking of the files `sheet` and `script` of a folder, be they there or not.
    pub fn mark_in(&self, folder: &Path) -> Result<Said, String> {
        said(self.with(&["mark", "sheet", "script"]).current_dir(folder).stdin(Stdio::null()).output())
    }

    /// The questions of one text put to the sheet of another, both in files, or the questions on standard input.
    pub fn ask(&self, sheet: &[u8], questions: &[u8], fed_with_questions: bool) -> Result<Said, String> {
        let folder = Folder::holding(&[("sheet", sheet), ("questions", questions)]);
        let folder = folder.map_err(|e| format!("no folder is made: {e}"))?;
        match fed_with_questions {
            true => said(fed(self.with(&["ask", "sheet", "-"]).current_dir(folder.path()), questions)),
            false => self.ask_in(folder.path()),
        }
    }

    /// The same of the files `sheet` and `questions` of a folder, be they there or not.
    pub fn ask_in(&self, folder: &Path) -> Result<Said, String> {
        said(self.with(&["ask", "sheet", "questions"]).current_dir(folder).stdin(Stdio::null()).output())
    }

    /// The steps of a text in a file or on standard input, of one quantity or of all that are hidden.
    pub fn steps(&self, sheet: &[u8], quantity: Option<&str>, fed_with_sheet: bool) -> Result<Said, String> {
        if fed_with_sheet {
            return said(fed(self.with(&["steps", "-"]).args(quantity), sheet));
        }
        let folder = Folder::holding(&[("sheet", sheet)]).map_err(|e| format!("no folder is made: {e}"))?;
        self.steps_in(folder.path(), quantity)
    }

    /// The same of the file `sheet` of a folder, be it there or not.
    pub fn steps_in(&self, folder: &Path, quantity: Option<&str>) -> Result<Said, String> {
        said(self.with(&["steps", "sheet"]).args(quantity).current_dir(folder).stdin(Stdio::null()).output())
    }

    /// A text in a file or on standard input put into bank form, or only looked at whether it is in it.
    pub fn bank(&self, text: &[u8], check: bool, fed_with_text: bool) -> Result<Said, String> {
        if fed_with_text {
            return said(fed(self.with(&["bank"]).args(check.then_some("--check")), text));
        }
        let folder = Folder::holding(&[("sheet", text)]).map_err(|e| format!("no folder is made: {e}"))?;
        self.bank_in(folder.path(), check)
    }

    /// The same of the file `sheet` of a folder, be it there or not.
    pub fn bank_in(&self, folder: &Path, check: bool) -> Result<Said, String> {
        let mut command = self.with(&["bank"]);
        command.args(check.then_some("--check")).arg("sheet").current_dir(folder);
        said(command.stdin(Stdio::null()).output())
    }

    fn with(&self, given: &[&str]) -> Command {
        let mut command = Command::new(&self.path);
        command.args(given);
        command
    }
}

fn said(output: io::Result<Output>) -> Result<Said, String> {
    let Output { status, stdout, stderr } = output.map_err(|e| format!("acornsled does not run: {e}"))?;
    Ok(Said { status: status.code(), output: stdout, errors: stderr })
}
