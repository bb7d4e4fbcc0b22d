//! The stored cases: in each folder of tests/mark a sheet, a script, either of which may be missing, and what *mark* prints; in
//! each of tests/key a sheet and what *key* prints; in each of tests/ask a sheet, questions, either of which may be missing, and
//! what `acornsled ask` prints; in each of tests/steps a sheet and a quantity, which may be missing too, and what `acornsled steps`
//! prints; in each of tests/bank a sheet, which may be missing, what `acornsled bank` prints and, in `check`, what it prints with
//! `--check`; and the sample sheets, whose keys *key* prints.

use super::answer::{judged, Kind};
use super::program::Acornsled;
use super::steps::{self, Due};
use crate::printed::programs::Printer;
use std::fs;
use std::path::{Path, PathBuf};

/// Judges the command on all of them.
pub fn all(printer: &dyn Printer, command: &Acornsled) -> Result<Vec<Kind>, String> {
    let root = Path::new(env!("CARGO_MANIFEST_DIR")).join("../..");
    let mut kinds = vec![];
    for folder in listed(&root.join("tests/mark"))? {
        kinds.push(marked(command, &folder).map_err(|e| format!("{}: {e}", folder.display()))?);
    }
    for folder in listed(&root.join("tests/key"))? {
        kinds.push(keyed(command, &folder).map_err(|e| format!("{}: {e}", folder.display()))?);
    }
    kinds.extend(asked(command)?);
    for folder in listed(&root.join("tests/steps"))? {
        kinds.push(stepped(command, &folder).map_err(|e| format!("{}: {e}", folder.display()))?);
    }
    for folder in listed(&root.join("tests/bank"))? {
        kinds.extend(banked(command, &folder).map_err(|e| format!("{}: {e}", folder.display()))?);
    }
    for path in listed(&root.join("sheets"))?.iter().filter(|path| path.is_file()) {
        let text = fs::read(path).map_err(|e| format!("{}: {e}", path.display()))?;
        let said = command.key_of_file(&text)?;
        let kind = printer.key(&text).and_then(|printed| judged(&printed, &said, false));
        kinds.push(kind.map_err(|e| format!("{}: {e}", path.display()))?);
    }
    Ok(kinds)
}

/// Judges the command on the stored questions.
fn asked(command: &Acornsled) -> Result<Vec<Kind>, String> {
    let folders = listed(&Path::new(env!("CARGO_MANIFEST_DIR")).join("../../tests/ask"))?;
    let judged_in = |folder: &PathBuf| {
        let printed = fs::read(folder.join("stdout")).map_err(|e| format!("stdout: {e}"))?;
        let unread = ["sheet", "questions"].iter().any(|name| fs::read(folder.join(name)).is_err());
        judged(&printed, &command.ask_in(folder)?, unread)
    };
    folders.iter().map(|folder| judged_in(folder).map_err(|e| format!("{}: {e}", folder.display()))).collect()
}

/// Judges the command on a stored step. Nothing is stored where nothing is hidden, or where the quantity is not.
fn stepped(command: &Acornsled, folder: &Path) -> Result<Kind, String> {
    let quantity = fs::read_to_string(folder.join("quantity")).ok();
    let quantity = quantity.as_deref().map(str::trim_end);
    let due = match (fs::read_to_string(folder.join("stdout")).map_err(|e| format!("stdout: {e}"))?, quantity) {
        (printed, None) if printed.is_empty() => Due::Nothing,
        (printed, Some(_)) if printed.is_empty() => Due::Misused,
        (printed, _) => Due::Lines(printed),
    };
    let unread = fs::read(folder.join("sheet")).is_err();
    steps::judged(&due, &command.steps_in(folder, quantity)?, unread)
}

/// Judges the command on a stored bank sheet, or on what is none, as it is and with `--check`.
fn banked(command: &Acornsled, folder: &Path) -> Result<Vec<Kind>, String> {
    let unread = fs::read(folder.join("sheet")).is_err();
    let both = [("stdout", false), ("check", true)].into_iter().map(|(name, check)| {
        let printed = fs::read(folder.join(name)).map_err(|e| format!("{name}: {e}"))?;
        judged(&printed, &command.bank_in(folder, check)?, unread).map_err(|e| format!("{name}: {e}"))
    });
    both.collect()
}

fn marked(command: &Acornsled, folder: &Path) -> Result<Kind, String> {
    let printed = fs::read(folder.join("stdout")).map_err(|e| format!("stdout: {e}"))?;
    let unread = ["sheet", "script"].iter().any(|name| fs::read(folder.join(name)).is_err());
    judged(&printed, &command.mark_in(folder)?, unread)
}

fn keyed(command: &Acornsled, folder: &Path) -> Result<Kind, String> {
    let read = |name| fs::read(folder.join(name)).map_err(|e| format!("{name}: {e}"));
    judged(&read("stdout")?, &command.key_of_file(&read("sheet")?)?, false)
}

/// What a folder has, in the order of the names. That it has nothing is a failure, for nothing would be judged.
fn listed(folder: &Path) -> Result<Vec<PathBuf>, String> {
    let entries = fs::read_dir(folder).and_then(|entries| entries.map(|entry| Ok(entry?.path())).collect());
    let mut paths: Vec<PathBuf> = entries.map_err(|e| format!("{}: {e}", folder.display()))?;
    paths.sort();
    match paths.is_empty() {
        true => Err(format!("{} is empty", folder.display())),
        false => Ok(paths),
    }
}
