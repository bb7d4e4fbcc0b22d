//! An edit as its file spells it, in the form of the crates' must-fail edits, and its application to files:
//!
//!     # crate::module::function: what is wrong, and an input that shows it
//!     file: src/lib.rt
//!     old: what stands exactly once in the file
//!     new: what takes its place
//!
//! A `file:` line holds for the pairs of `old:` and `new:` after it. All other lines are passed over.

use super::body::is_in_body;
use std::collections::BTreeMap;

/// The files of a crate that edits name, by their paths in the crate.
pub type Files = BTreeMap<String, String>;

#[derive(Clone, Debug)]
pub struct Edit {
    /// The edit's own name, that of its file.
    pub name: String,
    /// The function that is made wrong, as the check names it.
    pub function: String,
    pub replacements: Vec<Replacement>,
}

#[derive(Clone, PartialEq, Eq, Debug)]
pub struct Replacement {
    pub file: String,
    pub old: String,
    pub new: String,
}

impl Edit {
    /// The edit that a file of this name spells.
    pub fn parse(name: &str, text: &str) -> Result<Edit, String> {
        let function = text
            .strip_prefix("# ")
            .and_then(|rest| rest.split_once(": "))
            .map(|(function, _)| function.to_string())
            .filter(|function| !function.contains(char::is_whitespace))
            .ok_or("its first line names no function")?;
        let (mut file, mut old, mut replacements) = ("", "", Vec::new());
        for line in text.lines() {
            if let Some(named) = line.strip_prefix("file: ") {
                file = named;
            } else if let Some(text) = line.strip_prefix("old: ") {
                old = text;
            } else if let Some(new) = line.strip_prefix("new:") {
                let new = new.strip_prefix(' ').unwrap_or(new);
                replacements.push(Replacement::new(file, std::mem::take(&mut old), new)?);
            }
        }
        if replacements.is_empty() {
            return Err("it has no pair of 'old:' and 'new:'".to_string());
        }
        Ok(Edit { name: name.to_string(), function, replacements })
    }

    /// Changes the files, or says why it does not apply.
    pub fn apply(&self, files: &mut Files) -> Result<(), String> {
        for Replacement { file, old, new } in &self.replacements {
            let text = files.get_mut(file).ok_or_else(|| format!("the crate has no {file}"))?;
            let count = text.matches(old.as_str()).count();
            if count != 1 {
                return Err(format!("its old text stands {count} times in {file}"));
            }
            *text = text.replacen(old.as_str(), new, 1);
        }
        Ok(())
    }

    /// Does it change nothing but the body of the function that it names?
    pub fn is_local(&self, files: &Files) -> bool {
        let name = self.function.rsplit("::").next().unwrap_or_default();
        self.replacements.iter().all(|replacement| {
            let text = files.get(&replacement.file);
            text.is_some_and(|text| text.find(&replacement.old).is_some_and(|at| is_in_body(text, at, name)))
        })
    }
}

impl Replacement {
    /// A replacement in what runs or in what is to be believed: a changed proof is no wrong program.
    fn new(file: &str, old: &str, new: &str) -> Result<Replacement, String> {
        if old.is_empty() {
            return Err("it has a 'new:' without an 'old:'".to_string());
        }
        let within = file.starts_with("src/") || file.starts_with("specs/");
        if !within || file.split('/').any(|part| part == "..") {
            return Err(format!("'{file}' is no file under src/ or specs/"));
        }
        Ok(Replacement { file: file.to_string(), old: old.to_string(), new: new.to_string() })
    }
}
