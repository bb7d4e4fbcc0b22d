//! The edits of one crate tried on a copy of it.

use super::edit::{Edit, Files};
use super::log::{first_error, said, Said};
use super::rounds::{next, Pending};
use super::tally::Tally;
use std::fs;
use std::io::{self, Write};
use std::path::Path;

/// A crate of the copy, and how it is checked.
pub struct Trial<'a> {
    pub name: &'a str,
    /// The crate's folder in the copy. Its files are changed for a round, and changed back.
    pub folder: &'a Path,
    /// Checks the crate as its files are, and answers what the check prints.
    pub check: &'a dyn Fn() -> io::Result<String>,
    pub out: &'a mut dyn Write,
    pub tally: &'a mut Tally,
}

impl Trial<'_> {
    /// Tries every edit, in as many rounds as it takes: each round decides an edit, or has every one of its edits tried alone.
    pub fn all(&mut self, edits: Vec<Edit>) -> io::Result<()> {
        let files = self.files(&edits)?;
        let mut waiting = self.fit(edits, &files)?;
        while !waiting.is_empty() {
            let (round, edited, rest) = next(waiting, &files);
            self.write(&edited)?;
            let log = (self.check)();
            self.write(&files)?;
            waiting = rest;
            waiting.extend(self.undecided(round, &log?)?);
        }
        Ok(())
    }

    /// How many of the edits apply to the files; what others do is told. It takes no check.
    pub fn fitting(&mut self, edits: &[Edit]) -> io::Result<usize> {
        let files = self.files(edits)?;
        let mut count = 0;
        for edit in edits {
            match edit.apply(&mut files.clone()) {
                Ok(()) => count += 1,
                Err(fault) => self.not(edit, &fault)?,
            }
        }
        Ok(count)
    }

    /// The files that the edits name, as far as there are such files.
    fn files(&self, edits: &[Edit]) -> io::Result<Files> {
        let mut files = Files::new();
        for file in edits.iter().flat_map(|edit| &edit.replacements).map(|replacement| &replacement.file) {
            let path = self.folder.join(file);
            if path.is_file() {
                files.insert(file.clone(), fs::read_to_string(path)?);
            }
        }
        Ok(files)
    }

    fn write(&self, files: &Files) -> io::Result<()> {
        files.iter().try_for_each(|(file, text)| fs::write(self.folder.join(file), text))
    }

    /// The edits that apply, of functions that are proved as they stand: of any other a failed proof would say nothing.
    fn fit(&mut self, edits: Vec<Edit>, files: &Files) -> io::Result<Vec<Pending>> {
        let log = (self.check)()?;
        let mut waiting = Vec::new();
        for edit in edits {
            match (said(&log, &edit.function), edit.apply(&mut files.clone())) {
                (Said::Proved, Ok(())) => {
                    let alone = !edit.is_local(files);
                    waiting.push(Pending { edit, alone });
                }
                (Said::Proved, Err(fault)) => self.not(&edit, &fault)?,
                (Said::Nothing, _) => self.not(&edit, &format!("the check names no function {}", edit.function))?,
                _ => self.not(&edit, "the function is not proved without the edit either")?,
            }
        }
        Ok(waiting)
    }

    /// Tells what is decided of a round, and answers what is not: to be tried alone where nothing is decided.
    fn undecided(&mut self, round: Vec<Pending>, log: &str) -> io::Result<Vec<Pending>> {
        let count = round.len();
        let mut left = Vec::new();
        for pending in round {
            match said(log, &pending.edit.function) {
                Said::Refused(why) => self.refused(&pending.edit, &why)?,
                Said::Proved => self.not(&pending.edit, "the function is proved with it")?,
                Said::Masked if count == 1 => {
                    self.not(&pending.edit, "what fails is a function that this one calls")?
                }
                Said::Nothing if count == 1 => {
                    self.not(&pending.edit, &format!("it does not reach the proofs: {}", first_error(log)))?
                }
                Said::Masked | Said::Nothing => left.push(pending),
            }
        }
        if left.len() == count {
            left.iter_mut().for_each(|pending| pending.alone = true);
        }
        Ok(left)
    }

    fn refused(&mut self, edit: &Edit, why: &str) -> io::Result<()> {
        self.tally.refused(self.out, &format!("{}/{}", self.name, edit.name), why)
    }

    fn not(&mut self, edit: &Edit, why: &str) -> io::Result<()> {
        self.tally.not(self.out, &format!("{}/{}", self.name, edit.name), why)
    }
}
