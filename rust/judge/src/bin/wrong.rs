//! `wrong EDITS COPY CRATE ..` tries the wrong programs EDITS/CRATE/*.edit on COPY, which is a copy of the repository's crates
//! that it changes and changes back; `CRATE:1` and `CRATE:2` are the two halves of a crate's edits. Exit status 1 says that a
//! wrong program is not refused, or that an edit is none.
//!
//! `wrong EDITS COPY` tries none, and holds those of all crates against the files that they change, which takes no proof: a
//! change of the sources may have left an edit behind.

use judge::wrong::edit::Edit;
use judge::wrong::tally::Tally;
use judge::wrong::trial::Trial;
use std::env;
use std::fs;
use std::io::{self, Write};
use std::path::Path;
use std::process::{Command, ExitCode};

fn main() -> ExitCode {
    let given: Vec<String> = env::args().skip(1).collect();
    let [edits, copy, crates @ ..] = &given[..] else {
        eprintln!("wrong EDITS COPY [CRATE ..]");
        return ExitCode::from(2);
    };
    let (edits, copy) = (Path::new(edits), Path::new(copy));
    let passed = if crates.is_empty() { all_fit(edits, copy) } else { all_refused(edits, copy, crates) };
    match passed {
        Ok(true) => ExitCode::SUCCESS,
        Ok(false) => ExitCode::FAILURE,
        Err(fault) => {
            let _ = writeln!(io::stderr(), "wrong: {fault}");
            ExitCode::FAILURE
        }
    }
}

/// Tries the edits of these crates, one crate after the other.
fn all_refused(edits: &Path, copy: &Path, crates: &[String]) -> io::Result<bool> {
    let tally = each(edits, copy, crates, &mut |trial, edits| trial.all(edits))?;
    println!("wrong: {} wrong programs refused, {} not: {}", tally.refused, tally.not, crates.join(", "));
    Ok(tally.refused > 0 && tally.not == 0)
}

/// Holds the edits of all crates against the files.
fn all_fit(edits: &Path, copy: &Path) -> io::Result<bool> {
    let mut count = 0;
    let tally = each(edits, copy, &names(edits)?, &mut |trial, edits| {
        count += trial.fitting(&edits)?;
        Ok(())
    })?;
    println!("wrong: {count} wrong programs fit the sources, {} do not", tally.not);
    Ok(count > 0 && tally.not == 0)
}

/// What is done with the edits of a crate.
type Step<'a> = dyn FnMut(&mut Trial, Vec<Edit>) -> io::Result<()> + 'a;

/// What became of the edits of these crates.
fn each(edits: &Path, copy: &Path, crates: &[String], step: &mut Step) -> io::Result<Tally> {
    let mut out = io::stdout();
    let mut tally = Tally::default();
    for given in crates {
        let (name, half) = given.split_once(':').unwrap_or((given, ""));
        let mut edits = parsed(name, &edits.join(name), &mut out, &mut tally)?;
        keep(&mut edits, half)?;
        let folder = copy.join("crates").join(name);
        let check = || checked(&folder);
        step(&mut Trial { name, folder: &folder, check: &check, out: &mut out, tally: &mut tally }, edits)?;
    }
    Ok(tally)
}

/// Leaves a half of the edits, every other one, where one is named.
fn keep(edits: &mut Vec<Edit>, half: &str) -> io::Result<()> {
    let left = match half {
        "" => return Ok(()),
        "1" => 0,
        "2" => 1,
        _ => return Err(io::Error::new(io::ErrorKind::InvalidInput, format!("there is no half {half}: 1 or 2"))),
    };
    let mut at = 0;
    edits.retain(|_| {
        at += 1;
        (at - 1) % 2 == left
    });
    Ok(())
}

/// What `rt check` prints of a crate of the copy, in its folder.
fn checked(folder: &Path) -> io::Result<String> {
    let output = Command::new("rt").arg("check").current_dir(folder).output().map_err(|e| told("cannot run rt", e))?;
    Ok(String::from_utf8_lossy(&[output.stdout, output.stderr].concat()).into_owned())
}

/// The edits in a crate's folder, in the order of their names.
fn parsed(name: &str, folder: &Path, out: &mut dyn Write, tally: &mut Tally) -> io::Result<Vec<Edit>> {
    let mut edits = Vec::new();
    for file in names(folder)?.iter().filter_map(|file| file.strip_suffix(".edit")) {
        match Edit::parse(file, &fs::read_to_string(folder.join(format!("{file}.edit")))?) {
            Ok(edit) => edits.push(edit),
            Err(fault) => tally.not(out, &format!("{name}/{file}"), &fault)?,
        }
    }
    Ok(edits)
}

/// The names in a folder, sorted.
fn names(folder: &Path) -> io::Result<Vec<String>> {
    let mut names = Vec::new();
    for entry in fs::read_dir(folder).map_err(|e| told(&format!("cannot list {}", folder.display()), e))? {
        names.push(entry?.file_name().to_string_lossy().into_owned());
    }
    names.sort();
    Ok(names)
}

/// An error with what could not be done.
fn told(what: &str, error: io::Error) -> io::Error {
    io::Error::new(error.kind(), format!("{what}: {error}"))
}
