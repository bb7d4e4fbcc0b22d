//! The options of a sitting, which stand before the sheet.

use super::part::Part;
use crate::visible;
use std::ffi::{OsStr, OsString};
use std::os::unix::ffi::OsStrExt;
use std::path::PathBuf;

/// What the options say.
#[derive(Default)]
pub struct Options {
    /// none where all of a folder is marked
    pub naming: Option<Naming>,
    pub folder: Option<PathBuf>,
    pub part: Option<Part>,
    pub no_header: bool,
}

/// How scripts are named.
pub enum Naming {
    /// after the sheet
    Arguments,
    /// on standard input, each name ended by this byte
    List(u8),
}

/// Whether an argument has the form of an option. `-` alone is standard input.
pub fn is_option(argument: &OsStr) -> bool {
    matches!(argument.as_bytes(), [b'-', _, ..])
}

impl Options {
    /// Takes one option, and its value, which stands in it after `=` or is the next of what stands after it; answers what
    /// then is left.
    pub fn take<'a>(&mut self, option: &'a OsStr, after: &'a [OsString]) -> Result<&'a [OsString], String> {
        match option.to_str() {
            Some("--scripts") => self.name_by(Naming::Arguments)?,
            Some("--list") => self.name_by(Naming::List(b'\n'))?,
            Some("--list0") => self.name_by(Naming::List(0))?,
            Some("--no-header") => self.no_header = true,
            _ => return self.take_valued(option, after),
        }
        Ok(after)
    }

    /// The same for the options that have a value.
    fn take_valued<'a>(&mut self, option: &'a OsStr, after: &'a [OsString]) -> Result<&'a [OsString], String> {
        let (name, value, after) = valued(option, after);
        match name {
            b"--folder" => {
                let folder =
                    value.filter(|folder| !folder.is_empty()).ok_or("--folder is to be followed by a FOLDER")?;
                once("--folder", self.folder.replace(folder.into()))?;
            }
            b"--part" => {
                let part = value.and_then(Part::read);
                let part = part.ok_or("--part is to be followed by K/N, two numbers with K from 1 to N")?;
                once("--part", self.part.replace(part))?;
            }
            _ => {
                let option = visible::name(option);
                return Err(format!("there is no option {option}; a file of that name is given after --"));
            }
        }
        Ok(after)
    }

    fn name_by(&mut self, naming: Naming) -> Result<(), String> {
        match self.naming.replace(naming) {
            None => Ok(()),
            Some(_) => Err("only one of --scripts, --list and --list0 can be asked for".into()),
        }
    }
}

/// The name of an option, its value if there is one, and what is left.
fn valued<'a>(option: &'a OsStr, after: &'a [OsString]) -> (&'a [u8], Option<&'a OsStr>, &'a [OsString]) {
    let bytes = option.as_bytes();
    if let Some(at) = bytes.iter().position(|&byte| byte == b'=') {
        return (&bytes[..at], Some(OsStr::from_bytes(&bytes[at + 1..])), after);
    }
    match after.split_first() {
        Some((value, after)) => (bytes, Some(value), after),
        None => (bytes, None, after),
    }
}

/// That an option had no value before: which of two is meant is not known.
fn once<T>(option: &str, before: Option<T>) -> Result<(), String> {
    match before {
        None => Ok(()),
        Some(_) => Err(format!("{option} can be given only once")),
    }
}
