//! The names of the scripts of a sitting, in the order of their rows.

use super::arguments::{Scripts, Sitting};
use crate::files::standard_input;
use crate::visible;
use std::ffi::OsString;
use std::fs;
use std::io::{self, Read};
use std::os::unix::ffi::OsStringExt;
use std::path::Path;

/// The names, or why they cannot be had.
pub fn names(asked: &Sitting) -> Result<Vec<OsString>, String> {
    match &asked.scripts {
        Scripts::All => standing(&asked.folder),
        Scripts::Named(names) => found(&asked.folder).map(|()| names.clone()),
        Scripts::Listed(end) => {
            found(&asked.folder)?;
            let list = input().map_err(|fault| format!("the list on standard input cannot be read: {fault}"))?;
            listed(&list, *end)
        }
    }
}

/// That there is the folder in which names are to be looked up. Else nothing would be found of any script, as where a
/// disk is not mounted, though none of them is at fault.
fn found(folder: &Path) -> Result<(), String> {
    if folder.as_os_str().is_empty() {
        return Ok(());
    }
    let name = visible::name(folder.as_os_str());
    match fs::metadata(folder) {
        Ok(what) if what.is_dir() => entered(folder),
        Ok(_) => Err(format!("{name} is no folder")),
        Err(fault) => Err(format!("the folder {name} cannot be found: {fault}")),
    }
}

/// That the names of a folder can be looked up, which one may be allowed to list and not to enter.
fn entered(folder: &Path) -> Result<(), String> {
    let looked_up = fs::metadata(folder.join("."));
    looked_up.map(|_| ()).map_err(|fault| {
        let name = visible::name(folder.as_os_str());
        format!("the folder {name} cannot be entered: {fault}")
    })
}

/// All that stands in a folder, in the order of the names' bytes. Nothing is left out, whatever it is called and
/// whatever it is, so that nothing that was handed in is missing from the table without a word.
fn standing(folder: &Path) -> Result<Vec<OsString>, String> {
    let mut names = listing(folder)
        .map_err(|fault| format!("the folder {} cannot be listed: {fault}", visible::name(folder.as_os_str())))?;
    entered(folder)?;
    names.sort();
    Ok(names)
}

fn listing(folder: &Path) -> io::Result<Vec<OsString>> {
    fs::read_dir(folder)?.map(|entry| Ok(entry?.file_name())).collect()
}

/// All of standard input.
fn input() -> io::Result<Vec<u8>> {
    let mut list = Vec::new();
    standard_input()?.read_to_end(&mut list)?;
    Ok(list)
}

/// The names of a list, each ended by the byte, the last one by the list's end as well. No file has a name with byte 0.
fn listed(list: &[u8], end: u8) -> Result<Vec<OsString>, String> {
    if end != 0 && list.contains(&0) {
        return Err("the list on standard input has a byte 0; names that end with it are read by --list0".into());
    }
    if list.is_empty() {
        return Ok(Vec::new());
    }
    let names = list.strip_suffix(&[end]).unwrap_or(list).split(|&byte| byte == end);
    Ok(names.map(|name| OsString::from_vec(name.to_vec())).collect())
}
