//! What the arguments of a sitting ask for. Options end where the sheet is named, so that no name of a script is taken
//! for one.

use super::options::{is_option, Naming, Options};
use super::part::Part;
use std::ffi::OsString;
use std::path::PathBuf;

/// What is to be done.
pub enum Asked {
    Help,
    Version,
    Sitting(Sitting),
}

/// A table that is asked for.
pub struct Sitting {
    /// its file's name, `-` for standard input
    pub sheet: OsString,
    pub scripts: Scripts,
    /// where the names of scripts are looked up; empty for the working directory
    pub folder: PathBuf,
    pub part: Part,
    pub header: bool,
}

/// Which scripts are marked.
pub enum Scripts {
    /// all that stands in the folder
    All,
    /// those of these names
    Named(Vec<OsString>),
    /// those on standard input, each name ended by this byte
    Listed(u8),
}

/// What is asked for, or what is wrong with the arguments.
pub fn read(given: &[OsString]) -> Result<Asked, String> {
    let mut options = Options::default();
    let mut rest = given;
    while let [argument, after @ ..] = rest {
        match argument.to_str() {
            Some("--help" | "-h") => return Ok(Asked::Help),
            Some("--version" | "-V") => return Ok(Asked::Version),
            Some("--") => {
                rest = after;
                break;
            }
            _ if is_option(argument) => rest = options.take(argument, after)?,
            _ => break,
        }
    }
    with_papers(options, rest)
}

/// The sitting that is asked for by the options and the names after them.
fn with_papers(options: Options, papers: &[OsString]) -> Result<Asked, String> {
    let (sheet, rest) = papers.split_first().ok_or("no sheet is named")?;
    let (scripts, folder) = match (options.naming, options.folder, rest) {
        (None, None, [folder]) => (Scripts::All, PathBuf::from(folder)),
        (None, None, _) => return Err(miscounted("two names are due, SHEET and FOLDER", rest)),
        (None, Some(_), _) => return Err("--folder goes with --scripts, --list or --list0 alone".into()),
        (Some(Naming::Arguments), folder, names) => (Scripts::Named(names.to_vec()), folder.unwrap_or_default()),
        (Some(Naming::List(_)), _, []) if sheet == "-" => {
            return Err("only one of the sheet and the list can be standard input".into())
        }
        (Some(Naming::List(end)), folder, []) => (Scripts::Listed(end), folder.unwrap_or_default()),
        (Some(Naming::List(_)), _, _) => {
            return Err(miscounted("with a list on standard input only SHEET is named", rest))
        }
    };
    let part = options.part.unwrap_or(Part::WHOLE);
    Ok(Asked::Sitting(Sitting { sheet: sheet.clone(), scripts, folder, part, header: !options.no_header }))
}

/// What is wrong where too many or too few names are given: maybe an option that came too late, and was taken for one.
fn miscounted(due: &str, after_the_sheet: &[OsString]) -> String {
    if after_the_sheet.iter().any(|name| is_option(name)) {
        return format!("{due}; options stand before SHEET");
    }
    due.into()
}
