//! `acornsled sitting`: many scripts marked against one sheet, on all cores, as a table in CSV on standard output.
//! `arguments` has what is asked for, by `options` and names, `names` which scripts that are, `text` what is read of each and
//! `fault` whose fault it is where nothing is, `marking` how the work is shared, `csv` how the table is written, and `notes`
//! what standard error is told beside it.

mod arguments;
mod csv;
mod fault;
mod marking;
mod names;
mod notes;
mod options;
mod part;
mod progress;
mod text;
mod usage;

use crate::output::{self, tell};
use crate::reason;
use crate::source::Source;
use crate::status::Status;
use crate::visible;
use acornsled::{Paper, Refused, Table};
use arguments::{Asked, Sitting};
use marking::Halt;
use std::ffi::{OsStr, OsString};
use std::io::BufWriter;

/// Does what the arguments ask for.
pub fn run(given: &[OsString]) -> Status {
    match arguments::read(given) {
        Ok(Asked::Help) => output::answer(usage::SITTING.help.as_bytes()),
        Ok(Asked::Version) => output::answer(crate::usage::VERSION.as_bytes()),
        Ok(Asked::Sitting(asked)) => sitting(&asked).err().unwrap_or(Status::Answered),
        Err(what) => crate::usage::wrong(usage::SITTING.usage, &what),
    }
}

/// Writes the table once all of it is known, so that whatever fails before leaves nothing on standard output.
fn sitting(asked: &Sitting) -> Result<(), Status> {
    let sheet = sheet(&asked.sheet)?;
    let mut names = names::names(asked).map_err(|what| {
        tell(&what);
        Status::Failed
    })?;
    let share = asked.part.share(names.len());
    let rows = marking::rows(&sheet, &asked.folder, names.drain(share).collect()).map_err(halted)?;
    let header = asked.header && asked.part.is_first();
    let stream = output::stream();
    csv::write(&mut BufWriter::new(&*stream), header, &rows).map_err(|fault| output::lost(&fault))?;
    notes::tell_all(&asked.scripts, &rows);
    Ok(())
}

/// Tells at which script the sitting ended.
fn halted(at: Halt) -> Status {
    tell(&format!("the script \"{}\" cannot be read: {}", visible::name(&at.name), at.fault));
    tell("there is no table, for the script is not at fault");
    Status::Failed
}

/// The sheet's text, where scripts can be marked against it. Of a refused one every script would get the refusal, though
/// none of them is at fault, so that it is told here.
fn sheet(name: &OsStr) -> Result<Vec<u8>, Status> {
    let source = Source::of(name);
    let name = match source {
        Source::Input => "the sheet on standard input".to_string(),
        Source::File(_) => format!("the sheet {source}"),
    };
    let text = source.text().map_err(|fault| {
        tell(&format!("{name} cannot be read: {fault}"));
        Status::Failed
    })?;
    Table::read(&text).map_err(|refusal| {
        tell(&reason::of(&name, &text, Refused { paper: Paper::Sheet, refusal }).to_string());
        tell("no script is marked");
        Status::Refused
    })?;
    Ok(text)
}
