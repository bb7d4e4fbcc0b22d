//! The command `acornsled`: one module for each thing that can be asked for, and what they share.

pub mod arguments;
pub mod ask;
pub mod bank;
pub mod descriptors;
pub mod explain;
pub mod files;
pub mod key;
pub mod mark;
pub mod output;
pub mod reason;
pub mod shown;
pub mod sitting;
pub mod source;
pub mod status;
pub mod steps;
pub mod threads;
pub mod usage;
pub mod visible;

use status::Status;
use std::ffi::{OsStr, OsString};

/// Runs the command that the first argument names, with the arguments after it.
pub fn run(given: &[OsString]) -> Status {
    // before a file is opened, which would take its place
    if let Err(fault) = output::open() {
        return output::lost(&fault);
    }
    let Some((name, rest)) = given.split_first() else {
        return usage::wrong(usage::COMMAND, "no command is named");
    };
    match name.to_str() {
        Some("--help" | "-h" | "help") => help(rest),
        Some("--version" | "-V") => version(rest),
        _ => named(name, rest).unwrap_or_else(|| usage::wrong(usage::COMMAND, &unknown(name))),
    }
}

/// Runs the command of this name, if there is one.
fn named(name: &OsStr, rest: &[OsString]) -> Option<Status> {
    match name.to_str() {
        Some("key") => Some(key::run(rest)),
        Some("mark") => Some(mark::run(rest)),
        Some("sitting") => Some(sitting::run(rest)),
        Some("ask") => Some(ask::run(rest)),
        Some("steps") => Some(steps::run(rest)),
        Some("bank") => Some(bank::run(rest)),
        Some("explain") => Some(explain::run(rest)),
        _ => None,
    }
}

/// The help of the command that is named, else the one on all commands.
fn help(rest: &[OsString]) -> Status {
    match rest {
        [] => output::answer(usage::HELP.as_bytes()),
        [name] => named(name, &["--help".into()]).unwrap_or_else(|| usage::wrong(usage::COMMAND, &unknown(name))),
        _ => usage::wrong(usage::COMMAND, "help is given for one command at a time"),
    }
}

/// The version, where nothing else is asked for.
fn version(rest: &[OsString]) -> Status {
    if rest.is_empty() {
        return output::answer(usage::VERSION.as_bytes());
    }
    usage::wrong(usage::COMMAND, "nothing is due after --version")
}

fn unknown(name: &OsStr) -> String {
    format!("there is no command {}", visible::name(name))
}
