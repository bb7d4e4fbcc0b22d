//! Where a text comes from, a file that is named or standard input, and the text that was read there.

use crate::output::{self, tell};
use crate::status::Status;
use crate::{files, reason, visible};
use acornsled::{Paper, Refusal, Refused};
use std::ffi::OsStr;
use std::fmt;
use std::io;
use std::path::Path;

#[derive(Clone, Copy, PartialEq, Eq, Debug)]
pub enum Source<'a> {
    Input,
    File(&'a OsStr),
}

impl<'a> Source<'a> {
    /// The file of this name, and standard input for `-`.
    pub fn of(name: &'a OsStr) -> Source<'a> {
        if name == "-" {
            return Source::Input;
        }
        Source::File(name)
    }

    /// The text, as far as it is looked at.
    pub fn text(&self) -> io::Result<Vec<u8>> {
        match self {
            Source::Input => files::input(),
            Source::File(name) => files::text(Path::new(name)),
        }
    }

    /// The text, called by the paper that it is.
    pub fn paper(&self, paper: &str) -> Held {
        self.held(match self {
            Source::Input => format!("the {paper} on standard input"),
            Source::File(_) => format!("the {paper} {self}"),
        })
    }

    /// The text by this name, and no bytes where it cannot be read, as document 01 has it; that is told.
    pub fn held(&self, name: String) -> Held {
        match self.text() {
            Ok(bytes) => Held { name, bytes, status: Status::Answered },
            Err(fault) => {
                tell(&format!("{name} cannot be read and counts as an empty text: {fault}"));
                Held { name, bytes: Vec::new(), status: Status::Failed }
            }
        }
    }
}

impl fmt::Display for Source<'_> {
    fn fmt(&self, f: &mut fmt::Formatter) -> fmt::Result {
        match self {
            Source::Input => f.write_str("standard input"),
            // nothing at all would be seen of it
            Source::File(name) if name.is_empty() => f.write_str("''"),
            Source::File(name) => f.write_str(&visible::name(name)),
        }
    }
}

/// A text with the name by which it is told of.
pub struct Held {
    pub name: String,
    pub bytes: Vec<u8>,
    /// whether it could be read
    pub status: Status,
}

impl Held {
    /// Prints the refusal of a sheet, as the program *key* prints it, and tells why it is refused.
    pub fn refuse(&self, refusal: Refusal) -> Status {
        let lines = format!("refused={}\nline={}\n", refusal.number(), refusal.line());
        let printed = output::answer(lines.as_bytes());
        self.tell_refusal(Refused { paper: Paper::Sheet, refusal });
        printed.max(self.status).max(Status::Refused)
    }

    /// Tells why the text is refused; of one that cannot be read this is told already.
    pub fn tell_refusal(&self, refused: Refused) {
        if self.status == Status::Answered {
            tell(&reason::of(&self.name, &self.bytes, refused).to_string());
        }
    }
}
