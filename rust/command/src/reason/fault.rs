//! A fault of a line.

use super::{pointer, Told};

/// What is wrong with a line, and where.
#[derive(Clone, PartialEq, Eq, Debug)]
pub struct Fault {
    /// the place of the first byte that is wrong, counted from 0; the line's length where something is missing at its end
    pub at: usize,
    /// how many bytes are wrong
    pub length: usize,
    pub what: String,
    /// what to do, where that is not plain
    pub help: Option<String>,
}

impl Fault {
    pub fn new(at: usize, length: usize, what: impl Into<String>) -> Fault {
        Fault { at, length, what: what.into(), help: None }
    }

    pub fn with_help(self, help: impl Into<String>) -> Fault {
        Fault { help: Some(help.into()), ..self }
    }

    /// The line and under it a pointer to the fault with what is wrong.
    pub fn shown(&self, line: &[u8]) -> Vec<String> {
        let (line, pointer) = pointer::pointed(line, self.at, self.length);
        vec![line, format!("{pointer} {}", self.what)]
    }

    /// What to do, as a line.
    pub fn helped(&self) -> Option<String> {
        self.help.as_ref().map(|help| format!("what helps: {help}"))
    }

    /// All that is told of the line.
    pub fn told(&self, line: &[u8], expected: &str) -> Told {
        let mut details = self.shown(line);
        details.push(format!("expected: {expected}"));
        details.extend(self.helped());
        Told { at: Some(self.at), details }
    }
}

/// All that is told of a line with a fault, which is always found where the reading here agrees with the library's.
pub fn told(line: &[u8], fault: Option<Fault>, expected: &str) -> Told {
    fault.unwrap_or_else(|| Fault::new(0, line.len(), "this line")).told(line, expected)
}
