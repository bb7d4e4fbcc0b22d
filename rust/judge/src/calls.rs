//! A call on lent memory, and which words each reply may have changed (document 01, 'Returned to the caller').

use crate::lent::Lent;
use crate::library::{spelled, Key, Library, Reply, DONE, NO_ASSIGNMENT};
use crate::meaning::size;

pub struct KeyCall {
    pub key: Key,
    pub n: usize,
    pub hidden: u32,
    pub table: Lent,
    pub workspace: Lent,
}

impl KeyCall {
    pub fn run(&mut self, library: &dyn Library) -> Reply {
        let (table, workspace) = (self.table.slice(), self.workspace.slice());
        library.keyed(self.key, self.n, self.hidden, table, workspace)
    }

    /// Has the call changed no word but those that its reply leaves free?
    pub fn memory(&self, reply: Reply) -> Result<(), String> {
        let (table, workspace) = match reply {
            DONE => (size(self.n), size(self.n)),
            NO_ASSIGNMENT => (0, size(self.n)),
            _ => (0, 0),
        };
        kept("table", &self.table, table)?;
        kept("workspace", &self.workspace, workspace)
    }
}

pub struct AssignmentCall {
    pub n: usize,
    pub table: Lent,
    pub workspace: Lent,
    pub values: Lent,
}

impl AssignmentCall {
    pub fn run(&mut self, library: &dyn Library) -> Reply {
        let (workspace, values) = (self.workspace.slice(), self.values.slice());
        library.assignment(self.n, self.table.left(), workspace, values)
    }

    /// As for a key; the table is never changed.
    pub fn memory(&self, reply: Reply) -> Result<(), String> {
        let (workspace, values) = match reply {
            DONE => (size(self.n), self.n),
            NO_ASSIGNMENT => (size(self.n), 0),
            _ => (0, 0),
        };
        kept("table", &self.table, 0)?;
        kept("workspace", &self.workspace, workspace)?;
        kept("values", &self.values, values)
    }
}

/// The reply against the one that was due: its number and its value.
pub fn same_reply(reply: Reply, due: Reply) -> Result<(), String> {
    if reply != due {
        return Err(format!("reply {}, due {}", spelled(reply), spelled(due)));
    }
    Ok(())
}

/// Has nothing changed but the first `free` words, or bytes?
pub fn kept<T: Copy + PartialEq>(name: &str, lent: &Lent<T>, free: usize) -> Result<(), String> {
    if lent.kept_but(free) {
        return Ok(());
    }
    Err(format!("{name}: a word changed that is not of its first {free}"))
}

/// Each of these words against the one that was due.
pub fn same_words(found: &[i64], due: &[i64]) -> Result<(), String> {
    match (0..due.len()).find(|&place| found[place] != due[place]) {
        Some(place) => Err(format!("place {place}: word {}, due {}", found[place], due[place])),
        None => Ok(()),
    }
}
