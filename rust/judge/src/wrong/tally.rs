//! What became of the edits: a line for each, and the counts.

use std::io::{self, Write};

/// So much of a reason is printed; what follows are terms that tell a reader nothing.
const SHORT: usize = 140;

#[derive(Clone, Copy, PartialEq, Eq, Default, Debug)]
pub struct Tally {
    pub refused: usize,
    pub not: usize,
}

impl Tally {
    /// The wrong program is refused, as it must be.
    pub fn refused(&mut self, out: &mut dyn Write, edit: &str, why: &str) -> io::Result<()> {
        self.refused += 1;
        let cut = why.char_indices().nth(SHORT).map_or(why.len(), |(at, _)| at);
        let dots = if cut < why.len() { " .." } else { "" };
        writeln!(out, "{edit}: refused: {}{dots}", &why[..cut])
    }

    /// The wrong program is not refused, or the edit is none.
    pub fn not(&mut self, out: &mut dyn Write, edit: &str, why: &str) -> io::Result<()> {
        self.not += 1;
        writeln!(out, "{edit}: NOT refused: {why}")
    }
}
