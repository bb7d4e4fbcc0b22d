//! What is due of a call of the writer.

use super::refusal::Refusal;
use crate::library::{too_short, PAST_LIMIT, SIZE};
use crate::meaning::{is_in, size, MOST_QUANTITIES};
use crate::sheets::Sheet;
use std::fmt;

/// The bytes of `quantities=1`, `hidden=` and `rules=0` with their line ends: no text has fewer.
const SHORTEST: usize = 29;

/// What the writer is given; of its output only the length.
pub struct Given {
    pub n: usize,
    pub hidden: u32,
    pub table: Vec<i64>,
    pub out: usize,
}

impl Given {
    /// The text, or the first refusal of document 01's order for the writer: 1, then 3 for the hidden set only, then 6.
    pub fn due(&self) -> Result<Vec<u8>, Refusal> {
        let text = self.sheet().map(|sheet| sheet.to_string().into_bytes());
        let needed = text.as_ref().map_or(SHORTEST, Vec::len);
        let reasons = [(text.is_none(), SIZE), (self.past_n(), PAST_LIMIT), (self.out < needed, too_short(needed))];
        let place = match text {
            Some(_) => "write",
            None if self.n_refused() => "write n",
            None => "write table",
        };
        let met = reasons.iter().filter(|(met, _)| *met).map(|&(_, reply)| reply);
        match (Refusal::first(place, met), text) {
            (None, Some(text)) => Ok(text),
            (refusal, _) => Err(refusal.expect("without a text there is a refusal")),
        }
    }

    /// What is to be written, its hidden quantities past n left out; none where 1 is due.
    pub fn sheet(&self) -> Option<Sheet> {
        let refused = self.n_refused() || self.table.len() < size(self.n);
        (!refused).then(|| Sheet { n: self.n, hidden: self.hidden, table: self.table[..size(self.n)].to_vec() })
    }

    fn n_refused(&self) -> bool {
        !(1..=MOST_QUANTITIES).contains(&self.n)
    }

    fn past_n(&self) -> bool {
        (1..=MOST_QUANTITIES).any(|q| q > self.n && is_in(self.hidden, q))
    }
}

impl fmt::Display for Given {
    fn fmt(&self, f: &mut fmt::Formatter) -> fmt::Result {
        let Given { n, hidden, table, out } = self;
        writeln!(f, "n={n} hidden={hidden:#x} table={table:?}")?;
        writeln!(f, "words of the table {}, bytes of the output {out}", table.len())
    }
}
