//! The verdict on two texts in ordinary Rust: what the library's times are measured against. Both texts are read as in
//! `plain_text` and both tables tightened once as in `plain`; a verdict is then a comparison of the words that name no
//! hidden quantity. No key is made.

use crate::library::{Header, Marker, Reply, Told, EQUAL, LOOSE, MISMATCH, TIGHT};
use crate::meaning::NO_RULE;
use crate::plain::tight::tighten;
use crate::plain_reasons;
use crate::plain_text::parser::{Parsed, Parser};

/// What a text says, its rules in a table that is just large enough.
pub(crate) struct Paper {
    pub header: Header,
    pub table: Vec<i64>,
}

/// The number of the verdict, or of the first refusal.
pub fn mark(sheet: &[u8], script: &[u8]) -> u32 {
    verdict(sheet, script).unwrap_or_else(|refusal| refusal.number)
}

/// The number where both texts are read.
fn verdict(sheet: &[u8], script: &[u8]) -> Result<u32, Reply> {
    let mut sheet = Paper::sheet(sheet)?;
    let mut script = Paper::script(script)?;
    if !script.fits(&sheet) {
        return Ok(MISMATCH);
    }
    let n = sheet.header.quantities;
    Ok(match (tighten(n, &mut sheet.table, 0), tighten(n, &mut script.table, 0)) {
        (false, false) => EQUAL,
        (false, true) => LOOSE,
        (true, false) => TIGHT,
        (true, true) if script.exceeds(&sheet) => LOOSE,
        (true, true) if sheet.exceeds(&script) => TIGHT,
        (true, true) => EQUAL,
    })
}

impl Paper {
    /// A sheet's text read into a table of its own, or its refusal.
    pub fn sheet(text: &[u8]) -> Result<Paper, Reply> {
        Parser::sheet(text).map(Paper::of)
    }

    /// A script's, which may have larger bounds.
    pub fn script(text: &[u8]) -> Result<Paper, Reply> {
        Parser::script(text).map(Paper::of)
    }

    fn of(said: Parsed) -> Paper {
        let mut table = vec![NO_RULE; 2 * said.n * said.n];
        said.put(&mut table);
        Paper { header: Header { quantities: said.n, hidden: said.hidden }, table }
    }

    /// Has the script the sheet's header, and no rule that names a hidden quantity?
    pub fn fits(&self, sheet: &Paper) -> bool {
        sheet.header == self.header && !self.names_hidden()
    }

    /// The tightest table, none where no integers satisfy the paper.
    pub fn tightened(&self) -> Option<Vec<i64>> {
        let mut table = self.table.clone();
        tighten(self.header.quantities, &mut table, 0).then_some(table)
    }

    fn names_hidden(&self) -> bool {
        self.places().any(|(place, visible)| !visible && self.table[place] != NO_RULE)
    }

    /// Is some visible term's least bound above the other's? No rule is above every bound.
    fn exceeds(&self, other: &Paper) -> bool {
        self.places().any(|(place, visible)| visible && self.table[place] > other.table[place])
    }

    /// Each place, and whether both quantities of its term are visible.
    fn places(&self) -> impl Iterator<Item = (usize, bool)> + '_ {
        let Header { quantities, hidden } = self.header;
        let shown = move |k: usize| (hidden >> k) & 1 == 0;
        (0..quantities).flat_map(move |r| {
            let block = 2 * r * r;
            (0..4 * r + 2).map(move |at| (block + at, shown(r) && (at < 2 || shown((at - 2) / 4))))
        })
    }
}

/// Both calls as a library's.
pub struct Plain;

impl Marker for Plain {
    fn mark(&self, sheet: &[u8], script: &[u8]) -> u32 {
        mark(sheet, script)
    }

    fn mark_texts(&self, sheet: &[u8], script: &[u8], values: &mut [i64], told: &mut Told) -> u32 {
        plain_reasons::mark_texts(sheet, script, values, told)
    }
}
