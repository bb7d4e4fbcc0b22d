//! What is due of a reading, decided line by line on the text split at its bytes 10. A sheet and a script differ in the
//! largest bound alone.

use super::line::{parted, Hidden, Limits, Line, Quantities, Rules};
use super::paper::Paper;
use super::refusal::Refusal;
use super::rule_line::RuleLine;
use crate::library::{cancelling, malformed, past_limit, too_short, SIZE};
use crate::meaning::{script_limit, size, LIMIT, MOST_BYTES};

/// What a sheet's text says, or the first refusal of document 01's order, where so many words are lent for the table.
pub fn due(text: &[u8], table: usize) -> Result<Paper, Refusal> {
    let paper = read(text, |_| LIMIT)?;
    if table < size(paper.n) {
        return Err(Refusal::new("6", too_short(size(paper.n))));
    }
    Ok(paper)
}

/// What a script's text says, or its first refusal: its own hidden list decides how large a bound may be.
pub fn script(text: &[u8]) -> Result<Paper, Refusal> {
    read(text, script_limit)
}

/// What a text says whose bounds are at most what is asked of its hidden set.
pub fn read(text: &[u8], most: impl Fn(u32) -> i64) -> Result<Paper, Refusal> {
    if text.len() > MOST_BYTES {
        return Err(Refusal::new("1", SIZE));
    }
    let lines = Lines::of(text);
    // line 1 has no limit that depends on n, and no line before the rules one on bounds
    let n = lines.judged::<Quantities>(1, Limits { n: 0, bound: 0 })?.number();
    let hidden = lines.judged::<Hidden>(2, Limits { n, bound: 0 })?.set();
    let limits = Limits { n, bound: most(hidden) };
    let count = lines.judged::<Rules>(3, limits)?.number();
    let rule = |line| lines.judged::<RuleLine>(line, limits).map(|line| line.rule());
    let rules = (4..4 + count).map(rule).collect::<Result<_, _>>()?;
    lines.nothing_from(4 + count)?;
    Ok(Paper { n, hidden, rules })
}

struct Lines<'a> {
    ended: Vec<&'a [u8]>,
    /// behind the last byte 10
    rest: &'a [u8],
}

impl Lines<'_> {
    fn of(text: &[u8]) -> Lines<'_> {
        let mut ended: Vec<&[u8]> = text.split(|&byte| byte == b'\n').collect();
        let rest = ended.pop().unwrap_or(&[]);
        Lines { ended, rest }
    }

    /// The line with this number, or the first of its faults, 2 before 3 before 4. All are looked for, so that it can
    /// be counted how often one hides another.
    fn judged<L: Line>(&self, number: usize, limits: Limits) -> Result<L, Refusal> {
        let Some(bytes) = self.ended.get(number - 1) else {
            let kind = if self.ended.len() == number - 1 && !self.rest.is_empty() { "2 unended" } else { "2 missing" };
            return Err(Refusal::new(kind, malformed(number)));
        };
        let (_, value) = parted(bytes, b'=');
        let line = L::read_off(value);
        let faults = [
            (line.to_string().as_bytes() != *bytes, malformed(number)),
            (line.past_limit(limits), past_limit(number)),
            (line.cancels(), cancelling(number)),
        ];
        let met = faults.iter().filter(|(met, _)| *met).map(|&(_, reply)| reply);
        Refusal::first(L::NAME, met).map_or(Ok(line), Err)
    }

    /// Nothing may stand where a line with this number would.
    fn nothing_from(&self, number: usize) -> Result<(), Refusal> {
        if self.ended.len() >= number || !self.rest.is_empty() {
            return Err(Refusal::new("2 behind", malformed(number)));
        }
        Ok(())
    }
}
