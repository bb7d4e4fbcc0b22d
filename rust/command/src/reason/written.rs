//! An accepted text as it is written.

use super::form::{self, RuleLine};
use super::hidden::Hidden;
use super::lines::Lines;
use acornsled::{Paper, Refusal, Refused, Table};

pub struct Written<'a> {
    /// a sheet or a script, by whose limits it is accepted
    pub paper: Paper,
    pub quantities: usize,
    pub hidden: Hidden,
    /// the rules with the numbers of their lines
    pub rules: Vec<(usize, RuleLine<'a>)>,
    pub lines: Lines<'a>,
}

impl<'a> Written<'a> {
    /// The text as a sheet or as a script, or its refusal, which is the library's.
    pub fn of(text: &'a [u8], paper: Paper) -> Result<Written<'a>, Refusal> {
        read(text, paper)?;
        let lines = Lines::of(text);
        let quantities = lines.quantities().unwrap_or_default();
        let rules = (4..=lines.count()).filter_map(|line| Some((line, form::rule(lines.bytes(line)).ok()?))).collect();
        Ok(Written { paper, quantities, hidden: lines.hidden(), rules, lines })
    }
}

/// Whether the library accepts the text. Scripts it reads where it marks them: beside a sheet that is accepted, what it says of
/// the script alone is the script's refusal, and whether the two fit does not matter.
fn read(text: &[u8], paper: Paper) -> Result<(), Refusal> {
    if paper != Paper::Script {
        return Table::read(text).map(|_| ());
    }
    match acornsled::mark(b"quantities=1\nhidden=\nrules=0\n", text) {
        Err(Refused { paper: Paper::Script, refusal }) => Err(refusal),
        _ => Ok(()),
    }
}

/// Numbers as words: `none`, `4`, `4 and 5`, `4, 5 and 6`.
pub fn listed(numbers: &[usize]) -> String {
    let words: Vec<String> = numbers.iter().map(usize::to_string).collect();
    match words.split_last() {
        None => "none".to_string(),
        Some((last, [])) => last.clone(),
        Some((last, before)) => format!("{} and {last}", before.join(", ")),
    }
}
