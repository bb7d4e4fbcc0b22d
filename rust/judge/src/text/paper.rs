//! What an acceptable text says.

use super::written::{self, Written};
use crate::meaning::{is_in, rules, Rule};
use crate::sheets::Sheet;

#[derive(Clone, PartialEq, Debug)]
pub struct Paper {
    pub n: usize,
    pub hidden: u32,
    /// in the order of the lines
    pub rules: Vec<Written>,
}

impl Paper {
    /// A paper with the rules of a table, in place order.
    pub fn of(sheet: &Sheet) -> Paper {
        let written = |rule: Rule| Written { first: rule.term.first, second: rule.term.second, bound: rule.bound };
        let rules = rules(sheet.n, &sheet.table).into_iter().map(written).collect();
        Paper { n: sheet.n, hidden: sheet.hidden, rules }
    }

    /// The lines of its text, without their ends.
    pub fn lines(&self) -> Vec<Vec<u8>> {
        let hidden: Vec<String> = (1..=self.n).filter(|&q| is_in(self.hidden, q)).map(|q| q.to_string()).collect();
        let mut lines = vec![format!("quantities={}", self.n), format!("hidden={}", hidden.join(","))];
        lines.push(format!("rules={}", self.rules.len()));
        lines.extend(self.rules.iter().map(|rule| format!("rule={rule}")));
        lines.into_iter().map(String::into_bytes).collect()
    }

    pub fn text(&self) -> Vec<u8> {
        joined(&self.lines())
    }

    /// The sheet with the table that the rules are read into.
    pub fn sheet(&self) -> Sheet {
        Sheet { n: self.n, hidden: self.hidden, table: written::table(self.n, &self.rules) }
    }
}

/// A text of these lines, each ended.
pub fn joined(lines: &[Vec<u8>]) -> Vec<u8> {
    lines.iter().flat_map(|line| line.iter().copied().chain([b'\n'])).collect()
}
