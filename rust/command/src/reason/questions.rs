//! Why the questions of an accepted text cannot be put to a sheet.

use super::fault::Fault;
use super::form::{RuleLine, Term};
use super::written::Written;
use crate::usage::counted;
use acornsled::limits::MOST_QUESTIONS;
use acornsled::Paper;

const FURTHER: &str = "what helps: put the further ones into another text, and ask them by themselves";

/// Refusals with 8: there are no questions, or too many. What is told in the headline, and below it.
pub fn miscounted(text: &[u8]) -> (String, Vec<String>) {
    let count = Written::of(text, Paper::Sheet).map_or(0, |written| written.rules.len());
    let mut details = vec![format!("expected: 1 to {MOST_QUESTIONS} rule lines, each of them a question")];
    if count > MOST_QUESTIONS {
        details.push(FURTHER.to_string());
    }
    let has = if count == 0 { "no questions".to_string() } else { counted(count, "question", "questions") };
    (format!(": the text has {has}"), details)
}

/// Refusals with 3: a question names a quantity that the sheet, which has n, does not have.
pub fn unknown(text: &[u8], n: usize) -> (String, Vec<String>) {
    let Ok(written) = Written::of(text, Paper::Sheet) else {
        return (String::new(), Vec::new());
    };
    let faults = written.rules.iter().enumerate().filter_map(|(at, (line, rule))| Some((at, line, fault(rule, n)?)));
    let faults: Vec<(usize, &usize, Fault)> = faults.collect();
    let Some((at, line, fault)) = faults.first() else {
        return (String::new(), Vec::new());
    };
    let mut details = vec![format!("line {line} of the questions:")];
    details.extend(fault.shown(written.lines.bytes(**line)));
    details.push(match n {
        1 => "expected: quantity 1, the only one of the sheet".to_string(),
        _ => format!("expected: quantities of the sheet, 1 to {n}"),
    });
    if faults.len() > 1 {
        details.push(format!("so it is with {} more", counted(faults.len() - 1, "question", "questions")));
    }
    (format!(": question {} names a quantity that the sheet does not have", at + 1), details)
}

/// The first quantity of the rule that is past n, as a fault of its line.
fn fault(rule: &RuleLine, n: usize) -> Option<Fault> {
    let mut terms = std::iter::once(&rule.first).chain(&rule.second);
    let Term { quantity, .. } = terms.find(|term| !term.quantity.within(1, n))?;
    let has = counted(n, "quantity", "quantities");
    let what = format!("quantity {}, and the sheet has {has}", quantity.shown());
    Some(Fault::new(quantity.at, quantity.digits.len(), what))
}
