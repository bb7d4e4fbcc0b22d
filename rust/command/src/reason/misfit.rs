//! Refusals with 7: in what a script differs from its sheet.

use super::fault::Fault;
use super::form::RuleLine;
use super::written::{listed, Written};
use crate::usage::counted;
use acornsled::Paper;

/// The first of the three things that may be wrong: n, the hidden list, a rule that names a hidden quantity.
pub fn told(sheet: &[u8], script: &[u8]) -> Vec<String> {
    // both were accepted, and where one were not there is no more to tell than the headline
    let (Ok(sheet), Ok(script)) = (Written::of(sheet, Paper::Sheet), Written::of(script, Paper::Script)) else {
        return Vec::new();
    };
    let [ours, theirs] = [&sheet, &script].map(|paper| paper.quantities);
    if ours != theirs {
        return header(
            &format!("the sheet has {}, the script {theirs}", counted(ours, "quantity", "quantities")),
            &sheet,
        );
    }
    if sheet.hidden != script.hidden {
        let [ours, theirs] = [&sheet, &script].map(|paper| listed(&paper.hidden.quantities()));
        return header(&format!("hidden quantities of the sheet: {ours}; of the script: {theirs}"), &sheet);
    }
    let named = script.rules.iter().find_map(|(line, rule)| Some(naming(&script, *line, hidden(&script, rule)?)));
    let mut details = named.unwrap_or_default();
    details.extend(exchanged(&sheet, &script));
    details
}

/// That the two may stand in the wrong order, where the other one has a verdict.
fn exchanged(sheet: &Written, script: &Written) -> Option<String> {
    acornsled::mark(script.lines.text, sheet.lines.text).ok()?;
    Some("what helps: the two may be exchanged, for in the other order they fit; the sheet is named first".to_string())
}

/// A difference of the first two lines.
fn header(what: &str, sheet: &Written) -> Vec<String> {
    let [first, second] = [1, 2].map(|line| String::from_utf8_lossy(sheet.lines.bytes(line)).into_owned());
    vec![what.to_string(), format!("expected: the sheet's first two lines, {first} and {second}")]
}

/// The first quantity of the rule that is hidden, as a fault of its line.
fn hidden(script: &Written, rule: &RuleLine) -> Option<Fault> {
    let mut terms = std::iter::once(&rule.first).chain(&rule.second);
    let named = terms.find(|term| term.quantity.value().is_some_and(|quantity| script.hidden.has(quantity)))?;
    let what = format!("quantity {} is hidden", named.quantity.shown());
    Some(Fault::new(named.quantity.at, named.quantity.digits.len(), what))
}

/// The line of the script that names a hidden quantity.
fn naming(script: &Written, line: usize, fault: Fault) -> Vec<String> {
    let visible: Vec<usize> = (1..=script.quantities).filter(|&quantity| !script.hidden.has(quantity)).collect();
    let mut details = vec![format!("line {line} of the script names a hidden quantity:")];
    details.extend(fault.shown(script.lines.bytes(line)));
    details.push(format!("expected: rules of visible quantities alone, here {}", listed(&visible)));
    details
}
