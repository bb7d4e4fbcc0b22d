//! `acornsled explain`: what a text says, in words, for a reader who does not know the format.

mod papers;
mod rule;

use crate::reason::written::{listed, Written};
use crate::reason::{contradiction, integers};
use crate::source::Source;
use crate::status::Status;
use crate::usage::{self, counted};
use crate::{arguments, output, reason};
use acornsled::Paper;
use std::ffi::OsString;

/// Prints what the text says, or why it is refused.
pub fn run(given: &[OsString]) -> Status {
    let files = match arguments::files(given, &usage::EXPLAIN, 0..=1) {
        Ok(files) => files,
        Err(status) => return status,
    };
    let source = files.first().map_or(Source::Input, |name| Source::of(name));
    let text = match source.text() {
        Ok(text) => text,
        Err(fault) => {
            output::tell(&format!("{source} cannot be read: {fault}"));
            return Status::Failed;
        }
    };
    match papers::read(&text) {
        Ok(written) => output::answer(told(&written).as_bytes()),
        Err(refused) => {
            let reason = format!("{}\n", reason::of(&source.to_string(), &text, refused));
            output::answer(reason.as_bytes()).max(Status::Refused)
        }
    }
}

/// What an accepted text says, in lines.
fn told(written: &Written) -> String {
    let mut lines = vec![quantities(written)];
    lines.push(match written.rules.len() {
        0 => "no rules".to_string(),
        count => format!("{}:", counted(count, "rule", "rules")),
    });
    lines.extend(written.rules.iter().map(|(line, rule)| format!("line {line}: {}", rule::in_words(rule))));
    lines.extend(papers::told(written));
    lines.extend(satisfied(written));
    lines.push(String::new());
    lines.join("\n")
}

/// How many quantities there are, and which of them are hidden.
fn quantities(written: &Written) -> String {
    let hidden = written.hidden.quantities();
    let shown = match hidden.len() {
        0 => "none of them hidden".to_string(),
        1 => format!("quantity {} is hidden", listed(&hidden)),
        _ => format!("quantities {} are hidden", listed(&hidden)),
    };
    format!("{}; {shown}", counted(written.quantities, "quantity", "quantities"))
}

/// Integers that satisfy all rules, or that there are none.
fn satisfied(written: &Written) -> Vec<String> {
    let lines: Vec<usize> = written.rules.iter().map(|&(line, _)| line).collect();
    let Some(values) = integers::satisfying(written, &lines) else {
        // of a text that is no sheet there is no key
        let refused = if written.paper == Paper::Sheet { ", so that key refuses the text with 5" } else { "" };
        let mut lines = vec![format!("no integers satisfy all rules{refused}")];
        lines.extend(contradiction::told(written));
        return lines;
    };
    let named = |(place, value)| format!("quantity {} = {value}", place + 1);
    let shown: Vec<String> = values.iter().enumerate().map(named).collect();
    vec![format!("integers that satisfy all rules, as an example: {}", shown.join(", "))]
}
