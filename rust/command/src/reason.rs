//! Why a text is refused, in words. The number and the line are the library's; what is wrong with the line is looked up here,
//! by a reading of its own that knows the usual causes.

pub mod announced;
pub mod bank;
pub mod behind;
pub mod cause;
pub mod contradiction;
pub mod cursor;
pub mod divided;
pub mod encoding;
pub mod fault;
pub mod form;
pub mod fractions;
pub mod hidden;
pub mod integers;
pub mod key;
pub mod kind;
pub mod limit;
pub mod lines;
pub mod malformed;
pub mod misfit;
pub mod place;
pub mod pointer;
pub mod questions;
pub mod relation;
pub mod written;

use acornsled::limits::MOST_BYTES;
use acornsled::{Paper, Refusal, Refused};
use lines::Lines;
use std::fmt;
use written::Written;

/// A headline, which says what is refused, with which number and where, and what is told of it, in lines.
#[derive(Clone, PartialEq, Eq, Debug)]
pub struct Reason {
    pub headline: String,
    pub details: Vec<String>,
}

impl fmt::Display for Reason {
    fn fmt(&self, f: &mut fmt::Formatter) -> fmt::Result {
        f.write_str(&self.headline)?;
        self.details.iter().try_for_each(|detail| write!(f, "\n    {detail}"))
    }
}

/// Why the text of this name is refused so, as a sheet or as a script.
pub fn of(name: &str, text: &[u8], refused: Refused) -> Reason {
    let Refused { paper, refusal } = refused;
    let lines = Lines::of(text);
    let (place, details) = match refusal {
        Refusal::Size => (": the text is too long".to_string(), size(text, paper)),
        Refusal::Malformed { line } => at_line(line, malformed::told(&lines, line)),
        Refusal::OutOfLimit { line } => at_line(line, limit::outside(&lines, line, paper)),
        Refusal::Cancelling { line } => at_line(line, limit::cancelling(&lines, line)),
        Refusal::NoAssignment => (": no integers satisfy its rules".to_string(), unsatisfied(text)),
        Refusal::NotCanonical { line } => at_line(line, bank::told(&lines, line)),
        // 6, 7 and 8 are about no text by itself
        _ => (String::new(), Vec::new()),
    };
    Reason { headline: format!("{name}: refused with {}{place}", refusal.number()), details }
}

/// Why a sheet and a script, by name and text, are refused together.
pub fn of_pair(names: [&str; 2], texts: [&[u8]; 2], refusal: Refusal) -> Reason {
    let ([sheet, script], number) = (names, refusal.number());
    Reason {
        headline: format!("{script} does not fit {sheet}: refused with {number}"),
        details: misfit::told(texts[0], texts[1]),
    }
}

/// Why the questions of an accepted text, by its name, cannot be put to a sheet of n quantities.
pub fn of_questions(name: &str, text: &[u8], n: usize, refusal: Refusal) -> Reason {
    let (what, details) = match refusal {
        Refusal::ListSize => questions::miscounted(text),
        Refusal::OutOfLimit { .. } => questions::unknown(text, n),
        // not met, for the text was accepted and enough is lent
        _ => (String::new(), Vec::new()),
    };
    Reason { headline: format!("{name}: refused with {}{what}", refusal.number()), details }
}

/// What is told of one line, and the place of the first byte that is wrong, if there is one.
pub struct Told {
    pub at: Option<usize>,
    pub details: Vec<String>,
}

/// The line, and the byte, counted from 1.
fn at_line(line: usize, told: Told) -> (String, Vec<String>) {
    let byte = told.at.map_or(String::new(), |at| format!(", byte {}", at + 1));
    (format!(" at line {line}{byte}"), told.details)
}

/// What is told of a text that is too long. A script may be so within all other limits, for its bounds may be longer.
fn size(text: &[u8], paper: Paper) -> Vec<String> {
    let enough = match paper {
        Paper::Script => "; of rules with the same terms the one with the smallest bound is enough",
        Paper::Sheet | Paper::Both => ", which take no more than 49,271 bytes",
    };
    let mut details = vec![
        format!("a text has at most {} bytes, and this one has more", grouped(MOST_BYTES)),
        format!("expected: three lines and at most 2,048 rule lines{enough}"),
    ];
    if let Some(fault) = encoding::fault(text) {
        details.push(format!("it begins with {}", fault.what));
        details.extend(fault.helped());
    }
    details
}

/// What is told of a sheet that no integers satisfy.
fn unsatisfied(text: &[u8]) -> Vec<String> {
    let mut details = Written::of(text, Paper::Sheet).map_or(Vec::new(), |written| contradiction::told(&written));
    details.push("expected: rules that some integers satisfy together".to_string());
    details
}

/// A number with a comma between groups of three digits.
pub fn grouped(number: usize) -> String {
    let digits = number.to_string();
    let mut grouped = String::new();
    for (place, digit) in digits.chars().enumerate() {
        if place > 0 && (digits.len() - place).is_multiple_of(3) {
            grouped.push(',');
        }
        grouped.push(digit);
    }
    grouped
}
