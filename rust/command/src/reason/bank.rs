//! Refusals with 9: a rule that is fine by itself, and that a bank sheet does not have so, or not there.

use super::fault::{self, Fault};
use super::form::{self, RuleLine};
use super::lines::Lines;
use super::{place, Told};
use acornsled::{Rule, Table};

/// The lines of a text before its rules.
const HEADER_LINES: usize = 3;
const EXPECTED: &str = "rules in place order, each place once, the lower quantity first, no doubled term";
const PUT: &str = "put into bank form by  acornsled bank FILE > NEW";

/// Where a rule belongs among the rules before its line, whose places increase.
enum Stand {
    /// after all of them
    Last,
    /// before the rule of this line
    Before(usize),
    /// at the place of the rule of this line, which has this bound
    With(usize, i64),
}

/// What is told of such a line.
pub fn told(lines: &Lines, line: usize) -> Told {
    let bytes = lines.bytes(line);
    let fault = form::rule(bytes).ok().map(|rule| fault(lines, line, &rule).with_help(help(lines.text)));
    fault::told(bytes, fault, EXPECTED)
}

fn fault(lines: &Lines, line: usize, written: &RuleLine) -> Fault {
    let rule = place::held(written.rule());
    let what = match (spelled(written.rule()), stand(lines, line, rule)) {
        (Some((why, how)), Stand::Last) => format!("{why}: write rule={rule}{how}"),
        (Some((why, how)), Stand::Before(at)) => format!("{why}: write rule={rule}{how}, before line {at}"),
        (Some((why, how)), Stand::With(at, bound)) => {
            format!("{why}, and rule={rule}{how} has the place of line {at}: {}", left_out(rule, bound))
        }
        (None, Stand::With(at, bound)) => {
            format!("the same place as the rule of line {at}, and each has one rule: {}", left_out(rule, bound))
        }
        (None, Stand::Before(at)) => early(lines, line, rule, at),
        // not met where the reading here agrees with the library's
        (None, Stand::Last) => "not in place order".to_string(),
    };
    let (from, length) = written.terms();
    Fault::new(from, length, what)
}

/// What is wrong with the rule's terms, wherever it stands, and what is done to its bound, if anything is wrong.
fn spelled(rule: Rule) -> Option<(&'static str, &'static str)> {
    match rule {
        Rule::Two { first, second, bound } if first == second => {
            Some(("a doubled term", if bound % 2 == 0 { " (halved)" } else { " (halved and rounded down)" }))
        }
        rule if rule != place::held(rule) => Some(("the higher quantity stands first", "")),
        _ => None,
    }
}

/// Where the rule belongs among those before the line.
fn stand(lines: &Lines, line: usize, rule: Rule) -> Stand {
    let mut before = (HEADER_LINES + 1..line).filter_map(|at| Some((at, form::rule(lines.bytes(at)).ok()?.rule())));
    match before.find(|&(_, other)| place::of(other) >= place::of(rule)) {
        None => Stand::Last,
        Some((at, other)) if place::of(other) == place::of(rule) => Stand::With(at, bound(other)),
        Some((at, _)) => Stand::Before(at),
    }
}

/// A rule whose place is before that of the one before it, and that belongs before a line.
fn early(lines: &Lines, line: usize, rule: Rule, at: usize) -> String {
    let last = form::rule(lines.bytes(line - 1)).map_or(0, |last| place::of(last.rule()));
    let place = place::of(rule);
    format!("place {place}, which is before place {last} of line {}: move the line before line {at}", line - 1)
}

/// What to do with a rule whose place is taken by one with this bound.
fn left_out(rule: Rule, there: i64) -> String {
    match bound(rule) {
        smaller if smaller < there => format!("write the smaller bound {smaller} there, and leave this line out"),
        _ => "leave this line out".to_string(),
    }
}

fn bound(rule: Rule) -> i64 {
    let [.., bound] = rule.words();
    bound
}

/// That the command puts the text into bank form, or at which line it would refuse it.
fn help(text: &[u8]) -> String {
    match Table::read(text) {
        Ok(_) => format!("the sheet is {PUT}"),
        Err(refusal) => {
            let (number, line) = (refusal.number(), refusal.line());
            format!("a sheet whose lines are all fine is {PUT}; line {line} of this one is refused with {number}")
        }
    }
}
