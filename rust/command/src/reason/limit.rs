//! Numbers outside their limits, and quantities that cancel, on lines that are well formed.

use super::cursor::Numeral;
use super::fault::{self, Fault};
use super::form::{self, RuleLine};
use super::grouped;
use super::hidden::Hidden;
use super::kind::Kind;
use super::lines::Lines;
use super::Told;
use crate::usage::counted;
use acornsled::limits::{script_bound, MOST_BOUND, MOST_QUANTITIES, MOST_RULES};
use acornsled::Paper;

const DISTINCT: &str = "two quantities that differ, or one twice with one sign, as rule=+1-2:5 or rule=+1+1:5";
const OWN: &str =
    "where line 2 is not the sheet's, copy it: a script's limits follow from the hidden quantities listed there";

/// What is told of a line with a number outside its limit for this paper.
pub fn outside(lines: &Lines, line: usize, paper: Paper) -> Told {
    let expected = Kind::of(line, lines).expected();
    fault::told(lines.bytes(line), first(lines, line, paper), &expected)
}

/// What is told of a rule `+q-q` or `-q+q`.
pub fn cancelling(lines: &Lines, line: usize) -> Told {
    let bytes = lines.bytes(line);
    fault::told(bytes, form::rule(bytes).ok().and_then(|rule| cancelled(&rule)), DISTINCT)
}

/// The first number of the line that is outside its limit.
fn first(lines: &Lines, line: usize, paper: Paper) -> Option<Fault> {
    let bytes = lines.bytes(line);
    match Kind::of(line, lines) {
        Kind::Quantities => {
            let number = form::count(bytes, "quantities=").ok()?;
            let what = format!("{} quantities: a text has 1 to {MOST_QUANTITIES}", number.shown());
            (!number.within(1, MOST_QUANTITIES)).then(|| fault(&number, what))
        }
        Kind::Hidden => {
            let n = lines.quantities()?;
            let list = form::hidden(bytes).ok()?;
            list.iter().find_map(|number| quantity(number, n, "the hidden quantity"))
        }
        Kind::Rules => {
            let number = form::count(bytes, "rules=").ok()?;
            let what = format!("{} rule lines: a text has at most {}", number.shown(), grouped(MOST_RULES));
            (!number.within(0, MOST_RULES)).then(|| fault(&number, what))
        }
        Kind::Rule | Kind::Behind(_) => {
            let (rule, n) = (form::rule(bytes).ok()?, lines.quantities()?);
            let mut terms = std::iter::once(&rule.first).chain(&rule.second);
            terms
                .find_map(|term| quantity(&term.quantity, n, "quantity"))
                .or_else(|| bound(&rule, paper, lines.hidden()))
        }
    }
}

fn fault(number: &Numeral, what: String) -> Fault {
    Fault::new(number.at, number.digits.len(), what)
}

/// A quantity number that is none of 1 to n.
fn quantity(number: &Numeral, n: usize, called: &str) -> Option<Fault> {
    let shown = number.shown();
    let what = match number.value() {
        Some(0) => format!("{called} {shown}: quantities are numbered from 1, here 1 to {n}, as line 1 says"),
        _ => format!("{called} {shown}: this text has the quantities 1 to {n}, as line 1 says"),
    };
    (!number.within(1, n)).then(|| fault(number, what))
}

/// A bound outside its limits, which for a script follow from the hidden quantities that it lists itself.
fn bound(rule: &RuleLine, paper: Paper, hidden: Hidden) -> Option<Fault> {
    let (limit, whose) = match (paper, hidden.quantities().len()) {
        (Paper::Script, count @ 1..) => {
            let hiding = counted(count, "hidden quantity", "hidden quantities");
            (script_bound(hidden.0), format!(" for a script with {hiding}"))
        }
        _ => (MOST_BOUND, String::new()),
    };
    let limit = limit.unsigned_abs() as usize;
    let sign = if rule.minus { "-" } else { "" };
    let (bound, most) = (rule.bound.shown(), grouped(limit));
    let what = format!("the bound {sign}{bound} is outside its limits, which are -{most} and {most}{whose}");
    let fault = (!rule.bound.within(0, limit)).then(|| fault(&rule.bound, what))?;
    Some(if paper == Paper::Script { fault.with_help(OWN) } else { fault })
}

/// The two quantities of a rule that cancel.
fn cancelled(rule: &RuleLine) -> Option<Fault> {
    rule.second?;
    let ((from, length), q) = (rule.terms(), rule.first.quantity.shown());
    let what = match rule.minus {
        false => format!("quantity {q} is added and taken away, so that the rule is always met: leave it out"),
        true => format!("quantity {q} is added and taken away, so that the rule is never met"),
    };
    Some(Fault::new(from, length, what))
}
