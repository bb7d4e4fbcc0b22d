//! A verdict or a refusal of marking, against the number and what is told beside it.

use super::table::same_refusal;
use crate::library::{Marker, Reply, Told, BOTH, EQUAL, LOOSE, NOTHING, SCRIPT, SHEET, TIGHT};
use crate::linked::Linked;
use crate::meaning::MOST_QUANTITIES;
use acornsled::{Paper, Refused, Rule, Verdict};

/// The number of marking, what is told beside it, and the integers.
pub struct Numbers {
    pub number: u32,
    pub told: Told,
    pub values: Vec<i64>,
}

/// Holds what the crate answers for two texts against the numbers.
pub fn texts(sheet: &[u8], script: &[u8]) -> Result<u32, String> {
    let mut values = vec![0; MOST_QUANTITIES];
    let mut told = Told { paper: 0, value: 0, quantities: 0, rule: [0; 3] };
    let number = Linked.mark_texts(sheet, script, &mut values, &mut told);
    values.truncate(told.quantities);
    same(&acornsled::mark(sheet, script), &Numbers { number, told, values })?;
    Ok(number)
}

/// Does this answer say what the numbers say?
pub fn same(answer: &Result<Verdict, Refused>, numbers: &Numbers) -> Result<(), String> {
    let Numbers { number, told, values } = numbers;
    match (answer, *number) {
        (Ok(verdict), EQUAL..=TIGHT) => same_verdict(verdict, numbers),
        (Err(Refused { paper, refusal }), ..EQUAL) => {
            same_paper(*paper, told.paper)?;
            same_refusal(*refusal, Reply { number: *number, value: told.value })
        }
        _ => Err(format!("{answer:?} for number {number} with {values:?}")),
    }
}

/// Does a verdict say what its number, its rule's words and the integers say?
pub(super) fn same_verdict(verdict: &Verdict, Numbers { number, told, values }: &Numbers) -> Result<(), String> {
    let (rule, shown): (Option<Rule>, &[i64]) = match verdict {
        Verdict::Equal => return same_name(verdict, *number, EQUAL, "equal"),
        Verdict::Loose { rule, values } => {
            same_name(verdict, *number, LOOSE, "loose")?;
            (*rule, values)
        }
        Verdict::Tight { rule, values } => {
            same_name(verdict, *number, TIGHT, "tight")?;
            (Some(*rule), values)
        }
    };
    if words(rule) != told.rule {
        return Err(format!("rule {rule:?}, due {:?}", told.rule));
    }
    if spelled(rule) != rule.map_or(String::new(), |rule| rule.to_string()) {
        return Err(format!("rule {rule:?} is spelled '{}'", rule.map_or(String::new(), |rule| rule.to_string())));
    }
    if shown != values {
        return Err(format!("integers {shown:?}, due {values:?}"));
    }
    Ok(())
}

fn same_name(verdict: &Verdict, number: u32, due: u32, name: &str) -> Result<(), String> {
    if number != due || verdict.number() != due || verdict.name() != name {
        return Err(format!("{name} is called {} with number {}, due {number}", verdict.name(), verdict.number()));
    }
    Ok(())
}

fn same_paper(paper: Paper, number: u32) -> Result<(), String> {
    let (due, name) = match paper {
        Paper::Sheet => (SHEET, "sheet"),
        Paper::Script => (SCRIPT, "script"),
        Paper::Both => (BOTH, "both"),
    };
    if number != due || paper.name() != name || paper.to_string() != name {
        return Err(format!("{paper:?}, called {paper}, for paper {number}"));
    }
    Ok(())
}

/// The three words of a rule, those of none where there is no rule.
fn words(rule: Option<Rule>) -> [i64; 3] {
    match rule {
        None => NOTHING,
        Some(Rule::One { term, bound }) => [term, 0, bound],
        Some(Rule::Two { first, second, bound }) => [first, second, bound],
    }
}

/// A rule as a text writes it, nothing where there is none.
fn spelled(rule: Option<Rule>) -> String {
    let signed = |q: i64| format!("{}{}", if q < 0 { '-' } else { '+' }, q.unsigned_abs());
    match words(rule) {
        [0, 0, _] => String::new(),
        [term, 0, bound] => format!("{}:{bound}", signed(term)),
        [first, second, bound] => format!("{}{}:{bound}", signed(first), signed(second)),
    }
}
