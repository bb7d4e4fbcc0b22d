//! A call of marking with its reasons: the number, what is told beside it, the integers, and every lent word.

use super::call::{MarkCall, ReasonsCall};
use super::due::{Beside, Due};
use super::shown::Shown;
use crate::lent::further;
use crate::library::{Marker, BOTH, NOTHING, NO_PAPER, SCRIPT, SHEET, SHORT};
use crate::meaning::{Rule, MOST_QUANTITIES};
use crate::random::Random;
use std::fmt::Debug;

/// The number and what is told beside it; none for what stays as it was.
#[derive(Clone, Copy, PartialEq, Eq, Debug)]
pub struct Answer {
    pub number: u32,
    pub paper: u32,
    pub value: usize,
    pub quantities: Option<usize>,
    pub rule: Option<[i64; 3]>,
}

/// What is due of a call with so many words for the integers.
pub struct Owed<'a> {
    due: &'a Due,
    length: usize,
    /// too few for the sheet's n, both texts being read
    short: bool,
}

impl Owed<'_> {
    pub fn of(due: &Due, length: usize) -> Owed<'_> {
        Owed { due, length, short: due.quantities.is_some_and(|n| length < n) }
    }

    /// Judges two calls on different memory, which have to come to the same. Gives the kinds of the answer, of which a run
    /// has to meet all.
    pub fn judged(&self, library: &dyn Marker, texts: &MarkCall, random: &mut Random) -> Result<Vec<String>, String> {
        let values = self.call(library, texts, random)?;
        self.shown().map_or(Ok(()), |shown| shown.integers(&values))?;
        if self.call(library, texts, random)? != values {
            return Err("called again it writes other integers".into());
        }
        self.kinds(&values)
    }

    /// What is to be answered.
    pub fn answer(&self) -> Answer {
        let told = |number, paper, value| Answer { number, paper, value, quantities: None, rule: None };
        let (number, n) = (self.due.number, self.due.quantities);
        match &self.due.beside {
            _ if self.short => told(SHORT, BOTH, n.unwrap_or(0)),
            Beside::Refused { paper, line } => told(number, *paper, *line),
            Beside::Equal => Answer { quantities: n, ..told(number, NO_PAPER, 0) },
            Beside::Shown(shown) => {
                Answer { quantities: n, rule: Some(words(shown.rule())), ..told(number, NO_PAPER, 0) }
            }
        }
    }

    /// A loose or tight verdict.
    fn shown(&self) -> Option<&Shown> {
        match &self.due.beside {
            Beside::Shown(shown) if !self.short => Some(shown),
            _ => None,
        }
    }

    /// Judges a call but for the integers that it has written, which it gives.
    fn call(&self, library: &dyn Marker, texts: &MarkCall, random: &mut Random) -> Result<Vec<i64>, String> {
        let mut call = ReasonsCall::new(self.length, random);
        let number = call.run(library, texts);
        let due = self.answer();
        same(number, &call, due)?;
        texts.memory()?;
        let free = due.rule.and(due.quantities).unwrap_or(0);
        call.memory(free)?;
        Ok(call.values.left()[..free].to_vec())
    }

    fn kinds(&self, values: &[i64]) -> Result<Vec<String>, String> {
        Ok(match &self.due.beside {
            Beside::Refused { .. } if self.short => vec!["6 before 7".into()],
            _ if self.short => vec![format!("6 before a verdict, {}", self.due.number)],
            // no words are too few for every sheet
            Beside::Refused { paper: SHEET, .. } if self.length == 0 => vec!["sheet refused, no words lent".into()],
            Beside::Refused { paper: SCRIPT, .. } if self.length == 0 => vec!["script refused, no words lent".into()],
            Beside::Refused { .. } => vec![],
            Beside::Equal => vec!["equal, with reasons".into()],
            Beside::Shown(shown) => {
                let mut kinds = shown.kinds(values)?;
                if self.length > values.len() {
                    kinds.push(format!("{}, words past n", shown.name));
                }
                kinds
            }
        })
    }
}

/// How many words are lent for the integers: as many as the sheet has quantities or a few more, now and then too few, as many
/// as the largest sheet has, or any number where a text is refused.
pub fn length(due: &Due, random: &mut Random) -> usize {
    let any = 1 + random.below(MOST_QUANTITIES);
    let n = due.quantities.unwrap_or(any);
    match random.below(8) {
        0 | 1 => random.edge(n),
        2 => MOST_QUANTITIES,
        _ => n + further(random),
    }
}

/// A rule as a call writes it: two signed quantity numbers, 0 for none, and the bound.
pub(crate) fn words(rule: Option<Rule>) -> [i64; 3] {
    let Some(Rule { term, bound }) = rule else {
        return NOTHING;
    };
    let [first, second] = [Some(term.first), term.second].map(|x| x.map_or(0, |x| x.sign * x.quantity as i64));
    [first, second, bound]
}

/// The number and all that a call has told, against what is due.
fn same(number: u32, call: &ReasonsCall, due: Answer) -> Result<(), String> {
    if number != due.number {
        return Err(format!("number {number}, due {}", due.number));
    }
    let (told, before) = (&call.told.within, &call.before);
    written("the paper", told.paper, before.paper, Some(due.paper))?;
    written("the value", told.value, before.value, Some(due.value))?;
    written("n", told.quantities, before.quantities, due.quantities)?;
    written("the rule", told.rule, before.rule, due.rule)
}

/// Is this written where it is due, and unchanged where nothing is?
pub(crate) fn written<T: PartialEq + Debug>(name: &str, found: T, before: T, due: Option<T>) -> Result<(), String> {
    match due {
        Some(due) if found == due => Ok(()),
        Some(due) if found == before => Err(format!("{name} is not written, due {due:?}")),
        Some(due) => Err(format!("{name} is {found:?}, due {due:?}")),
        None if found == before => Ok(()),
        None => Err(format!("{name} is changed, where nothing is due")),
    }
}
