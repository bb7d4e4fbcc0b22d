//! What is due of a call, decided without the library: the refusal, or the answers and the words of the tightest table.

use super::given::{place, rule, Given};
use crate::brute;
use crate::graph::Closure;
use crate::library::{Reply, DONE, NO_ASSIGNMENT};
use crate::meaning::{rules, Rule};

/// Up to so many quantities the opposite of every question is put in; of more, that of one question of each list.
const FEW: usize = 5;

/// What is due of a call.
pub enum Owed {
    /// 5 among them
    Refused(Reply),
    Answers(Answers),
}

pub struct Answers {
    /// of each question of the list, whether all integers that satisfy the sheet meet it
    pub yes: Vec<bool>,
    /// the tightest table with nothing hidden
    pub tight: Vec<i64>,
    /// Are the answers decided by enumeration too?
    pub enumerated: bool,
}

impl Answers {
    /// As the call writes them, the first in bit 0.
    pub fn bits(&self) -> u64 {
        self.yes.iter().rev().fold(0, |bits, &yes| 2 * bits + u64::from(yes))
    }
}

impl Owed {
    /// That two ways of deciding differ is a failure of the judge.
    pub fn of(given: &Given) -> Result<Owed, String> {
        let first = given.reasons().first().map(|reason| reason.reply);
        if let Some(reply) = first.filter(|&reply| reply != NO_ASSIGNMENT) {
            return Ok(Owed::Refused(reply));
        }
        let known = Known::of(given.n, &given.table)?;
        if known.closure.is_some() == first.is_some() {
            return Err("the judges differ: whether the sheet has an assignment".into());
        }
        let Some(closure) = &known.closure else {
            return Ok(Owed::Refused(NO_ASSIGNMENT));
        };
        let asked = given.asked();
        // one that is the first, the last or between them, and the same in every run
        let chosen = given.table.len() * given.workspace % asked.len();
        let each = asked.iter().enumerate();
        let yes =
            each.map(|(at, &words)| known.meets(closure, &rule(words), at == chosen)).collect::<Result<_, _>>()?;
        Ok(Owed::Answers(Answers { yes, tight: closure.tightest(0), enumerated: known.tried.is_some() }))
    }

    pub fn reply(&self) -> Reply {
        match self {
            Owed::Refused(reply) => *reply,
            Owed::Answers(_) => DONE,
        }
    }
}

/// What is known of a sheet.
struct Known {
    n: usize,
    held: Vec<Rule>,
    /// none where no integers satisfy it
    closure: Option<Closure>,
    /// of a small sheet the least bounds of all terms by trying all integers, in place order
    tried: Option<Vec<Option<i64>>>,
}

impl Known {
    fn of(n: usize, table: &[i64]) -> Result<Known, String> {
        let held = rules(n, table);
        let closure = Closure::of(n, &held);
        let small = brute::fits(n, &held);
        let tried = if small { brute::least::bounds(n, &held) } else { None };
        if small && tried.is_some() != closure.is_some() {
            return Err("the judges differ: enumeration and shortest paths on an assignment".into());
        }
        Ok(Known { n, held, closure, tried })
    }

    /// Do all integers that satisfy the sheet meet the rule? Those that break it are looked for too, everywhere or where it is
    /// quick.
    fn meets(&self, closure: &Closure, rule: &Rule, chosen: bool) -> Result<bool, String> {
        let met = closure.least(&rule.term).is_some_and(|least| least <= i128::from(rule.bound));
        let differ = |ways: &str| Err(format!("the judges differ: {ways} on the question {rule}"));
        let (place, times) = place(&rule.term);
        let within = |tried: &Vec<Option<i64>>| tried[place].is_some_and(|most| times * most <= rule.bound);
        if self.tried.as_ref().is_some_and(|tried| within(tried) != met) {
            return differ("enumeration and least bounds");
        }
        if self.n > FEW && !chosen {
            return Ok(met);
        }
        let broken = [&self.held[..], &[rule.opposite()]].concat();
        if Closure::of(self.n, &broken).is_some() == met {
            return differ("least bounds and shortest paths with its opposite");
        }
        if chosen && brute::fits(self.n, &broken) && brute::has_assignment(self.n, &broken) == met {
            return differ("least bounds and enumeration with its opposite");
        }
        Ok(met)
    }
}
