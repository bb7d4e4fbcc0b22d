//! The rule that a verdict names: the first of a list that some integers break which satisfy other rules.

use crate::brute;
use crate::graph::Closure;
use crate::meaning::Rule;

/// Up to so many quantities shortest paths are looked for anew with the opposite of each rule.
const FEW: usize = 6;

/// The integers that satisfy some rules.
pub struct Allowed {
    n: usize,
    rules: Vec<Rule>,
    /// none where there are no such integers
    least: Option<Closure>,
}

impl Allowed {
    pub fn by(n: usize, rules: &[Rule]) -> Allowed {
        Allowed { n, rules: rules.to_vec(), least: Closure::of(n, rules) }
    }

    /// Where in the list the first rule stands that some of these integers break, none where there is no such rule.
    pub fn first_broken(&self, listed: &[Rule]) -> Result<Option<usize>, String> {
        for (at, rule) in listed.iter().enumerate() {
            if self.break_it(rule)? {
                return Ok(Some(at));
            }
        }
        Ok(None)
    }

    /// Do some of these integers break the rule? It is decided in every way that is quick enough. That two ways differ is
    /// a failure of the judge.
    fn break_it(&self, rule: &Rule) -> Result<bool, String> {
        let above = |least: &Closure| least.least(&rule.term).is_none_or(|least| least > rule.bound as i128);
        let broken = self.least.as_ref().is_some_and(above);
        if self.n <= FEW && Closure::of(self.n, &self.with_opposite(rule)).is_some() != broken {
            return Err(format!("the judges differ: least bounds and shortest paths on a break of {rule}"));
        }
        if self.tried(rule) && brute::has_assignment(self.n, &self.with_opposite(rule)) != broken {
            return Err(format!("the judges differ: enumeration and least bounds on a break of {rule}"));
        }
        Ok(broken)
    }

    /// Is enumeration quick enough for this rule?
    pub fn tried(&self, rule: &Rule) -> bool {
        brute::fits(self.n, &self.with_opposite(rule))
    }

    /// The rules of the integers that break this one.
    fn with_opposite(&self, rule: &Rule) -> Vec<Rule> {
        [&self.rules[..], &[rule.opposite()]].concat()
    }
}
