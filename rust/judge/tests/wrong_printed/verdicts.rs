//! Verdicts with a rule and integers, and the mistakes in them.

use super::choice::satisfying;
use super::{Trap, Wrong};
use judge::graph::Closure;
use judge::marking::due;
use judge::meaning::{is_in, rules, Rule, Term, LIMIT};
use judge::naive;
use judge::text::paper::Paper;

impl Wrong {
    pub fn loose(&self, sheet: &Paper, script: &Paper) -> String {
        let (n, hidden, table) = (sheet.n, sheet.hidden, sheet.sheet().table);
        let allowed = due::rules(sheet, script).script;
        let own: Vec<Rule> = rules(n, &table).into_iter().filter(|rule| !rule.term.names(hidden)).collect();
        let listed = match naive::key(n, hidden, &table) {
            Some(_) if self.trap == Trap::RuleOfSheet && !breakable(n, &own, &allowed).is_empty() => own,
            Some(_) if self.trap == Trap::RuleOfTightKey => {
                rules(n, &Closure::of(n, &rules(n, &table)).expect("the sheet has an assignment").tightest(hidden))
            }
            Some(key) => rules(n, &key),
            None => vec![],
        };
        let (rule, mut values) = self.answer(n, &listed, &allowed);
        for q in (1..=n).filter(|&q| is_in(hidden, q)) {
            values[q - 1] = i64::from(self.trap == Trap::HiddenOne);
        }
        self.verdict("loose", rule, &values, hidden)
    }

    pub fn tight(&self, sheet: &Paper, script: &Paper) -> String {
        let allowed = due::rules(sheet, script).sheet;
        let (rule, mut values) = self.answer(sheet.n, &rules(sheet.n, &script.sheet().table), &allowed);
        for q in (1..=sheet.n).filter(|&q| self.trap == Trap::HiddenZero && is_in(sheet.hidden, q)) {
            values[q - 1] = 0;
        }
        self.verdict("tight", rule, &values, sheet.hidden)
    }

    /// The rule, none where there is none to break, and integers that break it and are allowed.
    fn answer(&self, n: usize, listed: &[Rule], allowed: &[Rule]) -> (Option<Rule>, Vec<i64>) {
        let breakable = breakable(n, listed, allowed);
        let (first, last) = (breakable.first().copied(), breakable.last().copied());
        let broken = if matches!(self.trap, Trap::LastBroken | Trap::OtherBroken) { last } else { first };
        let named = match self.trap {
            Trap::FirstListed => listed.first().copied(),
            Trap::OtherBroken => first,
            _ => broken,
        };
        let more = i64::from(self.trap == Trap::OppositeAtBound);
        let opposite = broken.map(|rule| rule.opposite()).map(|rule| Rule { bound: rule.bound + more, ..rule });
        let all: Vec<Rule> = allowed.iter().copied().chain(opposite).collect();
        (named, satisfying(n, &all).expect("the rule can be broken"))
    }

    fn verdict(&self, name: &str, rule: Option<Rule>, values: &[i64], hidden: u32) -> String {
        let rule = match rule {
            None if self.trap == Trap::NoEmptyRule => String::new(),
            rule => format!("rule={}\n", rule.map_or(String::new(), |rule| self.spelled(rule))),
        };
        let printed = (1..=values.len()).filter(|&q| self.trap != Trap::VisibleOnly || !is_in(hidden, q));
        let values: Vec<String> = printed.map(|q| values[q - 1].to_string()).collect();
        let values = match self.trap {
            Trap::NoMinus => values.join(",").replace('-', ""),
            _ => values.join(","),
        };
        format!("verdict={name}\n{rule}values={values}\n")
    }

    fn spelled(&self, rule: Rule) -> String {
        let Rule { term: Term { first, second }, bound } = rule;
        match (self.trap, second) {
            (Trap::HigherFirst, Some(second)) => format!("{second}{first}:{bound}"),
            (Trap::WithinLimits, _) => Rule { bound: bound.clamp(-LIMIT, LIMIT), ..rule }.to_string(),
            _ => rule.to_string(),
        }
    }
}

/// Those of the listed rules that some allowed integers break.
fn breakable(n: usize, listed: &[Rule], allowed: &[Rule]) -> Vec<Rule> {
    let closure = Closure::of(n, allowed).expect("some integers are allowed");
    let above = |rule: &&Rule| closure.least(&rule.term).is_none_or(|least| least > rule.bound as i128);
    listed.iter().filter(above).copied().collect()
}
