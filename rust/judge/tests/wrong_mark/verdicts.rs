//! Verdicts by the least bounds of `judge::graph`, and the mistakes in them.

use super::{Trap, Wrong};
use judge::graph::Closure;
use judge::library::{EQUAL, LOOSE, TIGHT};
use judge::marking::verdict::{Difference, Rules};
use judge::meaning::{is_in, rules, terms, Rule, Term, LIMIT, MOST_QUANTITIES, NO_RULE};
use judge::naive;
use judge::text::paper::Paper;
use judge::text::written::{self, Written};

impl Wrong {
    pub fn verdict(&self, sheet: &Paper, script: &Paper) -> u32 {
        let mut rules = Rules {
            n: sheet.n.max(script.n),
            hidden: sheet.hidden,
            sheet: self.taken(sheet),
            script: self.taken(script),
        };
        if self.trap == Trap::LastShown {
            rules.hidden &= u32::MAX >> 1;
        }
        let without = |held: &[Rule]| Closure::of(rules.n, held).is_none();
        match self.trap {
            Trap::Always(number) => number,
            Trap::NoSheet(number) if without(&rules.sheet) => number,
            Trap::NoScript(number) if without(&rules.script) => number,
            Trap::EqualWhenHidden if rules.hidden == u32::MAX >> (MOST_QUANTITIES - rules.n) => EQUAL,
            _ => self.told(self.difference(&rules)),
        }
    }

    fn told(&self, difference: Difference) -> u32 {
        match (self.trap, difference.number()) {
            (Trap::TightFirst, LOOSE) if difference.narrow => TIGHT,
            (Trap::Exchanged, LOOSE) => TIGHT,
            (Trap::Exchanged, TIGHT) => LOOSE,
            (_, number) => number,
        }
    }

    /// The rules that a paper is taken to have.
    fn taken(&self, paper: &Paper) -> Vec<Rule> {
        let doubled = |rule: &Written| rule.second == Some(rule.first);
        let lone = |rule: &Written, bound| Rule { term: Term { first: rule.first, second: None }, bound };
        let one = |rule: &Written| match self.trap {
            Trap::HalvedTowardZero if doubled(rule) => lone(rule, rule.bound / 2),
            Trap::NotHalved if doubled(rule) => lone(rule, rule.bound),
            _ => rule.rule(),
        };
        match self.trap {
            Trap::FractionsOfTables => rules(paper.n, &paper.sheet().table),
            Trap::KeepsLater => later(paper),
            _ => paper.rules.iter().map(one).collect(),
        }
    }

    fn difference(&self, rules: &Rules) -> Difference {
        let right = rules.by_paths();
        let [sheet, script] = [&rules.sheet, &rules.script].map(|held| Closure::of(rules.n, held));
        let wide = match (self.trap, &sheet, &script) {
            (Trap::SheetForKey | Trap::Words, Some(_), Some(script)) => self.breaks(rules, script),
            (Trap::VisibleRules | Trap::HidesFirstOnly | Trap::KeyWithinLimit, Some(_), _) => {
                self.exceeds_key(rules, &script)
            }
            (Trap::LoneTerms, Some(sheet), Some(script)) => by(rules, script, sheet, 1, lone),
            (Trap::OppositeAtBound, Some(sheet), Some(script)) => by(rules, script, sheet, 0, every),
            (Trap::OppositePastBound, Some(sheet), Some(script)) => by(rules, script, sheet, 2, every),
            (Trap::Fractions | Trap::FractionsOfTables, _, _) => rules.by_fractions().wide,
            _ => right.wide,
        };
        let narrow = match (self.trap, &sheet, &script) {
            (Trap::LoneTerms, Some(sheet), Some(script)) => by(rules, sheet, script, 1, lone),
            (Trap::TightAtBound, Some(sheet), Some(script)) => by(rules, sheet, script, 0, every),
            (Trap::TightPastBound, Some(sheet), Some(script)) => by(rules, sheet, script, 2, every),
            (Trap::Fractions | Trap::FractionsOfTables, _, _) => rules.by_fractions().narrow,
            _ => right.narrow,
        };
        Difference { wide, narrow }
    }

    /// Does the script break a rule of the sheet, or are its words larger than the key's?
    fn breaks(&self, rules: &Rules, script: &Closure) -> bool {
        if self.trap == Trap::SheetForKey {
            return rules
                .sheet
                .iter()
                .any(|rule| script.least(&rule.term).is_none_or(|least| least > rule.bound.into()));
        }
        let [sheet, script] = [&rules.sheet, &rules.script].map(|held| table(rules.n, held));
        let key = naive::key(rules.n, rules.hidden, &sheet).expect("the sheet has an assignment");
        script.iter().zip(key).any(|(&word, of_key)| word > of_key)
    }

    /// Does the script exceed what is taken for the key?
    fn exceeds_key(&self, held: &Rules, script: &Option<Closure>) -> bool {
        let mut key = table(held.n, &held.sheet);
        let removed = match self.trap {
            Trap::VisibleRules => 0,
            Trap::HidesFirstOnly => 1,
            _ => held.n,
        };
        let order = (1..=held.n).filter(|&q| is_in(held.hidden, q)).take(removed);
        order.for_each(|q| _ = naive::hide(held.n, q, &mut key));
        let mut key = rules(held.n, &key);
        key.retain(|rule| !rule.term.names(held.hidden));
        if self.trap == Trap::KeyWithinLimit {
            key.retain(|rule| rule.bound.abs() <= LIMIT);
        }
        held.exceeds(script, &Closure::of(held.n, &key))
    }
}

/// Of the rules of each place the last.
fn later(paper: &Paper) -> Vec<Rule> {
    let mut table = vec![NO_RULE; terms(paper.n).len()];
    for rule in &paper.rules {
        let one = written::table(paper.n, std::slice::from_ref(rule));
        table.iter_mut().zip(one).filter(|(_, word)| *word != NO_RULE).for_each(|(held, word)| *held = word);
    }
    rules(paper.n, &table)
}

/// The table that these rules are read into.
fn table(n: usize, rules: &[Rule]) -> Vec<i64> {
    let written = |rule: &Rule| Written { first: rule.term.first, second: rule.term.second, bound: rule.bound };
    written::table(n, &rules.iter().map(written).collect::<Vec<_>>())
}

/// Is a visible term's least bound larger than the other's by so much, or without one, among the terms that count?
fn by(rules: &Rules, first: &Closure, second: &Closure, least: i128, counts: fn(&Term) -> bool) -> bool {
    let mut visible = terms(rules.n).into_iter().filter(|term| !term.names(rules.hidden) && counts(term));
    visible.any(|term| match (first.least(&term), second.least(&term)) {
        (Some(first), Some(second)) => first - second >= least,
        (None, Some(_)) => true,
        (_, None) => false,
    })
}

fn every(_: &Term) -> bool {
    true
}

fn lone(term: &Term) -> bool {
    term.second.is_none()
}
