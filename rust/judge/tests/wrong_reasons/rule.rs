//! The rule of a verdict, and the mistakes in it.

use super::{Answered, Trap, Wrong};
use judge::graph::Closure;
use judge::library::{EQUAL, LOOSE, NOTHING, TIGHT};
use judge::marking::due::{read, read_script, rules};
use judge::meaning::{self, Literal, Rule, LIMIT, NO_RULE};
use judge::naive;

impl Wrong {
    pub fn rule(&self, answered: &mut Answered) {
        let [first, second, bound] = answered.told.rule;
        answered.told.rule = match (self.trap, answered.number) {
            (Trap::RuleWhenEqual, EQUAL) | (Trap::RuleWhenRefused, 1..=7) => NOTHING,
            (Trap::NoRuleWord, LOOSE) if answered.told.rule == NOTHING => [0, 0, NO_RULE],
            (Trap::NoRuleUnwritten, LOOSE) if answered.told.rule == NOTHING => answered.before.1.rule,
            (_, LOOSE | TIGHT) if answered.told.rule == NOTHING => return,
            (Trap::SignsExchanged, LOOSE | TIGHT) => [-first, -second, bound],
            (Trap::HigherFirst, LOOSE | TIGHT) if second != 0 => [second, first, bound],
            (Trap::WithinLimits, LOOSE) => [first, second, bound.clamp(-LIMIT, LIMIT)],
            (Trap::Doubled, LOOSE | TIGHT) if second == 0 => [first, first, 2 * bound],
            (Trap::LeastBound, LOOSE) => self.of_key(answered, |_, least| least.first().copied()),
            (Trap::OfTightKey, LOOSE) => self.of_key(answered, |_, broken| broken.first().copied()),
            (Trap::LastBroken, LOOSE) => self.of_key(answered, |_, broken| broken.last().copied()),
            (Trap::FirstListed, LOOSE) => self.of_key(answered, |listed, _| listed.first().copied()),
            _ => return,
        };
    }

    /// A rule chosen from the key's, and from those of them that can be broken.
    fn of_key(&self, answered: &Answered, chosen: fn(&[Rule], &[Rule]) -> Option<Rule>) -> [i64; 3] {
        let [sheet, script] =
            [read(answered.sheet), read_script(answered.script)].map(|paper| paper.expect("both texts are read"));
        let written = rules(&sheet, &script);
        let [of_sheet, of_script] = [&written.sheet, &written.script]
            .map(|rules| Closure::of(sheet.n, rules).expect("both papers have an assignment"));
        let key = match self.trap {
            Trap::OfTightKey => of_sheet.tightest(sheet.hidden),
            _ => naive::key(sheet.n, sheet.hidden, &sheet.sheet().table).expect("the sheet has an assignment"),
        };
        let listed = meaning::rules(sheet.n, &key);
        let above = |rule: &&Rule| of_script.least(&rule.term).is_none_or(|least| least > rule.bound as i128);
        let mut broken: Vec<Rule> = listed.iter().filter(above).copied().collect();
        if self.trap == Trap::LeastBound {
            broken.iter_mut().for_each(|rule| rule.bound = of_sheet.least(&rule.term).map_or(NO_RULE, |c| c as i64));
        }
        let Rule { term, bound } = chosen(&listed, &broken).expect("the key has a rule that can be broken");
        let signed = |literal: Option<Literal>| literal.map_or(0, |x| x.sign * x.quantity as i64);
        [signed(Some(term.first)), signed(term.second), bound]
    }
}
