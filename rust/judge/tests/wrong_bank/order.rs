//! Which rule is the first that a bank sheet may not have there, by formula, and the mistakes in that.

use super::{Trap, Wrong};
use judge::meaning::Literal;
use judge::text::written::Written;
use std::sync::atomic::Ordering::SeqCst;

impl Wrong {
    /// The rules that are out of order, as far as they are looked at; the first of them counts.
    pub fn out(&self, rules: &[Written]) -> Vec<usize> {
        let out = (0..rules.len()).filter(|&at| self.misspelled(rules, at) || self.misplaced(rules, at)).collect();
        if let (Trap::PlaceKept, Some(last)) = (self.trap, rules.last()) {
            self.kept.store(place(last) % 4, SeqCst);
        }
        out
    }

    pub fn misspelled(&self, rules: &[Written], at: usize) -> bool {
        let Written { first, second: Some(second), .. } = rules[at] else { return false };
        let doubled = first == second;
        match self.trap {
            Trap::DoubledAccepted | Trap::DoubledByPlace if doubled => false,
            Trap::DoubledPlus if doubled => first.sign < 0,
            Trap::HigherFirstAccepted if !doubled => false,
            Trap::HigherFirstBySigns if !doubled && first.sign != second.sign => false,
            Trap::SignsCompared if !doubled => signed(first) > signed(second),
            Trap::NumeralsCompared if !doubled => first.quantity.to_string() > second.quantity.to_string(),
            Trap::FirstInAnyForm if at == 0 => false,
            Trap::LastUnchecked if at + 1 == rules.len() => false,
            _ => first.quantity >= second.quantity,
        }
    }

    /// Is the rule not after the one before, by what is compared?
    pub fn misplaced(&self, rules: &[Written], at: usize) -> bool {
        let here = place(&rules[at]);
        let before = match (self.trap, at) {
            (Trap::FirstPlaceRefused, 0) => return here == 0,
            (Trap::PlaceKept, 0) => return here < self.kept.load(SeqCst),
            (_, 0) | (Trap::AnyOrder, _) => return false,
            (Trap::DoubledAccepted, _) if rules[at].second == Some(rules[at].first) => return false,
            (Trap::AfterFirst, _) => &rules[0],
            (Trap::AfterLastButOne, _) => &rules[at.max(2) - 2],
            (Trap::EverySecond, _) if at.is_multiple_of(2) => return false,
            (Trap::LastUnchecked, _) if at + 1 == rules.len() => return false,
            _ => &rules[at - 1],
        };
        let (there, bound, former) = (place(before), rules[at].bound, before.bound);
        match self.trap {
            Trap::EqualAccepted => here < there,
            Trap::EqualBoundAccepted if bound == former => here < there,
            Trap::IdleAccepted if bound >= former => here < there,
            Trap::SmallerAccepted if bound < former => here < there,
            Trap::NeighbourRefused => here <= there + 1,
            Trap::NeighbourAlone => here != there + 1,
            Trap::NarrowPlaces => here as u8 <= there as u8,
            _ => !self.after(&rules[at], before),
        }
    }

    /// Does a rule come after another in the order that is taken for that of places?
    fn after(&self, rule: &Written, before: &Written) -> bool {
        let by = |key: &dyn Fn(&Written) -> Vec<i64>| key(rule) > key(before);
        let place = |rule: &Written| place(rule) as i64;
        match self.trap {
            Trap::Backward => place(rule) < place(before),
            Trap::ByQuantities => by(&|rule| vec![low(rule), high(rule), place(rule)]),
            Trap::ByHigher => high(rule) >= high(before),
            Trap::BlocksOnce => high(rule) > high(before),
            Trap::ByBytes => rule.rule().term.to_string() > before.rule().term.to_string(),
            Trap::LoneLast => by(&|rule| vec![high(rule), i64::from(rule.second.is_none()), place(rule)]),
            Trap::MinusFirst => by(&|rule| vec![high(rule), low(rule) % high(rule), sign(rule)]),
            Trap::LowerSignLast => by(&|rule| vec![high(rule), low(rule) % high(rule), turned(rule)]),
            _ => place(rule) > place(before),
        }
    }
}

/// A quantity with its sign.
fn signed(literal: Literal) -> i64 {
    literal.sign * literal.quantity as i64
}

fn low(rule: &Written) -> i64 {
    rule.second.map_or(rule.first.quantity, |second| second.quantity.min(rule.first.quantity)) as i64
}

fn high(rule: &Written) -> i64 {
    rule.second.map_or(rule.first.quantity, |second| second.quantity.max(rule.first.quantity)) as i64
}

/// The signs as a number, the lower quantity's being the higher digit: 3 for two of +, 0 for two of -.
fn sign(rule: &Written) -> i64 {
    let digit = |literal: Literal| i64::from(literal.sign > 0);
    2 * digit(rule.first) + digit(rule.second.unwrap_or(rule.first))
}

/// The place among those of the same quantities, if the lower one's sign were the lower digit.
fn turned(rule: &Written) -> i64 {
    let digit = |literal: Literal| i64::from(literal.sign < 0);
    digit(rule.first) + 2 * digit(rule.second.unwrap_or(rule.first))
}

/// Document 01's formula; a doubled term has the place of its half, and two quantities one place in either order.
pub fn place(rule: &Written) -> usize {
    let minus = |literal: Literal| usize::from(literal.sign < 0);
    let Written { first, second, .. } = *rule;
    let block = |q: usize| 2 * (q - 1) * (q - 1);
    match second.filter(|&second| second != first) {
        None => block(first.quantity) + minus(first),
        Some(second) => {
            let (low, high) = if first.quantity < second.quantity { (first, second) } else { (second, first) };
            block(high.quantity) + 2 + 4 * (low.quantity - 1) + 2 * minus(low) + minus(high)
        }
    }
}
