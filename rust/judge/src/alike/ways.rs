//! Another sheet made of a sheet: one that says the same in other rules, or that perhaps says something else.

use crate::graph::Closure;
use crate::meaning::{rules, terms, Rule, Term, LIMIT, NO_RULE};
use crate::naive;
use crate::plain::within;
use crate::random::Random;
use crate::sheets::Sheet;

#[derive(Clone, Copy, PartialEq, Eq, PartialOrd, Ord, Debug)]
pub enum Way {
    /// rules that follow are added, at their least bounds or above
    Added,
    /// rules that follow from the others are dropped
    Dropped,
    /// both
    Exchanged,
    /// the sheet's key
    ItsKey,
    /// its tightest key
    ItsTightKey,
    /// a rule that names a hidden quantity has another bound, or is dropped
    HiddenChanged,
    /// any rule has
    Changed,
    /// a visible term is bounded by one less than its least bound
    Lowered,
}

impl Way {
    const ALL: [Way; 8] = [
        Way::Added,
        Way::Dropped,
        Way::Exchanged,
        Way::ItsKey,
        Way::ItsTightKey,
        Way::HiddenChanged,
        Way::Changed,
        Way::Lowered,
    ];

    /// Is a sheet that is made so sure to allow the same visible integers, or sure not to? None where it is neither.
    pub fn keeps_meaning(self) -> Option<bool> {
        match self {
            Way::Added | Way::Dropped | Way::Exchanged | Way::ItsKey | Way::ItsTightKey => Some(true),
            Way::HiddenChanged | Way::Changed => None,
            Way::Lowered => Some(false),
        }
    }
}

/// The words of another sheet, in one of the ways, if it leads to a sheet here.
pub fn made(sheet: &Sheet, closure: &Closure, random: &mut Random) -> Option<(Way, Vec<i64>)> {
    let Sheet { n, hidden, table } = sheet;
    let way = random.pick(&Way::ALL);
    let mut other = table.clone();
    match way {
        Way::Added => add(*n, closure, &mut other, random),
        Way::Dropped => drop(*n, &mut other, random),
        Way::Exchanged => {
            add(*n, closure, &mut other, random);
            drop(*n, &mut other, random);
        }
        Way::ItsKey => other = naive::key(*n, *hidden, table)?,
        Way::ItsTightKey => other = closure.tightest(*hidden),
        Way::HiddenChanged => change(&mut other, |place| terms(*n)[place].names(*hidden), random)?,
        Way::Changed => change(&mut other, |_| true, random)?,
        Way::Lowered => lower(&closure.tightest(*hidden), &mut other, random)?,
    }
    within(LIMIT, &other).then_some((way, other))
}

/// Puts in rules that follow, few or many.
fn add(n: usize, closure: &Closure, table: &mut [i64], random: &mut Random) {
    let share = random.pick(&[5, 30, 100]);
    for (word, term) in table.iter_mut().zip(terms(n)) {
        let least = closure.least(&term).filter(|_| random.chance(share));
        let above = random.pick(&[0, 0, 1, 2, 1000]);
        if let Some(bound) = least.map(|least| least as i64 + above).filter(|bound| bound.abs() <= LIMIT) {
            *word = bound.min(*word);
        }
    }
}

/// How many rules are tried at most: each needs shortest paths of its own.
const TRIED: usize = 4;

/// Takes rules away that follow from those that stay.
fn drop(n: usize, table: &mut [i64], random: &mut Random) {
    let mut held: Vec<usize> = (0..table.len()).filter(|&place| table[place] != NO_RULE).collect();
    random.shuffle(&mut held);
    for place in held.into_iter().take(TRIED) {
        let bound = std::mem::replace(&mut table[place], NO_RULE);
        if !follows(n, table, terms(n)[place], bound) {
            table[place] = bound;
        }
    }
}

fn follows(n: usize, table: &[i64], term: Term, bound: i64) -> bool {
    let rest: Vec<Rule> = rules(n, table);
    let least = Closure::of(n, &rest).and_then(|closure| closure.least(&term));
    least.is_some_and(|least| least <= i128::from(bound))
}

/// Gives another bound to one of the chosen rules, or drops it; none where there is no such rule.
fn change(table: &mut [i64], chosen: impl Fn(usize) -> bool, random: &mut Random) -> Option<()> {
    let held: Vec<usize> = (0..table.len()).filter(|&place| table[place] != NO_RULE && chosen(place)).collect();
    if held.is_empty() {
        return None;
    }
    let word = &mut table[random.pick(&held)];
    *word = match random.below(3) {
        0 => NO_RULE,
        _ => *word + random.pick(&[-1, 1, 2, -1000, 1000]),
    };
    Some(())
}

/// Bounds one term of the tightest key by one less; none where it has no rule.
fn lower(tight: &[i64], table: &mut [i64], random: &mut Random) -> Option<()> {
    let held: Vec<usize> = (0..tight.len()).filter(|&place| tight[place] != NO_RULE).collect();
    if held.is_empty() {
        return None;
    }
    let place = random.pick(&held);
    table[place] = tight[place] - 1;
    Some(())
}
