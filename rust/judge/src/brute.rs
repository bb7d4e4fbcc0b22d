//! Small sheets decided by trying all integers of a box, and why the boxes are wide enough for the answer over all
//! integers. No quantity is eliminated here.
//!
//! The one fact behind the boxes. Let integers satisfy rules whose bounds have magnitude at most M, and let the
//! magnitudes of the integers, put in order from 0 on, have a gap wider than M. Then all integers above the gap can go
//! one step toward 0, or one step away from 0, and every rule stays met. For write each quantity with the sign that makes
//! it positive:
//! - Toward 0 a term can only grow where it subtracts a quantity from above the gap. After the step the term is still
//!   at most -M: a lone one because the integer was above M, with one from below because the gap was wider than M,
//!   with two subtracted because both were above M. A difference of two from above the gap stays what it was.
//! - Away from 0 a term can only grow where it adds a quantity from above the gap, the other being absent, added, or
//!   subtracted from below the gap. Such a term was above M, so no rule bounds it.

pub mod least;

use crate::meaning::{broken, is_in, largest_bound, Rule};

/// Is enumeration quick enough for this sheet?
pub fn fits(n: usize, rules: &[Rule]) -> bool {
    let most = match n {
        1..=3 => 4,
        4 => 2,
        _ => return false,
    };
    largest_bound(rules) <= most
}

/// Do some integers satisfy all rules?
///
/// Those whose magnitudes have the least sum have no gap wider than M, or they could go toward 0. So they are at most
/// n times M.
pub fn has_assignment(n: usize, rules: &[Rule]) -> bool {
    let radius = n as i64 * largest_bound(rules) as i64;
    let all: Vec<usize> = (1..=n).collect();
    Search::new(&all, rules, radius).finds(&mut vec![0; n], 0)
}

/// Visible integers on which the key is wrong: it allows them though no hidden integers complete them, or the other way
/// round. The key names no hidden quantity.
pub fn wrong_on(n: usize, hidden: u32, sheet: &[Rule], key: &[Rule]) -> Option<Vec<i64>> {
    choice(n, hidden, sheet, key, |allowed, completed| allowed != completed)
}

/// Visible integers that are as wanted, which is asked of whether the script allows them and whether hidden integers
/// complete them. A script, as a key, names no hidden quantity.
pub fn choice(
    n: usize,
    hidden: u32,
    sheet: &[Rule],
    script: &[Rule],
    wanted: fn(bool, bool) -> bool,
) -> Option<Vec<i64>> {
    let (hidden_ones, visible) = parted(n, hidden);
    let reach = visible_radius(&hidden_ones, &visible, sheet, script);
    let completion = Completion::new(&hidden_ones, hidden, sheet, reach);
    first(n, &visible, reach, |values| wanted(broken(script, values).is_none(), completion.of(values)))
}

/// Visible integers that hidden ones complete on one sheet and not on the other. What `visible_radius` says of a sheet and a
/// key holds for two sheets with the larger magnitude of both.
pub fn apart(n: usize, hidden: u32, one: &[Rule], other: &[Rule]) -> Option<Vec<i64>> {
    let (hidden_ones, visible) = parted(n, hidden);
    let larger = if largest_bound(one) < largest_bound(other) { other } else { one };
    let reach = visible_radius(&hidden_ones, &visible, larger, &[]);
    let [one, other] = [one, other].map(|sheet| Completion::new(&hidden_ones, hidden, sheet, reach));
    first(n, &visible, reach, |values| one.of(values) != other.of(values))
}

/// The first choice for the visible quantities from -reach to reach that is as wanted.
fn first(n: usize, visible: &[usize], reach: i64, wanted: impl Fn(&[i64]) -> bool) -> Option<Vec<i64>> {
    let mut values = vec![0; n];
    visible.iter().for_each(|&q| values[q - 1] = -reach);
    loop {
        if wanted(&values) {
            return Some(values);
        }
        if !advance(visible, reach, &mut values) {
            return None;
        }
    }
}

/// How many integers `choice` has to try at most: all visible ones, with all hidden ones for each.
pub fn tries(n: usize, hidden: u32, sheet: &[Rule], script: &[Rule]) -> u128 {
    let (hidden_ones, visible) = parted(n, hidden);
    let reach = visible_radius(&hidden_ones, &visible, sheet, script);
    let hidden_reach = hidden_radius(&hidden_ones, reach, sheet);
    all(reach, &visible).saturating_mul(all(hidden_reach, &hidden_ones))
}

/// Do hidden integers complete the visible ones among these?
pub fn completed(n: usize, hidden: u32, sheet: &[Rule], values: &[i64]) -> bool {
    let (hidden_ones, visible) = parted(n, hidden);
    Completion::new(&hidden_ones, hidden, sheet, farthest(&visible, values)).of(values)
}

/// How many integers `completed` has to try at most.
pub fn completion_tries(n: usize, hidden: u32, sheet: &[Rule], values: &[i64]) -> u128 {
    let (hidden_ones, visible) = parted(n, hidden);
    all(hidden_radius(&hidden_ones, farthest(&visible, values), sheet), &hidden_ones)
}

/// The largest magnitude of these quantities' integers.
fn farthest(quantities: &[usize], values: &[i64]) -> i64 {
    quantities.iter().map(|&q| values[q - 1].abs()).max().unwrap_or(0)
}

/// How many choices these quantities have from -reach to reach.
fn all(reach: i64, quantities: &[usize]) -> u128 {
    (2 * reach as u128 + 1).saturating_pow(quantities.len() as u32)
}

/// The hidden quantities and the visible ones.
fn parted(n: usize, hidden: u32) -> (Vec<usize>, Vec<usize>) {
    (1..=n).partition(|&q| is_in(hidden, q))
}

/// How far visible integers have to be tried.
///
/// Let k quantities be hidden and the visible magnitudes have a gap wider than (k + 1) M + 1. In it stand at most k
/// hidden magnitudes, so a part of it is wider than M, and so it is when the visible integers above the gap have gone
/// one step toward 0. By the fact above, the integers before the step are completed exactly when those after it are. If
/// the gap is also wider than the key's largest magnitude plus 1, the key too allows both or none. So a wrong choice with
/// such a gap leads to one nearer to 0 that is wrong in the same way, and the last one has no such gap.
///
/// It fits a word for every script: with k of 32 hidden there are 32 - k times at most 10⁹ · 2ᵏ.
fn visible_radius(hidden: &[usize], visible: &[usize], sheet: &[Rule], key: &[Rule]) -> i64 {
    let parts = (hidden.len() as u64 + 1) * largest_bound(sheet);
    let gap = parts.max(largest_bound(key)) + 1;
    visible.len() as i64 * gap as i64
}

/// How far hidden integers have to be tried where the visible ones are at most `reach` in magnitude.
///
/// Of all that complete these, take hidden integers whose magnitudes have the least sum. Above `reach` stand only hidden
/// ones, and a gap wider than M there, or from `reach` to the first of them, would let those above it go toward 0.
fn hidden_radius(hidden: &[usize], reach: i64, sheet: &[Rule]) -> i64 {
    reach + hidden.len() as i64 * largest_bound(sheet) as i64
}

/// Goes to the next choice for these quantities from -reach to reach; false after the last.
fn advance(quantities: &[usize], reach: i64, values: &mut [i64]) -> bool {
    for &q in quantities {
        if values[q - 1] < reach {
            values[q - 1] += 1;
            return true;
        }
        values[q - 1] = -reach;
    }
    false
}

/// Whether hidden integers complete visible ones.
struct Completion<'a> {
    among_visible: Vec<Rule>,
    search: Search<'a>,
}

impl Completion<'_> {
    /// For visible integers of at most this magnitude.
    fn new<'a>(hidden_ones: &'a [usize], hidden: u32, sheet: &[Rule], reach: i64) -> Completion<'a> {
        let (among_visible, rest): (Vec<Rule>, Vec<Rule>) = sheet.iter().partition(|rule| !rule.term.names(hidden));
        let search = Search::new(hidden_ones, &rest, hidden_radius(hidden_ones, reach, sheet));
        Completion { among_visible, search }
    }

    fn of(&self, values: &[i64]) -> bool {
        broken(&self.among_visible, values).is_none() && self.search.finds(&mut values.to_vec(), 0)
    }
}

/// Tries all integers from -radius to radius for some quantities, the others being fixed. A choice is given up as soon as
/// a rule is broken whose quantities all have their integers.
struct Search<'a> {
    order: &'a [usize],
    /// for each quantity of the order the rules that can be tested from then on
    due: Vec<Vec<Rule>>,
    radius: i64,
}

impl Search<'_> {
    fn new<'a>(order: &'a [usize], rules: &[Rule], radius: i64) -> Search<'a> {
        let mut due = vec![Vec::new(); order.len()];
        for rule in rules {
            let turns = rule.term.quantities().filter_map(|q| order.iter().position(|&o| o == q));
            let last = turns.max().expect("a rule of the search names a quantity of it");
            due[last].push(*rule);
        }
        Search { order, due, radius }
    }

    fn finds(&self, values: &mut [i64], turn: usize) -> bool {
        self.any(values, turn, &mut |_| true)
    }

    /// Does some choice end the search? Each that breaks no rule is asked about until one does.
    fn any(&self, values: &mut [i64], turn: usize, ends: &mut dyn FnMut(&[i64]) -> bool) -> bool {
        if turn == self.order.len() {
            return ends(values);
        }
        (-self.radius..=self.radius).any(|value| {
            values[self.order[turn] - 1] = value;
            broken(&self.due[turn], values).is_none() && self.any(values, turn + 1, ends)
        })
    }
}
