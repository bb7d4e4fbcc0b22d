//! The least bound of every term over all integers that satisfy some rules, by trying those of a box.
//!
//! Let M be the largest magnitude of a bound. Where the magnitudes of such integers have a gap wider than M, all above the gap
//! can go one step away from 0, by the fact that `brute` begins with, and again and again, for the gap only widens. A term that
//! grows by the step has no bound.
//!
//! The box is wide enough for both answers. Of any integers that satisfy the rules, narrow each gap that is wider than M + 1 to
//! that, by steps toward 0: what is left satisfies the rules, is at most n times M + 1 in magnitude, and steps away from 0 at
//! the same gaps lead back. So a term that no such step in the box lets grow is nowhere larger than in the box.

use super::Search;
use crate::meaning::{largest_bound, terms, Literal, Rule, Term};

/// The least bound of each term in place order, None where it has no bound; or None where no integers satisfy the rules.
pub fn bounds(n: usize, rules: &[Rule]) -> Option<Vec<Option<i64>>> {
    let most = largest_bound(rules) as i64;
    let all: Vec<usize> = (1..=n).collect();
    let mut found: Vec<Found> = terms(n).into_iter().map(Found::none).collect();
    Search::new(&all, rules, n as i64 * (most + 1)).any(&mut vec![0; n], 0, &mut |values| {
        let gaps = gaps(most, values);
        found.iter_mut().for_each(|found| found.meet(values, &gaps));
        false
    });
    found.into_iter().map(Found::told).collect()
}

/// What is known of a term.
struct Found {
    term: Term,
    /// the largest value so far
    largest: Option<i64>,
    grows: bool,
}

impl Found {
    fn none(term: Term) -> Found {
        Found { term, largest: None, grows: false }
    }

    /// Takes integers in, with the upper ends of their wide gaps.
    fn meet(&mut self, values: &[i64], gaps: &[i64]) {
        self.largest = self.largest.max(Some(self.term.value(values) as i64));
        self.grows = self.grows || gaps.iter().any(|&end| growth(&self.term, values, end) > 0);
    }

    fn told(self) -> Option<Option<i64>> {
        self.largest.map(|largest| (!self.grows).then_some(largest))
    }
}

/// By how much the term grows when all integers of at least this magnitude go one step away from 0.
fn growth(term: &Term, values: &[i64], least: i64) -> i64 {
    let step = |x: Literal| match values[x.quantity - 1] {
        value if value.abs() >= least => x.sign * value.signum(),
        _ => 0,
    };
    step(term.first) + term.second.map_or(0, step)
}

/// The magnitudes, put in order from 0 on, that lie more than `most` above the one before.
fn gaps(most: i64, values: &[i64]) -> Vec<i64> {
    let mut magnitudes: Vec<i64> = values.iter().map(|value| value.abs()).chain([0]).collect();
    magnitudes.sort_unstable();
    magnitudes.windows(2).filter(|step| step[1] - step[0] > most).map(|step| step[1]).collect()
}
