//! A run over numbered inputs in two halves, on two threads at once, so that anything that calls share would show.

use std::collections::BTreeMap;
use std::thread;

/// What a run has judged.
pub trait Tally: Default + Send {
    /// Adds what the other half has judged.
    fn add(&mut self, other: &Self);
}

/// Judges each input with a number below `count`: what was judged, or a failure.
pub fn both<C: Tally>(count: u64, numbered: impl Fn(u64, &mut C) -> Result<(), String> + Sync) -> Result<C, String> {
    let half = |first: u64| {
        let mut counts = C::default();
        (first..count).step_by(2).try_for_each(|number| numbered(number, &mut counts)).map(|()| counts)
    };
    thread::scope(|scope| {
        let beside = scope.spawn(|| half(1));
        let here = half(0);
        let beside = beside.join().expect("a call or the judge panics on the second thread");
        let mut counts = here?;
        counts.add(&beside?);
        Ok(counts)
    })
}

/// Adds counts by kind.
pub fn add_kinds<K: Clone + Ord>(counts: &mut BTreeMap<K, usize>, other: &BTreeMap<K, usize>) {
    other.iter().for_each(|(kind, count)| *counts.entry(kind.clone()).or_default() += count);
}
