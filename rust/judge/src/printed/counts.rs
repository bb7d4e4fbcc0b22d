//! What a run over printed answers has judged, for its one line of output, and whether every kind of answer was among it.

use crate::halves::{add_kinds, Tally};
use std::collections::BTreeMap;
use std::fmt;

#[derive(Default)]
pub struct Counts {
    /// runs of *mark*
    pub pairs: usize,
    /// runs of *key*
    pub sheets: usize,
    kinds: BTreeMap<String, usize>,
}

/// What a run is to meet. 5 is no answer of *mark*, and 6 is one of neither.
const KINDS: [&str; 44] = [
    "equal",
    "equal, own key past a sheet's limit",
    "loose, and narrow",
    "loose, before another rule that can be broken",
    "loose, behind a rule that holds",
    "loose, hidden integers tried",
    "loose, no rule",
    "loose, rule of one quantity",
    "loose, rule of two quantities",
    "loose, rule past the limits",
    "loose, rule tried",
    "loose, some hidden",
    "tight, before another rule that can be broken",
    "tight, behind a rule that holds",
    "tight, rule not as it is written",
    "tight, rule of one quantity",
    "tight, rule of two quantities",
    "tight, rule past the limits",
    "tight, rule tried",
    "tight, some hidden",
    "refused 1, sheet",
    "refused 1, script",
    "refused 2, sheet",
    "refused 2, script",
    "refused 3, sheet",
    "refused 3, script",
    "refused 4, sheet",
    "refused 4, script",
    "refused 7, both",
    "key, rules",
    "key, no rule",
    "key, past the limits",
    "key, past a script's limits",
    "key, the plain key",
    "key, not the plain key",
    "keys, one meaning",
    "keys, two meanings",
    "own key, equal",
    "own key, refused 3",
    "key, refused 1",
    "key, refused 2",
    "key, refused 3",
    "key, refused 4",
    "key, refused 5",
];

impl Counts {
    pub fn answer(&mut self, kinds: Vec<String>) {
        kinds.into_iter().for_each(|kind| *self.kinds.entry(kind).or_default() += 1);
    }

    /// Nothing is shown by a run in which some kind of answer was never due.
    pub fn all_met(&self) -> Result<(), String> {
        match KINDS.iter().find(|&&kind| !self.kinds.contains_key(kind)) {
            Some(kind) => Err(format!("no answer was of the kind '{kind}'")),
            None => Ok(()),
        }
    }
}

impl Tally for Counts {
    fn add(&mut self, other: &Counts) {
        self.pairs += other.pairs;
        self.sheets += other.sheets;
        add_kinds(&mut self.kinds, &other.kinds);
    }
}

impl fmt::Display for Counts {
    fn fmt(&self, f: &mut fmt::Formatter) -> fmt::Result {
        let met = |kind: &str| self.kinds.get(kind).copied().unwrap_or(0);
        write!(f, "printed-by-mark={} printed-by-key={}", self.pairs, self.sheets)?;
        let fewest = KINDS.iter().map(|kind| met(kind)).min();
        write!(f, " kinds={} fewest-of-a-kind={}", KINDS.len(), fewest.unwrap_or(0))
    }
}
