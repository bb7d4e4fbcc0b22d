//! What a run over pairs of sheets has judged, for its one line of output, and whether every kind of pair was among it.

use super::pair::Pair;
use super::ways::Way;
use crate::halves::{add_kinds, Tally};
use std::collections::BTreeMap;
use std::fmt;

#[derive(Default)]
pub struct Counts {
    /// pairs by how they were made, and whether they mean the same
    ways: BTreeMap<(Way, bool), usize>,
    enumerated: usize,
    /// pairs with one meaning whose plain keys differ
    parted: usize,
}

/// What a run is to meet.
const WAYS: [(Way, bool); 10] = [
    (Way::Added, true),
    (Way::Dropped, true),
    (Way::Exchanged, true),
    (Way::ItsKey, true),
    (Way::ItsTightKey, true),
    (Way::HiddenChanged, true),
    (Way::HiddenChanged, false),
    (Way::Changed, true),
    (Way::Changed, false),
    (Way::Lowered, false),
];

impl Counts {
    pub fn pair(&mut self, pair: &Pair, other_plain_key: bool) {
        *self.ways.entry((pair.way, pair.same)).or_default() += 1;
        self.enumerated += usize::from(pair.enumerated);
        self.parted += usize::from(pair.same && other_plain_key);
    }

    /// Nothing is shown by a run in which some kind of pair was never met.
    pub fn all_met(&self) -> Result<(), String> {
        if let Some((way, same)) = WAYS.iter().find(|kind| !self.ways.contains_key(kind)) {
            return Err(format!("no pair of sheets was made by {way:?} with one meaning {same}"));
        }
        match self.enumerated.min(self.parted) {
            0 => Err("no pair of sheets was enumerated, or none with one meaning has two plain keys".into()),
            _ => Ok(()),
        }
    }

    fn meaning(&self, same: bool) -> usize {
        self.ways.iter().filter(|(kind, _)| kind.1 == same).map(|(_, count)| count).sum()
    }
}

impl Tally for Counts {
    fn add(&mut self, other: &Counts) {
        self.enumerated += other.enumerated;
        self.parted += other.parted;
        add_kinds(&mut self.ways, &other.ways);
    }
}

impl fmt::Display for Counts {
    fn fmt(&self, f: &mut fmt::Formatter) -> fmt::Result {
        let (same, other) = (self.meaning(true), self.meaning(false));
        write!(f, "sheets-of-one-meaning={same} plain-keys-differ={} of-two={other}", self.parted)?;
        write!(f, " enumerated={}", self.enumerated)
    }
}
