//! What a run over pairs of texts has judged, for its one line of output, and whether every number and every kind of pair
//! was among it.

use super::due::Due;
use crate::halves::{add_kinds, Tally};
use std::collections::BTreeMap;
use std::fmt;

/// Every answer of marking two texts with its reasons. 5 is none, and 6 is none where all is lent by the library.
const NUMBERS: [u32; 9] = [1, 2, 3, 4, 6, 7, 100, 101, 102];

#[derive(Default)]
pub struct Counts {
    pub examples: usize,
    /// keys of sheets, plain or the tightest, that were handed in as the writer prints them
    pub own_keys: usize,
    /// verdicts that were decided by enumeration too
    enumerated: usize,
    /// calls by their numbers
    numbers: BTreeMap<u32, usize>,
    /// calls with reasons by theirs; each is made twice
    reasons: BTreeMap<u32, usize>,
    kinds: BTreeMap<String, usize>,
}

/// What a run is to meet. With `sheet 3, script 2` both texts are to be refused, so that the sheet's number has to come
/// first whichever is the smaller.
const KINDS: [&str; 103] = [
    "sheet 1",
    "sheet 1, script 2",
    "sheet 1, script 3",
    "sheet 1, script 4",
    "sheet 2",
    "sheet 2, script 1",
    "sheet 2, script 3",
    "sheet 2, script 4",
    "sheet 3",
    "sheet 3, script 1",
    "sheet 3, script 2",
    "sheet 3, script 4",
    "sheet 3, within a script's limit",
    "sheet 4",
    "sheet 4, script 1",
    "sheet 4, script 2",
    "sheet 4, script 3",
    "script 1",
    "script 2",
    "script 3",
    "script 3, one past its limit",
    "script 3, within the limit of the sheet's list",
    "script 4",
    "7 hidden",
    "7 n",
    "7 rule",
    "7, past the limit of the sheet's list",
    "7, sheet without an assignment",
    "equal, all hidden",
    "equal, both with an assignment",
    "equal, doubled past a sheet's limit",
    "equal, doubled",
    "equal, enumerated",
    "equal, largest n",
    "equal, none hidden",
    "equal, not by fractions",
    "equal, own key at a script's limit",
    "equal, own key past a sheet's limit",
    "equal, script at its limit",
    "equal, script past a sheet's limit",
    "equal, script without an assignment",
    "equal, sheet at its limit",
    "equal, sheet without an assignment",
    "equal, some hidden",
    "loose, all hidden",
    "loose, both with an assignment",
    "loose, doubled past a sheet's limit",
    "loose, doubled",
    "loose, enumerated",
    "loose, largest n",
    "loose, none hidden",
    "loose, not by fractions",
    "loose, script at its limit",
    "loose, script past a sheet's limit",
    "loose, sheet at its limit",
    "loose, sheet without an assignment",
    "loose, some hidden",
    "tight, both with an assignment",
    "tight, doubled past a sheet's limit",
    "tight, doubled",
    "tight, enumerated",
    "tight, largest n",
    "tight, none hidden",
    "tight, not by fractions",
    "tight, script at its limit",
    "tight, script past a sheet's limit",
    "tight, script without an assignment",
    "tight, sheet at its limit",
    "tight, some hidden",
    "wide and narrow, both with an assignment",
    "wide and narrow, doubled",
    "wide and narrow, enumerated",
    "wide and narrow, largest n",
    "wide and narrow, none hidden",
    "wide and narrow, script at its limit",
    "wide and narrow, script past a sheet's limit",
    "wide and narrow, sheet at its limit",
    "wide and narrow, some hidden",
    // of the call with reasons
    "6 before 7",
    "6 before a verdict, 100",
    "6 before a verdict, 101",
    "6 before a verdict, 102",
    "sheet refused, no words lent",
    "script refused, no words lent",
    "equal, with reasons",
    "loose, and narrow",
    "loose, before another rule that can be broken",
    "loose, behind a rule that holds",
    "loose, hidden integers tried",
    "loose, no rule",
    "loose, rule of one quantity",
    "loose, rule of two quantities",
    "loose, rule past the limits",
    "loose, rule tried",
    "loose, words past n",
    "tight, before another rule that can be broken",
    "tight, behind a rule that holds",
    "tight, rule not as it is written",
    "tight, rule of one quantity",
    "tight, rule of two quantities",
    "tight, rule past the limits",
    "tight, rule tried",
    "tight, words past n",
];

impl Counts {
    pub fn marking(&mut self, due: &Due) {
        *self.numbers.entry(due.number).or_default() += 1;
        self.enumerated += usize::from(due.enumerated);
        due.kinds.iter().for_each(|kind| *self.kinds.entry(kind.clone()).or_default() += 1);
    }

    pub fn reasons(&mut self, number: u32, kinds: Vec<String>) {
        *self.reasons.entry(number).or_default() += 1;
        kinds.into_iter().for_each(|kind| *self.kinds.entry(kind).or_default() += 1);
    }

    /// Nothing is shown by a run in which some number was never due, or some kind of pair never met.
    pub fn all_met(&self) -> Result<(), String> {
        if let Some(number) = NUMBERS.iter().find(|number| !self.reasons.contains_key(number)) {
            return Err(format!("{number} was never due"));
        }
        match KINDS.iter().find(|&&kind| !self.kinds.contains_key(kind)) {
            Some(kind) => Err(format!("no pair was of the kind '{kind}'")),
            None => Ok(()),
        }
    }
}

impl Tally for Counts {
    fn add(&mut self, other: &Counts) {
        self.examples += other.examples;
        self.own_keys += other.own_keys;
        self.enumerated += other.enumerated;
        add_kinds(&mut self.numbers, &other.numbers);
        add_kinds(&mut self.reasons, &other.reasons);
        add_kinds(&mut self.kinds, &other.kinds);
    }
}

impl fmt::Display for Counts {
    fn fmt(&self, f: &mut fmt::Formatter) -> fmt::Result {
        let Counts { examples, own_keys, enumerated, numbers, reasons, .. } = self;
        write!(f, "examples={examples} pairs={} own-keys={own_keys}", numbers.values().sum::<usize>())?;
        write!(f, " enumerated={enumerated}")?;
        numbers.iter().try_for_each(|(number, count)| write!(f, " number-{number}={count}"))?;
        write!(f, " with-reasons={}", reasons.values().sum::<usize>())?;
        reasons.iter().try_for_each(|(number, count)| write!(f, " number-{number}={count}"))?;
        let fewest = KINDS.iter().map(|&kind| self.kinds.get(kind).copied().unwrap_or(0)).min();
        write!(f, " kinds={} fewest-of-a-kind={}", KINDS.len(), fewest.unwrap_or(0))
    }
}
