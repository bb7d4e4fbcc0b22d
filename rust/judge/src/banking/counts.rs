//! What a run over bank sheets has judged, for its one line of output, and whether every kind of text was among it.

use super::due::Owed;
use super::kinds::{self, KINDS};
use crate::halves::{add_kinds, Tally};
use crate::meaning::MOST_QUANTITIES;
use std::collections::BTreeMap;
use std::fmt;

#[derive(Default)]
pub struct Counts {
    pub examples: usize,
    /// texts with all orders of a few rules, and with all short rule lines
    pub short: usize,
    /// tables written and read back
    pub tables: usize,
    /// other texts by the number of the reply
    numbers: BTreeMap<u32, usize>,
    /// bank sheets that are read, by their quantities
    quantities: BTreeMap<usize, usize>,
    kinds: BTreeMap<String, usize>,
}

impl Counts {
    pub fn text(&mut self, text: &[u8], owed: &Owed) {
        let number = owed.read().map_or_else(|refusal| refusal.number, |_| 0);
        *self.numbers.entry(number).or_default() += 1;
        if let Ok(paper) = owed.read() {
            *self.quantities.entry(paper.n).or_default() += 1;
        }
        kinds::of(text, owed).into_iter().for_each(|kind| *self.kinds.entry(kind).or_default() += 1);
    }

    /// Nothing is shown by a run in which some kind of text was never met, or no bank sheet of so many quantities.
    pub fn all_met(&self) -> Result<(), String> {
        if let Some(n) = (1..=MOST_QUANTITIES).find(|n| !self.quantities.contains_key(n)) {
            return Err(format!("no bank sheet of {n} quantities was read"));
        }
        match KINDS.iter().find(|&&kind| !self.kinds.contains_key(kind)) {
            Some(kind) => Err(format!("no text was of the kind '{kind}'")),
            None => Ok(()),
        }
    }
}

impl Tally for Counts {
    fn add(&mut self, other: &Counts) {
        self.examples += other.examples;
        self.short += other.short;
        self.tables += other.tables;
        add_kinds(&mut self.numbers, &other.numbers);
        add_kinds(&mut self.quantities, &other.quantities);
        add_kinds(&mut self.kinds, &other.kinds);
    }
}

impl fmt::Display for Counts {
    fn fmt(&self, f: &mut fmt::Formatter) -> fmt::Result {
        let Counts { examples, short, tables, numbers, .. } = self;
        write!(f, "examples={examples} short={short} tables-to-the-bank-and-back={tables}")?;
        write!(f, " bank-readings={}", numbers.values().sum::<usize>())?;
        numbers.iter().try_for_each(|(number, count)| write!(f, " number-{number}={count}"))?;
        let fewest = KINDS.iter().map(|&kind| self.kinds.get(kind).copied().unwrap_or(0)).min();
        write!(f, " kinds={} fewest-of-a-kind={}", KINDS.len(), fewest.unwrap_or(0))
    }
}
