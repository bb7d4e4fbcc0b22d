//! What a run over hiding steps has judged, for its one line of output, and whether every kind of call was among it.

use super::due::Owed;
use super::given::Given;
use super::kinds::{of_done, of_refused, KINDS};
use crate::brute;
use crate::halves::{add_kinds, Tally};
use crate::meaning::rules;
use std::collections::BTreeMap;
use std::fmt;

#[derive(Default)]
pub struct Counts {
    pub examples: usize,
    /// steps that were followed from no block to the end, and the tables of them
    pub followed: usize,
    pub tables: usize,
    /// other calls by the number of their reply; each is made twice
    numbers: BTreeMap<u32, usize>,
    kinds: BTreeMap<String, usize>,
}

impl Counts {
    pub fn call(&mut self, given: &Given, owed: &Owed) {
        *self.numbers.entry(owed.reply().number).or_default() += 1;
        let kinds = match owed {
            Owed::Refused(reply) => {
                let small = reply.number == 5 && brute::fits(given.n, &rules(given.n, &given.table));
                of_refused(given, small)
            }
            Owed::Done(tables) => of_done(given, tables),
        };
        kinds.into_iter().for_each(|kind| *self.kinds.entry(kind).or_default() += 1);
    }

    /// Nothing is shown by a run in which some kind of call was never met.
    pub fn all_met(&self) -> Result<(), String> {
        match KINDS.iter().find(|&&kind| !self.kinds.contains_key(kind)) {
            Some(kind) => Err(format!("no step was of the kind '{kind}'")),
            None => Ok(()),
        }
    }
}

impl Tally for Counts {
    fn add(&mut self, other: &Counts) {
        self.examples += other.examples;
        self.followed += other.followed;
        self.tables += other.tables;
        add_kinds(&mut self.numbers, &other.numbers);
        add_kinds(&mut self.kinds, &other.kinds);
    }
}

impl fmt::Display for Counts {
    fn fmt(&self, f: &mut fmt::Formatter) -> fmt::Result {
        let Counts { examples, followed, tables, numbers, .. } = self;
        write!(f, "examples={examples} steps={} followed={followed}", numbers.values().sum::<usize>())?;
        write!(f, " tables-of-them={tables}")?;
        numbers.iter().try_for_each(|(number, count)| write!(f, " number-{number}={count}"))?;
        let fewest = KINDS.iter().map(|&kind| self.kinds.get(kind).copied().unwrap_or(0)).min();
        write!(f, " kinds={} fewest-of-a-kind={}", KINDS.len(), fewest.unwrap_or(0))
    }
}
