//! A whole run over the crate's functions, on the texts that `marking` draws for the same seed.

use super::{ask, bank, mark, pair, step, table};
use crate::halves::{self, add_kinds, Tally};
use crate::marking::run::drawn;
use crate::random::Random;
use crate::text::check::shown;
use std::collections::BTreeMap;
use std::fmt;

/// What a run has judged: pairs of texts by their numbers, texts whose tables were tried, bank sheets, hiding steps on tables and
/// lists of questions to them by their numbers, pairs whose tables were marked.
#[derive(Default)]
pub struct Counts {
    pub numbers: BTreeMap<u32, usize>,
    pub tables: usize,
    pub banks: BTreeMap<u32, usize>,
    pub steps: BTreeMap<u32, usize>,
    pub lists: BTreeMap<u32, usize>,
    pub table_pairs: usize,
}

/// What was judged, or the first failure with its input.
pub fn all(seed: u64, count: u64) -> Result<Counts, String> {
    halves::both(count, |number, counts| numbered(seed, number, counts))
}

/// The texts of the pair with this number.
fn numbered(seed: u64, number: u64, counts: &mut Counts) -> Result<(), String> {
    let mut random = Random::new(seed, number);
    for (sheet, script) in drawn(number, &mut random) {
        let stated = |e: String| {
            format!("seed {seed}, enums of pair {number}: {e}\nsheet, {}\nscript, {}", shown(&sheet), shown(&script))
        };
        *counts.numbers.entry(mark::texts(&sheet, &script).map_err(stated)?).or_default() += 1;
        for text in [&sheet, &script] {
            counts.tables += usize::from(table::text(text, &mut random).map_err(stated)?);
            for (counted, numbers) in [
                (&mut counts.banks, bank::text(text, &mut random)),
                (&mut counts.steps, step::text(text, &mut random)),
                (&mut counts.lists, ask::text(text, &mut random)),
            ] {
                numbers.map_err(stated)?.into_iter().for_each(|number| *counted.entry(number).or_default() += 1);
            }
        }
        counts.table_pairs += usize::from(pair::texts(&sheet, &script, &mut random).map_err(stated)?);
    }
    Ok(())
}

impl Tally for Counts {
    fn add(&mut self, other: &Counts) {
        self.tables += other.tables;
        self.table_pairs += other.table_pairs;
        add_kinds(&mut self.numbers, &other.numbers);
        add_kinds(&mut self.banks, &other.banks);
        add_kinds(&mut self.steps, &other.steps);
        add_kinds(&mut self.lists, &other.lists);
    }
}

impl fmt::Display for Counts {
    fn fmt(&self, f: &mut fmt::Formatter) -> fmt::Result {
        write!(f, "enums-of-pairs={}", self.numbers.values().sum::<usize>())?;
        self.numbers.iter().try_for_each(|(number, count)| write!(f, " number-{number}={count}"))?;
        write!(f, " enums-of-tables={} enums-of-table-pairs={}", self.tables, self.table_pairs)?;
        write!(f, " enums-of-bank-sheets={}", self.banks.values().sum::<usize>())?;
        write!(f, " enums-of-steps={}", self.steps.values().sum::<usize>())?;
        write!(f, " enums-of-lists={}", self.lists.values().sum::<usize>())
    }
}
