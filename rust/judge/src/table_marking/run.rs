//! A whole run over pairs of tables: examples, then random pairs, each as it is and damaged, and with the sheet's own key.

use super::check;
use super::counts::Counts;
use super::damage::damaged;
use super::examples;
use super::given::Given;
use crate::halves::{self, Tally};
use crate::library::TableMarker;
use crate::marking::pairs::Tables;
use crate::random::Random;

/// From so many pairs on a run has to meet every kind of call.
const ENOUGH: u64 = 5_000;

/// How often a pair is damaged.
const DAMAGED: usize = 3;

/// What was judged, or the first failure with its input.
pub fn all(library: &dyn TableMarker, seed: u64, count: u64) -> Result<Counts, String> {
    let mut counts = Counts::default();
    examples::all(library, &mut counts)?;
    let met = random(library, seed, count)?;
    if count >= ENOUGH {
        met.all_met()?;
    }
    counts.add(&met);
    Ok(counts)
}

/// Random pairs, of which every number is due.
pub fn random(library: &dyn TableMarker, seed: u64, count: u64) -> Result<Counts, String> {
    halves::both(count, |number, counts| numbered(library, seed, number, counts))
}

/// The pair with this number.
fn numbered(library: &dyn TableMarker, seed: u64, number: u64, counts: &mut Counts) -> Result<(), String> {
    let mut random = Random::new(seed, number);
    let tables = Tables::numbered(number, &mut random);
    let given = Given::sound(&tables, &mut random);
    let failed = |e| format!("seed {seed}, pair of tables {number}: {e}");
    check::tables(library, &given, &mut random, counts).map_err(failed)?;
    check::own_keys(library, tables.sheet, &mut random, counts).map_err(failed)?;
    for _ in 0..DAMAGED {
        let given = damaged(given.clone(), &mut random);
        check::tables(library, &given, &mut random, counts).map_err(failed)?;
    }
    Ok(())
}
