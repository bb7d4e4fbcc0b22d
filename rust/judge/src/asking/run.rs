//! A whole run over lists of questions: examples, then random lists to random sheets, each as it is and damaged, on two threads
//! at once.

use super::check;
use super::counts::Counts;
use super::damage::damaged;
use super::examples;
use super::given::Given;
use super::lists;
use crate::halves::{self, Tally};
use crate::library::Asker;
use crate::random::Random;
use crate::sheets::Sheet;

/// From so many lists on a run has to meet every kind of call.
const ENOUGH: u64 = 5_000;

/// How often a list is damaged.
const DAMAGED: usize = 3;

/// What was judged, or the first failure with its input.
pub fn all(library: &dyn Asker, seed: u64, count: u64) -> Result<Counts, String> {
    let mut counts = Counts::default();
    examples::all(library, &mut counts)?;
    let met = random(library, seed, count)?;
    if count >= ENOUGH {
        met.all_met()?;
    }
    counts.add(&met);
    Ok(counts)
}

/// Random lists.
pub fn random(library: &dyn Asker, seed: u64, count: u64) -> Result<Counts, String> {
    halves::both(count, |number, counts| numbered(library, seed, number, counts))
}

/// The list with this number. Each third sheet is small enough for enumeration.
fn numbered(library: &dyn Asker, seed: u64, number: u64, counts: &mut Counts) -> Result<(), String> {
    let mut random = Random::new(seed, number);
    let sheet = match number % 3 {
        0 => Sheet::small(&mut random),
        _ => Sheet::any(&mut random),
    };
    let given = Given::sound(&sheet, &lists::drawn(&sheet, &mut random), &mut random);
    let failed = |e| format!("seed {seed}, list of questions {number}: {e}");
    check::list(library, &given, &mut random, counts).map_err(failed)?;
    for _ in 0..DAMAGED {
        let given = damaged(given.clone(), &mut random);
        check::list(library, &given, &mut random, counts).map_err(failed)?;
    }
    Ok(())
}
