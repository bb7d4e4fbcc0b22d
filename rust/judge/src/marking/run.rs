//! A whole run over pairs of texts: examples, then random pairs, each as it is and damaged, and some sheets' own keys.

use super::check;
use super::counts::Counts;
use super::damage;
use super::examples;
use super::own;
use super::pairs::Pair;
use crate::halves::{self, Tally};
use crate::library::Marker;
use crate::random::Random;

/// From so many pairs on a run has to meet every number and every kind of pair.
const ENOUGH: u64 = 5_000;

/// One sheet of so many is marked with its own keys. It is no multiple of 3, so that small sheets and others come in turn.
const OWN: u64 = 5;

/// How often a pair is damaged.
const DAMAGED: usize = 2;

/// What was judged, or the first failure with its input.
pub fn all(library: &dyn Marker, seed: u64, count: u64) -> Result<Counts, String> {
    let mut counts = Counts::default();
    examples::all(library, &mut counts)?;
    let met = random(library, seed, count)?;
    if count >= ENOUGH {
        met.all_met()?;
    }
    counts.add(&met);
    Ok(counts)
}

/// Random pairs, of which every number is due.
pub fn random(library: &dyn Marker, seed: u64, count: u64) -> Result<Counts, String> {
    halves::both(count, |number, counts| numbered(library, seed, number, counts))
}

/// The pair with this number.
fn numbered(library: &dyn Marker, seed: u64, number: u64, counts: &mut Counts) -> Result<(), String> {
    let mut random = Random::new(seed, number);
    let failed = |e| format!("seed {seed}, pair {number}: {e}");
    let pair = Pair::numbered(number, &mut random);
    for (sheet, script) in texts(&pair, &mut random) {
        check::texts(library, &sheet, &script, &mut random, counts).map_err(failed)?;
    }
    if number.is_multiple_of(OWN) {
        own::key_texts(library, &pair.sheet, &mut random, counts).map_err(failed)?;
    }
    Ok(())
}

/// The texts of the pair with this number, as it is and damaged.
pub fn drawn(number: u64, random: &mut Random) -> Vec<(Vec<u8>, Vec<u8>)> {
    texts(&Pair::numbered(number, random), random)
}

fn texts(pair: &Pair, random: &mut Random) -> Vec<(Vec<u8>, Vec<u8>)> {
    let mut texts = vec![(pair.sheet.text(), pair.script.text())];
    texts.extend((0..DAMAGED).map(|_| damage::damaged(pair, random)));
    texts
}
