//! A whole run over texts: examples, all short values, then random texts and tables, each as it is and damaged.

use super::calls::table_length;
use super::check;
use super::counts::Counts;
use super::damage;
use super::drafts;
use super::examples;
use super::noise;
use super::paper::Paper;
use super::rounds;
use super::short;
use super::tables;
use crate::halves::{self, Tally};
use crate::library::Texts;
use crate::meaning::{size, MOST_QUANTITIES};
use crate::random::Random;

/// From so many texts on a run has to meet every kind of reply.
const ENOUGH: u64 = 2_000;

/// How often a text is damaged anew. There are many more ways to be wrong than to be right.
const DAMAGED: usize = 3;

/// What was judged, or the first failure with its input.
pub fn all(library: &dyn Texts, seed: u64, count: u64) -> Result<Counts, String> {
    let mut counts = Counts::default();
    examples::all(library, &mut counts)?;
    short::all(library, &mut counts)?;
    let met = random(library, seed, count)?;
    if count >= ENOUGH {
        met.all_kinds_met()?;
    }
    counts.add(&met);
    Ok(counts)
}

/// Random texts and tables, of which every reply is due in full.
pub fn random(library: &dyn Texts, seed: u64, count: u64) -> Result<Counts, String> {
    halves::both(count, |number, counts| numbered(library, seed, number, counts))
}

/// The text and the table with this number.
fn numbered(library: &dyn Texts, seed: u64, number: u64, counts: &mut Counts) -> Result<(), String> {
    let mut random = Random::new(seed, number);
    let paper = drafts::any(&mut random);
    rounds::text(library, &paper, &mut random, counts).map_err(|e| format!("seed {seed}, text {number}: {e}"))?;
    for _ in 0..DAMAGED {
        damaged_text(library, &paper, &mut random, counts)
            .map_err(|e| format!("seed {seed}, text {number}, damaged: {e}"))?;
    }
    let given = tables::sound(&mut random);
    rounds::table(library, &given, &mut random, counts).map_err(|e| format!("seed {seed}, table {number}: {e}"))?;
    let given = tables::damaged(given, &mut random);
    check::write(library, &given, &mut random, counts)
        .map_err(|e| format!("seed {seed}, table {number}, damaged: {e}"))?;
    Ok(())
}

/// A damaged text. At times the table is too short as well, which is to be seen last.
fn damaged_text(library: &dyn Texts, paper: &Paper, random: &mut Random, counts: &mut Counts) -> Result<(), String> {
    let text = match random.below(30) {
        0 => noise::any(random),
        1 => noise::swollen(paper, random),
        _ => damage::damaged(paper, random),
    };
    // n may have become larger, so that room for all has to be lent at times
    let table = match random.chance(50) {
        true => table_length(paper.n, random),
        false => size(MOST_QUANTITIES),
    };
    check::read(library, &text, table, random, counts).map(|_| ())
}
