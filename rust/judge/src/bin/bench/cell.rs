//! The papers of one n and one density, parted into batches, with the times that each batch has had so far.

use crate::papers::Pair;
use crate::times::{Batches, Times};

pub struct Cell<'a> {
    parts: Vec<(&'a [Pair], Vec<Batches>)>,
}

impl Cell<'_> {
    /// So many batches, none of them timed.
    pub fn parted(pairs: &[Pair], parts: usize) -> Cell<'_> {
        Cell { parts: pairs.chunks(pairs.len() / parts).map(|part| (part, Vec::new())).collect() }
    }

    /// Times each batch in one more round.
    pub fn round(&mut self, batches: fn(&[Pair]) -> Batches) {
        for (part, rounds) in &mut self.parts {
            rounds.push(batches(part));
        }
    }

    /// The mean over the parts of the medians of each.
    pub fn times(&self) -> Times {
        let medians: Vec<Times> = self.parts.iter().map(|(_, rounds)| Batches::medians(rounds)).collect();
        let mean = |side: fn(&Times) -> f64| medians.iter().map(side).sum::<f64>() / medians.len() as f64;
        Times { library: mean(|times| times.library), plain: mean(|times| times.plain) }
    }
}
