//! The times of a call for each n and each density, and how they grow with n.

use crate::cell::Cell;
use crate::papers::{Pair, Papers, DENSITIES, QUANTITIES};
use crate::times::{Batches, Times, ROUNDS};

/// A call as it is timed.
pub struct Call {
    pub name: &'static str,
    /// times batches with a call on each of these papers
    pub batches: fn(&[Pair]) -> Batches,
    /// how many batches the papers of one n and one density make: several where a call is long, for the machine may turn
    /// to other work within a batch
    pub parts: usize,
}

pub struct Grid {
    call: &'static str,
    rows: [[Times; DENSITIES.len()]; QUANTITIES.len()],
}

impl Grid {
    /// Times a call on all papers. A round goes through all n, so that other work of the machine slows them alike.
    pub fn measured(call: Call, papers: &Papers) -> Grid {
        let mut cells = papers.each_ref().map(|row| row.each_ref().map(|pairs| Cell::parted(pairs, call.parts)));
        for _ in 0..ROUNDS {
            cells.iter_mut().flatten().for_each(|cell| cell.round(call.batches));
        }
        Grid { call: call.name, rows: cells.map(|row| row.map(|cell| cell.times())) }
    }

    /// Prints a row for each n.
    pub fn print(&self) {
        println!("\n| {} | sparse | dense |\n|---|---|---|", self.call);
        for (n, [sparse, dense]) in QUANTITIES.iter().zip(&self.rows) {
            println!("| n = {n} | {sparse} | {dense} |");
        }
    }

    /// Prints for each density the factors from each n to the next.
    pub fn print_growth(&self) {
        for (at, (density, _)) in DENSITIES.iter().enumerate() {
            let factor = |step: &[[Times; 2]]| {
                let (from, to) = (step[0][at], step[1][at]);
                format!(" {:.1}, {:.1} |", to.library / from.library, to.plain / from.plain)
            };
            let factors: String = self.rows.windows(2).map(factor).collect();
            println!("| {} | {density} |{factors}", self.call);
        }
    }
}
