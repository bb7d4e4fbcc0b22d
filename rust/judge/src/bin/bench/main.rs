//! Times the linked library beside the same work in ordinary Rust, in one run: for each call a grid of n and of few rules
//! or all, then how the times grow with n. What is printed is Markdown. A time is no failure.

mod beyond;
mod cell;
mod grid;
mod large;
mod marks;
mod papers;
mod questions;
mod scripts;
mod sizes;
mod tables;
mod texts;
mod times;

use grid::{Call, Grid};
use times::{ROUNDS, TURNS};

const CALLS: [Call; 14] = [
    Call { name: "Reading the sheet", batches: texts::read_sheet, parts: 1 },
    Call { name: "Reading the script", batches: texts::read_script, parts: 1 },
    Call { name: "Bank reading the sheet", batches: texts::read_bank, parts: 1 },
    Call { name: "Key", batches: tables::key, parts: 1 },
    Call { name: "Tight key", batches: tables::tight_key, parts: 1 },
    Call { name: "Assignment", batches: tables::assignment, parts: 1 },
    Call { name: "Asking 64 questions", batches: tables::ask_all, parts: 1 },
    Call { name: "Asking 1 question", batches: tables::ask_one, parts: 1 },
    Call { name: "Verdict equal", batches: marks::equal, parts: 4 },
    Call { name: "Verdict loose", batches: marks::loose, parts: 4 },
    Call { name: "Verdict tight", batches: marks::tight, parts: 4 },
    Call { name: "Loose with its reasons", batches: marks::loose_with_reasons, parts: 4 },
    Call { name: "Tight with its reasons", batches: marks::tight_with_reasons, parts: 4 },
    Call { name: "Writing the sheet", batches: texts::write_sheet, parts: 1 },
];

/// What being in bank form costs: the library's bank reading beside its own ordinary reading.
const TWOFOLD: Call = Call { name: "Bank reading, ordinary reading", batches: texts::read_twofold, parts: 1 };

fn main() {
    let papers = papers::all();
    println!("Sparse: sheets of 2n rules at random places. Dense: sheets of 2n² rules, one at every place.");
    println!("Every second quantity is hidden. Sizes are means; the script here is the equal one, the sheet's key.");
    sizes::print(&papers);
    println!("\nTimes: library / plain Rust = ratio, in microseconds a call, medians of {} batches.", ROUNDS * TURNS);
    let grids = CALLS.map(|call| Grid::measured(call, &papers));
    grids.iter().for_each(Grid::print);
    println!("\nThe same sheets, both times by the library: bank reading / ordinary reading = ratio.");
    Grid::measured(TWOFOLD, &papers).print();
    beyond::print();
    large::print();
    println!("\nGrowth: by what factor the library's time grows from each n to the next, then that of plain Rust.");
    println!("\n| Growth | rules | 4 → 8 | 8 → 16 | 16 → 32 |\n|---|---|---|---|---|");
    sizes::print_growth(&papers);
    grids.iter().for_each(Grid::print_growth);
}
