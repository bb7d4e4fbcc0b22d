//! Calls judged: the reply, the words of the table, and every other lent word; of one step all tables after each other.

use super::call::StepCall;
use super::counts::Counts;
use super::due::{Owed, Tables};
use super::given::Given;
use super::series;
use crate::calls::{same_reply, same_words};
use crate::library::{Reply, Step, Stepper};
use crate::meaning::size;
use crate::plain;
use crate::random::Random;
use crate::sheets::Sheet;

/// The call in ordinary Rust as a library's.
pub struct Plain;

impl Stepper for Plain {
    fn step(&self, n: usize, step: Step, table: &mut [i64], workspace: &mut [i64]) -> Reply {
        let Step { before, quantity, blocks } = step;
        plain::step(n, before, quantity, blocks, table, workspace)
    }
}

/// Judges the call. Gives what was due.
pub fn call(library: &dyn Stepper, given: &Given, random: &mut Random, counts: &mut Counts) -> Result<Owed, String> {
    let owed = Owed::of(given).map_err(|e| format!("{e}\n{given}"))?;
    once(&Plain, given, &owed, random).map_err(|e| format!("the judges differ: plain: {e}\n{given}"))?;
    // on different memory, which has to make no difference
    for _ in 0..2 {
        once(library, given, &owed, random).map_err(|e| format!("{e}\n{given}"))?;
    }
    counts.call(given, &owed);
    Ok(owed)
}

fn once(library: &dyn Stepper, given: &Given, owed: &Owed, random: &mut Random) -> Result<(), String> {
    let mut call = StepCall::new(given, random);
    let reply = call.run(library);
    same_reply(reply, owed.reply())?;
    call.memory(reply)?;
    match owed {
        Owed::Refused(_) => Ok(()),
        Owed::Done(Tables { words, .. }) => same_words(call.table.left(), words),
    }
}

/// Judges the calls with every number of blocks on a sheet that has an assignment: what is to hold between their tables, then
/// the words of each.
pub fn step(library: &dyn Stepper, sheet: &Sheet, quantity: usize, random: &mut Random) -> Result<(), String> {
    let all: Vec<Given> = (0..=sheet.n + 1)
        .map(|blocks| Given::sound(sheet, Step { before: sheet.hidden, quantity, blocks }, random))
        .collect();
    let mut tables = vec![];
    for given in &all {
        let mut call = StepCall::new(given, random);
        let reply = call.run(library);
        same_reply(reply, crate::library::DONE).map_err(|e| format!("{e}\n{given}"))?;
        call.memory(reply).map_err(|e| format!("{e}\n{given}"))?;
        tables.push(call.table.left()[..size(sheet.n)].to_vec());
    }
    series::holds(sheet, quantity, &tables).map_err(|e| format!("{e}\n{}", all[0]))?;
    for (given, table) in all.iter().zip(&tables) {
        match Owed::of(given)? {
            Owed::Done(Tables { words, .. }) => same_words(table, &words).map_err(|e| format!("{e}\n{given}"))?,
            Owed::Refused(_) => return Err(format!("the judges differ: the sheet has an assignment\n{given}")),
        }
    }
    Ok(())
}
