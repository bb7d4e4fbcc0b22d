//! The five calls on one table in ordinary Rust, as the library makes them: what its times are measured against. Hiding is
//! document 01's step. 'No assignment' is decided by a device of the program's own: each quantity is eliminated among the
//! later ones alone, which is less work and leaves what the choice of integers needs. A tightest key is the same in whatever
//! order it is made, so that there the hidden quantities are put first and eliminated in that way, and the decision needs no
//! work of its own. A hiding step is begun as hiding is, and its walk ends after some of the blocks. Questions are answered from
//! the tightest table with nothing hidden, each by one word.
//!
//! A quantity has a number from 0 here, and quantity k the literals 2k, for plus, and 2k + 1. One literal x stands at place
//! 2 (x/2)² + x%2; two literals x < y of different quantities stand at 2 (y/2)² + 2 + 2x + y%2.

mod ask;
pub(crate) mod choose;
mod order;
pub(crate) mod step;
pub mod tight;

use crate::library::{too_short, Reply, DONE, LIST_SIZE, NO_ASSIGNMENT, PAST_LIMIT, SIZE};
use crate::meaning::{LIMIT, MOST_QUANTITIES, MOST_QUESTIONS, NO_RULE};
use order::Order;

pub fn key(n: usize, hidden: u32, table: &mut [i64], workspace: &mut [i64]) -> Reply {
    let (table, workspace) = match accepted(n, hidden, table, workspace) {
        Ok(lent) => lent,
        Err(refusal) => return refusal,
    };
    workspace.copy_from_slice(table);
    if !step::eliminate(n, workspace) {
        return NO_ASSIGNMENT;
    }
    step::hide(n, table, (0..n).filter(|k| (hidden >> k) & 1 == 1));
    DONE
}

pub fn tight_key(n: usize, hidden: u32, table: &mut [i64], workspace: &mut [i64]) -> Reply {
    let (table, workspace) = match accepted(n, hidden, table, workspace) {
        Ok(lent) => lent,
        Err(refusal) => return refusal,
    };
    let order = Order::hidden_first(n, hidden);
    order.arrange(table, workspace);
    if !tight::tighten(n, workspace, order.hidden) {
        return NO_ASSIGNMENT;
    }
    order.restore(workspace, table);
    DONE
}

pub fn step(n: usize, before: u32, quantity: usize, blocks: usize, table: &mut [i64], workspace: &mut [i64]) -> Reply {
    let (table, workspace) = match accepted(n, before, table, workspace) {
        Ok(lent) => lent,
        Err(refusal) => return refusal,
    };
    if !(1..=n).contains(&quantity) || blocks > n + 1 {
        return PAST_LIMIT;
    }
    workspace.copy_from_slice(table);
    if !step::eliminate(n, workspace) {
        return NO_ASSIGNMENT;
    }
    step::hide(n, table, (0..n).filter(|k| (before >> k) & 1 == 1));
    step::begin(n, table, quantity - 1, blocks);
    DONE
}

pub fn assignment(n: usize, table: &[i64], workspace: &mut [i64], values: &mut [i64]) -> Reply {
    if let Err(refusal) = lengths(n, table, workspace) {
        return refusal;
    }
    if values.len() < n {
        return too_short(n);
    }
    let (table, workspace) = (&table[..2 * n * n], &mut workspace[..2 * n * n]);
    if !within(LIMIT, table) {
        return PAST_LIMIT;
    }
    workspace.copy_from_slice(table);
    if !step::eliminate(n, workspace) {
        return NO_ASSIGNMENT;
    }
    choose::values(n, workspace, &mut values[..n]);
    DONE
}

pub fn ask(n: usize, table: &[i64], questions: &[i64], workspace: &mut [i64], answers: &mut u64) -> Reply {
    if !is_size(n, table) {
        return SIZE;
    }
    if !(1..=MOST_QUESTIONS).contains(&(questions.len() / 3)) {
        return LIST_SIZE;
    }
    if workspace.len() < 2 * n * n {
        return too_short(2 * n * n);
    }
    let (table, workspace) = (&table[..2 * n * n], &mut workspace[..2 * n * n]);
    if !within(LIMIT, table) {
        return PAST_LIMIT;
    }
    if let Some(refusal) = ask::refused(n, questions) {
        return refusal;
    }
    workspace.copy_from_slice(table);
    if !tight::tighten(n, workspace, 0) {
        return NO_ASSIGNMENT;
    }
    let numbered = ask::each(questions).enumerate();
    *answers = numbered.fold(0, |yes, (at, question)| yes | u64::from(ask::answer(workspace, question)) << at);
    DONE
}

/// The words of the table and as many of the workspace, unless a call for a key refuses what it is given.
fn accepted<'a>(
    n: usize,
    hidden: u32,
    table: &'a mut [i64],
    workspace: &'a mut [i64],
) -> Result<(&'a mut [i64], &'a mut [i64]), Reply> {
    lengths(n, table, workspace)?;
    let (table, workspace) = (&mut table[..2 * n * n], &mut workspace[..2 * n * n]);
    // as 64 bits, for a 32-bit number cannot be shifted by 32
    if u64::from(hidden) >> n != 0 || !within(LIMIT, table) {
        return Err(PAST_LIMIT);
    }
    Ok((table, workspace))
}

/// The refusals that keys and assignments begin with.
fn lengths(n: usize, table: &[i64], workspace: &[i64]) -> Result<(), Reply> {
    if !is_size(n, table) {
        return Err(SIZE);
    }
    if workspace.len() < 2 * n * n {
        return Err(too_short(2 * n * n));
    }
    Ok(())
}

/// Is this a number of quantities, with a table that is large enough? n is tested first, so that 2n² cannot wrap.
fn is_size(n: usize, table: &[i64]) -> bool {
    (1..=MOST_QUANTITIES).contains(&n) && table.len() >= 2 * n * n
}

/// Is every bound at most this in magnitude?
pub(crate) fn within(limit: i64, table: &[i64]) -> bool {
    let held = |&bound: &i64| bound == NO_RULE || (-limit..=limit).contains(&bound);
    table.iter().all(held)
}
