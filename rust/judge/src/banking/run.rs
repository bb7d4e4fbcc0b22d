//! A whole run over bank sheets: examples, all orders of a few rules and all short lines, then random tables, each written
//! and read by the bank, changed in ways of which it is known what is due, and made into other texts, on two threads at
//! once.

use super::changes::{self, Changed};
use super::check;
use super::counts::Counts;
use super::{examples, holds, inputs, list, short};
use crate::calls::same_reply;
use crate::halves::{self, Tally};
use crate::library::{too_short, BankReader, DONE};
use crate::meaning::{size, MOST_QUANTITIES};
use crate::random::Random;
use crate::sheets::Sheet;
use crate::text::calls::table_length;
use crate::text::check::shown;

/// From so many bank sheets on a run has to meet every kind of text.
const ENOUGH: u64 = 5_000;

/// How often a sheet is changed, and how often another text is made of it.
const CHANGED: usize = 3;
const OTHERS: usize = 2;

/// What was judged, or the first failure with its input.
pub fn all(library: &dyn BankReader, seed: u64, count: u64) -> Result<Counts, String> {
    let mut counts = Counts::default();
    examples::all(library, &mut counts)?;
    short::all(library, &mut counts)?;
    let met = random(library, seed, count)?;
    if count >= ENOUGH {
        met.all_met()?;
    }
    counts.add(&met);
    Ok(counts)
}

/// Random bank sheets, and what is made of them.
pub fn random(library: &dyn BankReader, seed: u64, count: u64) -> Result<Counts, String> {
    halves::both(count, |number, counts| numbered(library, seed, number, counts))
}

/// The bank sheet with this number.
fn numbered(library: &dyn BankReader, seed: u64, number: u64, counts: &mut Counts) -> Result<(), String> {
    let mut random = Random::new(seed, number);
    let sheet = inputs::sheet(&mut random);
    let failed = |e| format!("seed {seed}, bank sheet {number}: {e}");
    own(library, &sheet, &mut random, counts).map_err(failed)?;
    for _ in 0..CHANGED {
        changed(library, &sheet, &mut random, counts).map_err(failed)?;
    }
    for _ in 0..OTHERS {
        let text = inputs::text(&sheet, &mut random);
        // n may have become larger, so that room for all has to be lent at times
        let table = match random.chance(50) {
            true => table_length(sheet.n, &mut random),
            false => size(MOST_QUANTITIES),
        };
        check::text(library, &text, table, &mut random, counts).map_err(failed)?;
    }
    Ok(())
}

/// A table's own text, by the list of terms and by the library's writer, which the bank reads as the table.
fn own(library: &dyn BankReader, sheet: &Sheet, random: &mut Random, counts: &mut Counts) -> Result<(), String> {
    let text = list::text(sheet).into_bytes();
    let due = Changed { text: text.clone(), refusal: None };
    stated(library, sheet, &due, random, counts)?;
    let there = |e| format!("there and back: {e}\n{}", shown(&text));
    let made = holds::there_and_back(library, sheet).map_err(there)?;
    if made != text {
        return Err(there(format!("the writer's text is {}", shown(&made))));
    }
    counts.tables += 1;
    Ok(())
}

fn changed(library: &dyn BankReader, sheet: &Sheet, random: &mut Random, counts: &mut Counts) -> Result<(), String> {
    let changed = changes::drawn(sheet, random);
    stated(library, sheet, &changed, random, counts)
}

/// A text of which it is known what is due.
fn stated(
    library: &dyn BankReader,
    sheet: &Sheet,
    Changed { text, refusal }: &Changed,
    random: &mut Random,
    counts: &mut Counts,
) -> Result<(), String> {
    let words = table_length(sheet.n, random);
    let room = if words < size(sheet.n) { too_short(size(sheet.n)) } else { DONE };
    let owed = check::text(library, text, words, random, counts)?;
    let due = owed.read().map_or_else(|refusal| refusal, |_| DONE);
    same_reply(due, refusal.unwrap_or(room))
        .map_err(|e| format!("the judges differ: by the change: {e}\n{}", shown(text)))
}
