//! A whole run over pairs of sheets: the tightest keys of both, on two threads at once.

use super::counts::Counts;
use super::pair::Pair;
use crate::calls::same_reply;
use crate::halves;
use crate::library::{Key, Library, DONE};
use crate::meaning::size;
use crate::random::Random;
use crate::sheets::Sheet;

/// From so many pairs on a run has to meet every kind.
const ENOUGH: u64 = 1_000;

/// What was judged, or the first failure with its input.
pub fn all(library: &dyn Library, seed: u64, count: u64) -> Result<Counts, String> {
    let counts = random(library, seed, count)?;
    if count >= ENOUGH {
        counts.all_met()?;
    }
    Ok(counts)
}

/// Random pairs.
pub fn random(library: &dyn Library, seed: u64, count: u64) -> Result<Counts, String> {
    halves::both(count, |number, counts| {
        numbered(library, seed, number, counts).map_err(|e| format!("seed {seed}, pair of sheets {number}: {e}"))
    })
}

/// The pair with this number.
fn numbered(library: &dyn Library, seed: u64, number: u64, counts: &mut Counts) -> Result<(), String> {
    let pair = Pair::numbered(number, &mut Random::new(seed, number))?;
    let [plain, tight] = Key::BOTH.map(|key| same_words(library, key, &pair));
    if tight.map_err(|e| format!("{e}\n{pair}"))? != pair.same {
        let due = if pair.same { "the same" } else { "other" };
        return Err(format!("tight keys: {due} words are due, for the meaning is so\n{pair}"));
    }
    counts.pair(&pair, !plain.map_err(|e| format!("{e}\n{pair}"))?);
    Ok(())
}

/// Have the keys of both sheets the same words?
fn same_words(library: &dyn Library, key: Key, pair: &Pair) -> Result<bool, String> {
    let words = |sheet: &Sheet| {
        let (mut table, mut workspace) = (sheet.table.clone(), vec![0; size(sheet.n)]);
        let reply = library.keyed(key, sheet.n, sheet.hidden, &mut table, &mut workspace);
        same_reply(reply, DONE).map_err(|e| format!("{}: {e}", key.name()))?;
        Ok::<_, String>(table)
    };
    Ok(words(&pair.one)? == words(&pair.other)?)
}
