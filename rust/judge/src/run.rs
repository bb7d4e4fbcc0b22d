//! A whole run: document 01's examples, then random sheets, each called as it is and damaged, and some called again.

use crate::check;
use crate::counts::Counts;
use crate::damage;
use crate::document;
use crate::library::Library;
use crate::random::Random;
use crate::sheets::Sheet;
use crate::state;

/// One sheet of so many is called again. It is no multiple of 3, so that small sheets and others come in turn.
const REPEATED: u64 = 5;

/// What was judged, or the first failure with its input.
pub fn all(library: &dyn Library, seed: u64, count: u64) -> Result<Counts, String> {
    let mut counts = Counts::default();
    document::examples(library, &mut counts)?;
    for number in 0..count {
        numbered(library, seed, number, &mut counts)?;
    }
    Ok(counts)
}

/// The sheet with this number. Each third one is small enough for enumeration.
fn numbered(library: &dyn Library, seed: u64, number: u64, counts: &mut Counts) -> Result<(), String> {
    let mut random = Random::new(seed, number);
    let sheet = match number % 3 {
        0 => Sheet::small(&mut random),
        _ => Sheet::any(&mut random),
    };
    check::sheet(library, &sheet, &mut random, counts)
        .map_err(|e| format!("seed {seed}, sheet {number}: {e}\n{sheet}"))?;
    damage::all_calls(library, &sheet, &mut random, counts)
        .map_err(|e| format!("seed {seed}, sheet {number}, damaged: {e}"))?;
    if number.is_multiple_of(REPEATED) {
        state::none_kept(library, &sheet, &mut random, counts)
            .map_err(|e| format!("seed {seed}, sheet {number}, repeated: {e}"))?;
    }
    Ok(())
}
