//! One pair of texts marked by both calls: the number, the reasons, and that no byte of the texts has changed.

use super::call::MarkCall;
use super::counts::Counts;
use super::due;
use super::reasons::{self, Owed};
use crate::library::Marker;
use crate::plain_mark::Plain;
use crate::random::Random;
use crate::text::check::shown;

/// Judges the marking of two texts, whatever they are. Gives the number that was due.
pub fn texts(
    library: &dyn Marker,
    sheet: &[u8],
    script: &[u8],
    random: &mut Random,
    counts: &mut Counts,
) -> Result<u32, String> {
    let stated = |e: String| format!("{e}\nsheet, {}\nscript, {}", shown(sheet), shown(script));
    let due = due::of(sheet, script).map_err(stated)?;
    let call = MarkCall::new(sheet, script, random);
    let owed = Owed::of(&due, reasons::length(&due, random));
    let mut both = |library| {
        marking(library, due.number, &call)?;
        owed.judged(library, &call, random).map_err(|e| format!("with reasons: {e}"))
    };
    // the library's times are measured against it
    both(&Plain).map_err(|e| stated(format!("the judges differ: plain: {e}")))?;
    let kinds = both(library).map_err(stated)?;
    counts.marking(&due);
    counts.reasons(owed.answer().number, kinds);
    Ok(due.number)
}

fn marking(library: &dyn Marker, due: u32, call: &MarkCall) -> Result<(), String> {
    let number = call.run(library);
    if number != due {
        return Err(format!("number {number}, due {due}"));
    }
    call.memory()
}
