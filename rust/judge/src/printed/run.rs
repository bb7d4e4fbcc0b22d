//! A whole run over printed answers: random pairs for *mark* and random sheets for *key*, each as it is and damaged; sheets
//! that perhaps mean the same, for *key*; and printed keys as scripts of their own sheets, for *mark*.

use super::alike;
use super::counts::Counts;
use super::inputs::{drawn, Input};
use super::key;
use super::mark;
use super::own;
use super::programs::Printer;
use crate::halves;
use crate::text::check::shown;

/// From so many pairs and sheets on a run has to meet every kind of answer.
const ENOUGH: u64 = 2_000;

/// One number of so many has two sheets more. It is odd, so that both threads come to them.
const ALIKE: u64 = 5;

/// What was judged, or the first failure with its input.
pub fn all(printer: &dyn Printer, seed: u64, count: u64) -> Result<Counts, String> {
    let counts = random(printer, seed, count)?;
    if count >= ENOUGH {
        counts.all_met()?;
    }
    Ok(counts)
}

/// Random pairs and sheets.
pub fn random(printer: &dyn Printer, seed: u64, count: u64) -> Result<Counts, String> {
    halves::both(count, |number, counts| numbered(printer, seed, number, counts))
}

/// The inputs with this number.
fn numbered(printer: &dyn Printer, seed: u64, number: u64, counts: &mut Counts) -> Result<(), String> {
    for input in drawn(seed, number) {
        match input {
            Input::Key(text) => sheet(printer, &text, counts),
            Input::Mark(sheet, script) => pair(printer, &sheet, &script, counts),
        }
        .map_err(|e| format!("seed {seed}, printed answer {number}: {e}"))?;
    }
    if number.is_multiple_of(ALIKE) {
        let kinds = alike::sheets(printer, seed, number);
        counts.answer(kinds.map_err(|e| format!("seed {seed}, printed keys {number}: {e}"))?);
        counts.sheets += 2;
    }
    Ok(())
}

fn pair(printer: &dyn Printer, sheet: &[u8], script: &[u8], counts: &mut Counts) -> Result<(), String> {
    let judged = printer.mark(sheet, script).and_then(|printed| mark::judged(sheet, script, &printed));
    counts.answer(judged.map_err(|e| format!("{e}\nsheet, {}\nscript, {}", shown(sheet), shown(script)))?);
    counts.pairs += 1;
    Ok(())
}

fn sheet(printer: &dyn Printer, text: &[u8], counts: &mut Counts) -> Result<(), String> {
    let stated = |e| format!("{e}\nsheet, {}", shown(text));
    let printed = printer.key(text).map_err(stated)?;
    counts.answer(key::judged(text, &printed).map_err(stated)?);
    counts.sheets += 1;
    if let Some(kind) = own::script(printer, text, &printed).map_err(stated)? {
        counts.answer(vec![kind]);
        counts.pairs += 1;
    }
    Ok(())
}
