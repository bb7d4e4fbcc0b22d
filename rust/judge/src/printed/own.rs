//! A printed key as a script of its own sheet: it is equal where its bounds are a script's, and else refused for the first that
//! is not.

use super::mark;
use super::programs::Printer;
use crate::text::reader;

/// Judges what *mark* prints for it, if a key is printed. Gives the kind of the answer.
pub fn script(printer: &dyn Printer, sheet: &[u8], printed: &[u8]) -> Result<Option<String>, String> {
    if printed.starts_with(b"refused=") {
        return Ok(None);
    }
    let stated = |e: String| format!("as its own script: {e}");
    let kinds = mark::judged(sheet, printed, &printer.mark(sheet, printed).map_err(stated)?).map_err(stated)?;
    let due = match reader::script(printed) {
        Ok(_) => "equal",
        Err(_) => "refused 3, script",
    };
    if !kinds.iter().any(|kind| kind == due) {
        return Err(format!("the judges differ: {due} is due of a sheet's own key"));
    }
    Ok(Some(format!("own key, {}", due.trim_end_matches(", script"))))
}
