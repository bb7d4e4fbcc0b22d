//! Two sheets that perhaps mean the same, spelled in all the ways of a text: *key* prints the same bytes exactly where they do.

use super::key;
use super::programs::Printer;
use crate::alike::pair::Pair;
use crate::marking::spelling;
use crate::meaning::LIMIT;
use crate::random::Random;
use crate::text::check::shown;

/// Judges what is printed for the two sheets with this number. Gives the kinds of the answers.
pub fn sheets(printer: &dyn Printer, seed: u64, number: u64) -> Result<Vec<String>, String> {
    let mut random = Random::new(seed, number);
    let pair = Pair::numbered(number, &mut random)?;
    let texts = [&pair.one, &pair.other].map(|sheet| spelling::paper(sheet, LIMIT, &mut random).text());
    let stated = |e: String| format!("{e}\nsheet, {}\nsheet, {}", shown(&texts[0]), shown(&texts[1]));
    let [one, other] = [&texts[0], &texts[1]].map(|text| printer.key(text));
    let (one, other) = (one.map_err(stated)?, other.map_err(stated)?);
    let mut kinds = key::judged(&texts[0], &one).map_err(stated)?;
    kinds.extend(key::judged(&texts[1], &other).map_err(stated)?);
    match (pair.same, one == other) {
        (true, true) => kinds.push("keys, one meaning".into()),
        (false, false) => kinds.push("keys, two meanings".into()),
        (true, false) => return Err(stated("other bytes are printed, though both mean the same".into())),
        (false, true) => return Err(stated("the same bytes are printed, though the meaning is another".into())),
    }
    Ok(kinds)
}
