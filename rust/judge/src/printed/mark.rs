//! What *mark* has to print for the texts of a sheet and a script.

use super::lines;
use crate::library::{BOTH, SCRIPT};
use crate::marking::due::{self, Beside};
use crate::marking::shown::Shown;

/// Of the kinds of an equal script the one that a sheet's text could not spell.
const OWN_FAR_KEY: &str = "equal, own key past a sheet's limit";

/// Judges what is printed. Gives the kinds of the answer, of which a run has to meet all.
pub fn judged(sheet: &[u8], script: &[u8], printed: &[u8]) -> Result<Vec<String>, String> {
    let due = due::of(sheet, script)?;
    match due.beside {
        Beside::Refused { paper, line } => refused(printed, due.number, paper, line),
        Beside::Equal => {
            lines::same(printed, "verdict=equal\n")?;
            let own = due.kinds.into_iter().filter(|kind| kind == OWN_FAR_KEY);
            Ok(own.chain(["equal".into()]).collect())
        }
        Beside::Shown(shown) => verdict(printed, &shown),
    }
}

fn refused(printed: &[u8], number: u32, paper: u32, line: usize) -> Result<Vec<String>, String> {
    let paper = match paper {
        BOTH => "both",
        SCRIPT => "script",
        _ => "sheet",
    };
    lines::same(printed, format!("refused={number}\npaper={paper}\nline={line}\n"))?;
    Ok(vec![format!("refused {number}, {paper}")])
}

/// The integers of a loose or tight verdict are read off and spelled again; all else is due to the byte.
fn verdict(printed: &[u8], shown: &Shown) -> Result<Vec<String>, String> {
    let rule = shown.rule().map_or(String::new(), |rule| rule.to_string());
    let values = lines::integers(printed, 3);
    lines::same(printed, format!("verdict={}\nrule={rule}\n{}", shown.name, lines::spelled(&values)))?;
    shown.integers(&values)?;
    shown.kinds(&values)
}
