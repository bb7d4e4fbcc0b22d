//! What is due of marking two texts.

use super::kinds;
use super::shown::Shown;
use super::verdict::Rules;
use crate::library::{Reply, BOTH, EQUAL, LOOSE, MISMATCH, SCRIPT, SHEET, TIGHT};
use crate::meaning::{size, Rule, MOST_QUANTITIES};
use crate::text::paper::Paper;
use crate::text::reader;
use crate::text::written::Written;

/// The number, what is due beside it, and of which kinds the call is.
pub struct Due {
    pub number: u32,
    pub beside: Beside,
    /// the sheet's n where both texts are read
    pub quantities: Option<usize>,
    pub kinds: Vec<String>,
    /// Is the verdict decided by enumeration too?
    pub enumerated: bool,
}

pub enum Beside {
    /// a refusal has a paper, and a line, 0 where there is none
    Refused { paper: u32, line: usize },
    /// an equal script has nothing
    Equal,
    /// a loose or tight one has a rule, and integers that show it
    Shown(Box<Shown>),
}

/// Reads the sheet, then the script, holds them against each other, and decides the verdict in every way there is. That
/// two ways differ is a failure of the judge.
pub fn of(sheet: &[u8], script: &[u8]) -> Result<Due, String> {
    match (read(sheet), read_script(script)) {
        (Err(refusal), script) => Ok(refused(refusal, SHEET, kinds::of_sheet(sheet, refusal, script.err()))),
        (Ok(sheet), Err(refusal)) => Ok(refused(refusal, SCRIPT, kinds::of_script(&sheet, script, refusal))),
        (Ok(sheet), Ok(script)) => match mismatch(&sheet, &script) {
            Some(kinds) => {
                let beside = Beside::Refused { paper: BOTH, line: 0 };
                Ok(Due { number: MISMATCH, beside, quantities: Some(sheet.n), kinds, enumerated: false })
            }
            None => fitting(&sheet, &script),
        },
    }
}

/// What a sheet's text says, or its refusal. Room for every table is lent.
pub fn read(text: &[u8]) -> Result<Paper, Reply> {
    reader::due(text, size(MOST_QUANTITIES)).map_err(|refusal| refusal.reply)
}

/// What a script's text says, or its refusal.
pub fn read_script(text: &[u8]) -> Result<Paper, Reply> {
    reader::script(text).map_err(|refusal| refusal.reply)
}

/// One of the texts is refused.
fn refused(Reply { number, value: line }: Reply, paper: u32, kinds: Vec<String>) -> Due {
    Due { number, beside: Beside::Refused { paper, line }, quantities: None, kinds, enumerated: false }
}

/// Of which kinds a script is that does not fit the sheet, none where it does.
fn mismatch(sheet: &Paper, script: &Paper) -> Option<Vec<String>> {
    let reasons = [
        (sheet.n != script.n, "n"),
        (sheet.hidden != script.hidden, "hidden"),
        (script.rules.iter().any(|rule| rule.rule().term.names(sheet.hidden)), "rule"),
    ];
    let met: Vec<&str> = reasons.iter().filter(|(met, _)| *met).map(|&(_, reason)| reason).collect();
    (!met.is_empty()).then(|| kinds::of_mismatch(&rules(sheet, script), &met))
}

/// The rules of a sheet and of a script, as both are written.
pub fn rules(sheet: &Paper, script: &Paper) -> Rules {
    Rules { n: sheet.n, hidden: sheet.hidden, sheet: written(sheet), script: written(script) }
}

fn written(paper: &Paper) -> Vec<Rule> {
    paper.rules.iter().map(Written::rule).collect()
}

/// The verdict on a script that fits the sheet.
pub fn fitting(sheet: &Paper, script: &Paper) -> Result<Due, String> {
    let rules = rules(sheet, script);
    let difference = rules.by_paths();
    let enumerated = rules.small();
    if enumerated && rules.by_trying() != difference {
        return Err("the judges differ: enumeration and shortest paths on a verdict".into());
    }
    let number = difference.number();
    let mut kinds = kinds::of_verdict(&rules, difference, enumerated);
    if number == EQUAL {
        kinds.extend(kinds::of_own_key(sheet, script)?);
    }
    let beside = match number {
        LOOSE => Beside::Shown(Box::new(Shown::loose(sheet, script, difference.narrow)?)),
        TIGHT => Beside::Shown(Box::new(Shown::tight(sheet, script)?)),
        _ => Beside::Equal,
    };
    Ok(Due { number, beside, quantities: Some(sheet.n), kinds, enumerated })
}
