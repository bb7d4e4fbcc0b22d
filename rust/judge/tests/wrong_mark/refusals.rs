//! The refusals in document 01's order, and the mistakes in them.

use super::{Trap, Wrong};
use judge::graph::Closure;
use judge::library::{LOOSE, MISMATCH};
use judge::marking::due::rules;
use judge::text::paper::Paper;
use judge::text::written::Written;

impl Wrong {
    /// What the two texts say, or the number with which they are refused.
    pub fn accepted(&self, sheet: &[u8], script: &[u8]) -> Result<(Paper, Paper), u32> {
        let said = self.sheet(sheet);
        let answered = self.script(script, said.as_ref().ok());
        let (said, answered) = match (said, answered) {
            (Ok(said), Ok(answered)) => (said, answered),
            (Err(first), Err(second)) => return Err(self.first_of(first, second)),
            (Ok(_), Err(_)) if self.trap == Trap::HeaderFirst && header(sheet) != header(script) => {
                return Err(MISMATCH)
            }
            (Ok(_), Err(refusal)) | (Err(refusal), Ok(_)) => return Err(refusal),
        };
        let without = Closure::of(said.n, &rules(&said, &said).sheet).is_none();
        if self.trap == Trap::VerdictFirst && without && self.mismatch(&said, &answered) {
            return Err(LOOSE);
        }
        match self.mismatch(&said, &answered) {
            true => Err(MISMATCH),
            false => Ok((said, answered)),
        }
    }

    fn first_of(&self, sheet: u32, script: u32) -> u32 {
        match self.trap {
            Trap::ScriptFirst => script,
            Trap::SmallerFirst => sheet.min(script),
            _ => sheet,
        }
    }

    fn mismatch(&self, sheet: &Paper, script: &Paper) -> bool {
        let names_hidden = |rule: &Written| rule.rule().term.names(sheet.hidden) && !self.passes(rule);
        sheet.n != script.n && self.trap != Trap::PassesN
            || sheet.hidden != script.hidden && self.trap != Trap::PassesHidden
            || script.rules.iter().any(names_hidden)
    }

    fn passes(&self, rule: &Written) -> bool {
        match self.trap {
            Trap::PassesRule => true,
            Trap::PassesDoubledRule => rule.second == Some(rule.first),
            _ => false,
        }
    }
}

/// The first two lines.
fn header(text: &[u8]) -> Vec<&[u8]> {
    text.split(|&byte| byte == b'\n').take(2).collect()
}
