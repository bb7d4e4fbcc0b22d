//! How large the bounds of either paper may be, and the mistakes in it.

use super::{Trap, Wrong};
use judge::library::Reply;
use judge::marking::due::{read, read_script};
use judge::meaning::{largest_bound, script_limit, LIMIT};
use judge::text::paper::Paper;
use judge::text::reader;

/// Past every limit, and twice as much fits a word.
const ANY: i64 = 1 << 62;

impl Wrong {
    /// What the sheet's text says, or the number with which it is refused.
    pub fn sheet(&self, text: &[u8]) -> Result<Paper, u32> {
        let read = if self.trap == Trap::SheetAsScript { read_script } else { read };
        read(text).map_err(|refusal: Reply| refusal.number)
    }

    /// What the script's text says, or the number with which it is refused.
    pub fn script(&self, text: &[u8], sheet: Option<&Paper>) -> Result<Paper, u32> {
        let read = |most: &dyn Fn(u32) -> i64| reader::read(text, most).map_err(|refusal| refusal.reply.number);
        match self.trap {
            Trap::ScriptAsSheet => read(&|_| LIMIT),
            Trap::LimitBySheet => read(&|hidden| script_limit(sheet.map_or(hidden, |sheet| sheet.hidden))),
            Trap::LimitByN => read(&|_| LIMIT << n(text)),
            Trap::LimitDoubledOnce => read(&|hidden| if hidden == 0 { LIMIT } else { 2 * LIMIT }),
            Trap::LimitByLast => read(&|hidden| LIMIT << (u32::BITS - hidden.leading_zeros())),
            Trap::LimitIn32Bits => read(&|hidden| script_limit(hidden).min(i64::from(u32::MAX))),
            Trap::LimitMoved(by) => read(&|hidden| script_limit(hidden) + by),
            Trap::LimitHalved => read(&|_| ANY).and_then(|script| read(&|hidden| self.half(&script, hidden))),
            Trap::NegativeAsSheet => {
                let script = read(&script_limit)?;
                let below = script.rules.iter().any(|rule| rule.bound < -LIMIT);
                if below {
                    Err(3)
                } else {
                    Ok(script)
                }
            }
            _ => read(&script_limit),
        }
    }

    /// A limit that lets all bounds through where each is within a script's, those of doubled terms when they are halved.
    fn half(&self, script: &Paper, hidden: u32) -> i64 {
        let rules: Vec<_> = script.rules.iter().map(|rule| rule.rule()).collect();
        match largest_bound(&rules) > script_limit(hidden) as u64 {
            true => script_limit(hidden),
            false => ANY,
        }
    }
}

/// The number on the first line, 0 where there is none.
fn n(text: &[u8]) -> usize {
    let line = text.split(|&byte| byte == b'\n').next().map_or("".into(), String::from_utf8_lossy);
    line.split_once('=').and_then(|(_, n)| n.parse().ok()).unwrap_or(0)
}
