//! One call judged: its reply, its answers, the words of the workspace, and every other lent word.

use super::call::AskCall;
use super::counts::Counts;
use super::due::Owed;
use super::given::Given;
use crate::calls::{same_reply, same_words};
use crate::library::{Asker, Reply};
use crate::plain;
use crate::random::Random;

/// The call in ordinary Rust as a library's.
pub struct Plain;

impl Asker for Plain {
    fn ask(&self, n: usize, table: &[i64], questions: &[i64], workspace: &mut [i64], answers: &mut u64) -> Reply {
        plain::ask(n, table, questions, workspace, answers)
    }
}

/// Judges the call. Gives what was due.
pub fn list(library: &dyn Asker, given: &Given, random: &mut Random, counts: &mut Counts) -> Result<Owed, String> {
    let owed = Owed::of(given).map_err(|e| format!("{e}\n{given}"))?;
    once(&Plain, given, &owed, random).map_err(|e| format!("the judges differ: plain: {e}\n{given}"))?;
    // on different memory, which has to make no difference
    for _ in 0..2 {
        once(library, given, &owed, random).map_err(|e| format!("{e}\n{given}"))?;
    }
    counts.call(given, &owed);
    Ok(owed)
}

fn once(library: &dyn Asker, given: &Given, owed: &Owed, random: &mut Random) -> Result<(), String> {
    let mut call = AskCall::new(given, random);
    let reply = call.run(library);
    same_reply(reply, owed.reply())?;
    call.memory(reply)?;
    match owed {
        Owed::Refused(_) if call.answers.within == call.before => Ok(()),
        Owed::Refused(_) => Err("the answers are changed, where nothing is due".into()),
        Owed::Answers(answers) => {
            same_answers(call.answers.within, answers.bits(), answers.yes.len())?;
            same_words(call.workspace.left(), &answers.tight).map_err(|e| format!("workspace: {e}"))
        }
    }
}

/// Each bit against the one that was due, those of no question too.
fn same_answers(found: u64, due: u64, count: usize) -> Result<(), String> {
    let word = |bits: u64, at: u32| if bits >> at & 1 == 1 { "yes" } else { "no" };
    let at = (found ^ due).trailing_zeros();
    match at as usize {
        64 => Ok(()),
        place if place >= count => Err(format!("bit {at} is set, which no question has")),
        _ => Err(format!("question {} of {count}: {}, due {}", at + 1, word(found, at), word(due, at))),
    }
}
