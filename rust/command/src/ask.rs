//! `acornsled ask`: of each rule of a list whether all integers that satisfy a sheet meet it.

use crate::reason::written::Written;
use crate::source::{Held, Source};
use crate::status::Status;
use crate::{arguments, output, reason, usage};
use acornsled::{Refusal, Rule, Table};
use std::ffi::OsString;
use std::fmt;

/// The lines of a text before its rules.
const HEADER_LINES: usize = 3;

/// Which of the two texts a refusal is about.
#[derive(Clone, Copy, PartialEq, Eq, Debug)]
enum Paper {
    Sheet,
    Questions,
}

/// Why there are no answers.
enum Refused {
    /// a text is no sheet's; questions are written as one
    Text(Paper, Refusal),
    /// both texts are fine, and the questions cannot be put to a sheet of so many quantities
    Call(usize, Refusal),
}

/// Prints an answer to each question or the refusal, and tells why it is refused.
pub fn run(given: &[OsString]) -> Status {
    let files = match arguments::files(given, &usage::ASK, 2..=2) {
        Ok(files) => files,
        Err(status) => return status,
    };
    let [sheet, questions] = [files[0], files[1]].map(Source::of);
    if (sheet, questions) == (Source::Input, Source::Input) {
        return usage::wrong(usage::ASK.usage, "only one of the two can be standard input");
    }
    let sheet = sheet.paper(&Paper::Sheet.to_string());
    let questions = questions.paper(&Paper::Questions.to_string());
    match answers(&sheet.bytes, &questions.bytes) {
        Ok(answers) => output::answer(lines(&answers).as_bytes()),
        Err(refused) => {
            let printed = output::answer(refused.lines().as_bytes());
            refused.tell(&sheet, &questions);
            printed.max(sheet.status).max(questions.status).max(Status::Refused)
        }
    }
}

/// The library reads both texts, and the rules go to it as they are written, in the order of their lines.
fn answers(sheet: &[u8], questions: &[u8]) -> Result<Vec<bool>, Refused> {
    let table = Table::read(sheet).map_err(|refusal| Refused::Text(Paper::Sheet, refusal))?;
    let written = Written::of(questions, acornsled::Paper::Sheet);
    let written = written.map_err(|refusal| Refused::Text(Paper::Questions, refusal))?;
    let rules: Vec<Rule> = written.rules.iter().map(|(_, rule)| rule.rule()).collect();
    // a line that the library reads and this command does not would move all answers after it
    assert_eq!(rules.len() + HEADER_LINES, written.lines.count(), "every rule line that the library accepts is read");
    table.ask(&rules).map_err(|refusal| Refused::Call(table.quantities, refusal))
}

/// What is printed for answers.
fn lines(answers: &[bool]) -> String {
    answers.iter().map(|&yes| if yes { "yes\n" } else { "no\n" }).collect()
}

impl Refused {
    fn refusal(&self) -> Refusal {
        match self {
            Refused::Text(_, refusal) | Refused::Call(_, refusal) => *refusal,
        }
    }

    fn paper(&self) -> Paper {
        match self {
            Refused::Text(paper, _) => *paper,
            Refused::Call(_, Refusal::NoAssignment) => Paper::Sheet,
            Refused::Call(..) => Paper::Questions,
        }
    }

    /// What is printed for a refusal.
    fn lines(&self) -> String {
        let refusal = self.refusal();
        format!("refused={}\npaper={}\nline={}\n", refusal.number(), self.paper(), refusal.line())
    }

    fn tell(&self, sheet: &Held, questions: &Held) {
        let held = if self.paper() == Paper::Sheet { sheet } else { questions };
        match *self {
            Refused::Call(n, refusal) if self.paper() == Paper::Questions => {
                output::tell(&reason::of_questions(&held.name, &held.bytes, n, refusal).to_string());
            }
            // both are read by a sheet's limits
            Refused::Text(_, refusal) | Refused::Call(_, refusal) => {
                held.tell_refusal(acornsled::Refused { paper: acornsled::Paper::Sheet, refusal });
            }
        }
    }
}

impl fmt::Display for Paper {
    fn fmt(&self, f: &mut fmt::Formatter) -> fmt::Result {
        f.write_str(match self {
            Paper::Sheet => "sheet",
            Paper::Questions => "questions",
        })
    }
}
