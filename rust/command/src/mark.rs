//! `acornsled mark`: the verdict on a script, printed as document 01's program *mark* prints it.

use crate::source::{Held, Source};
use crate::status::Status;
use crate::{arguments, output, reason, shown, usage};
use acornsled::{Paper, Refused, Rule, Verdict};
use std::ffi::OsString;

/// Prints the verdict or the refusal, and tells why it is refused.
pub fn run(given: &[OsString]) -> Status {
    let files = match arguments::files(given, &usage::MARK, 2..=2) {
        Ok(files) => files,
        Err(status) => return status,
    };
    let [sheet, script] = [files[0], files[1]].map(Source::of);
    if (sheet, script) == (Source::Input, Source::Input) {
        return usage::wrong(usage::MARK.usage, "only one of the two can be standard input");
    }
    let [sheet, script] =
        [(Paper::Sheet, sheet), (Paper::Script, script)].map(|(paper, source)| source.paper(paper.name()));
    match acornsled::mark(&sheet.bytes, &script.bytes) {
        Ok(verdict) => output::answer(verdict_lines(&verdict).as_bytes()),
        Err(refused) => {
            let printed = output::answer(refused_lines(refused).as_bytes());
            tell_refusal(refused, &sheet, &script);
            printed.max(sheet.status).max(script.status).max(Status::Refused)
        }
    }
}

fn tell_refusal(refused: Refused, sheet: &Held, script: &Held) {
    match refused.paper {
        Paper::Sheet => sheet.tell_refusal(refused),
        Paper::Script => script.tell_refusal(refused),
        Paper::Both => {
            let told = reason::of_pair([&sheet.name, &script.name], [&sheet.bytes, &script.bytes], refused.refusal);
            output::tell(&told.to_string());
        }
    }
}

/// What is printed for a verdict.
fn verdict_lines(verdict: &Verdict) -> String {
    let named = format!("verdict={}\n", verdict.name());
    match verdict {
        Verdict::Equal => named,
        Verdict::Loose { rule, values } => named + &shown(rule.as_ref(), values),
        Verdict::Tight { rule, values } => named + &shown(Some(rule), values),
    }
}

/// The lines of the rule and of the integers that show a verdict.
fn shown(rule: Option<&Rule>, values: &[i64]) -> String {
    format!("{}\n{}\n", shown::rule(rule), shown::values(values))
}

/// What is printed for a refusal.
fn refused_lines(refused: Refused) -> String {
    let Refused { paper, refusal } = refused;
    format!("refused={}\npaper={paper}\nline={}\n", refusal.number(), refusal.line())
}
