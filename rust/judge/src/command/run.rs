//! A whole run over the command: the stored cases, then the inputs that the programs are judged on, for the same seed, and lists of
//! questions, hiding steps and bank sheets, about which no program prints anything.

use super::answer::{judged, Kind};
use super::ask;
use super::program::Acornsled;
use super::{bank, steps, stored};
use crate::halves::{self, Tally};
use crate::printed::inputs::{drawn, Input};
use crate::printed::programs::Printer;
use crate::text::check::shown;
use std::fmt;

/// From so many inputs on there have to be answers and refusals of each command.
const ENOUGH: u64 = 100;

#[derive(Default)]
pub struct Counts {
    stored: usize,
    /// answers and refusals of *key*, and of *mark*
    key: [usize; 2],
    mark: [usize; 2],
    /// the same of `ask`, and of `steps`, wrong use among what is no answer
    ask: [usize; 2],
    steps: [usize; 2],
    /// the same of `bank`; and of `bank --check`, at last with 9
    bank: [usize; 2],
    check: [usize; 3],
}

/// What was judged, or the first failure with its input.
pub fn all(printer: &dyn Printer, command: &Acornsled, seed: u64, count: u64) -> Result<Counts, String> {
    let stored = stored::all(printer, command)?.len();
    let counts = Counts { stored, ..random(printer, command, seed, count)? };
    let met = [&counts.key[..], &counts.mark, &counts.ask, &counts.steps, &counts.bank, &counts.check].concat();
    if count >= ENOUGH && met.contains(&0) {
        return Err(format!("not all is met: {counts}"));
    }
    Ok(counts)
}

fn random(printer: &dyn Printer, command: &Acornsled, seed: u64, count: u64) -> Result<Counts, String> {
    halves::both(count, |number, counts| {
        numbered(printer, command, seed, number, counts)?;
        asked(command, seed, number, counts)?;
        stepped(command, seed, number, counts)?;
        banked(command, seed, number, counts)
    })
}

/// The questions with this number.
fn asked(command: &Acornsled, seed: u64, number: u64, counts: &mut Counts) -> Result<(), String> {
    for [sheet, questions] in ask::drawn(seed, number) {
        let printed = ask::printed(&sheet, &questions)?;
        let said = command.ask(&sheet, &questions, number % 4 < 2)?;
        let kind = judged(printed.as_bytes(), &said, false).map_err(|e| {
            let texts = format!("sheet, {}\nquestions, {}", shown(&sheet), shown(&questions));
            format!("seed {seed}, command's questions {number}: {e}\n{texts}")
        })?;
        counts.ask[at(kind)] += 1;
    }
    Ok(())
}

/// The steps with this number.
fn stepped(command: &Acornsled, seed: u64, number: u64, counts: &mut Counts) -> Result<(), String> {
    for (sheet, quantity) in steps::drawn(seed, number) {
        let due = steps::due(&sheet, quantity.as_deref())?;
        let said = command.steps(&sheet, quantity.as_deref(), number % 4 < 2)?;
        let kind = steps::judged(&due, &said, false).map_err(|e| {
            format!("seed {seed}, command's steps {number}: {e}\nquantity {quantity:?}, sheet, {}", shown(&sheet))
        })?;
        counts.steps[at(kind)] += 1;
    }
    Ok(())
}

/// The bank sheet with this number, or what is none.
fn banked(command: &Acornsled, seed: u64, number: u64, counts: &mut Counts) -> Result<(), String> {
    let text = bank::drawn(seed, number);
    let fed = number % 8 < 4;
    let told = |e| format!("seed {seed}, command's bank sheet {number}: {e}\n{}", shown(&text));
    let kind = judged(bank::printed(&text).as_bytes(), &command.bank(&text, false, fed)?, false).map_err(told)?;
    counts.bank[at(kind)] += 1;
    let due = bank::checked(&text)?;
    let kind = judged(due.as_bytes(), &command.bank(&text, true, fed)?, false)
        .map_err(|e| told(format!("with --check: {e}")))?;
    counts.check[at(kind) + usize::from(due.starts_with("refused=9\n"))] += 1;
    Ok(())
}

/// The inputs with this number. A key is asked for on standard input and by a file's name.
fn numbered(
    printer: &dyn Printer,
    command: &Acornsled,
    seed: u64,
    number: u64,
    counts: &mut Counts,
) -> Result<(), String> {
    for input in drawn(seed, number) {
        match &input {
            Input::Key(text) => {
                let printed = printer.key(text)?;
                let both = [command.key(text)?, command.key_of_file(text)?];
                both.iter().try_for_each(|said| judged(&printed, said, false).map(|kind| counts.key[at(kind)] += 1))
            }
            Input::Mark(sheet, script) => {
                let printed = printer.mark(sheet, script)?;
                let said = command.mark(sheet, script)?;
                judged(&printed, &said, false).map(|kind| counts.mark[at(kind)] += 1)
            }
        }
        .map_err(|e| format!("seed {seed}, command {number}: {e}\n{}", texts(&input)))?;
    }
    Ok(())
}

fn at(kind: Kind) -> usize {
    usize::from(kind != Kind::Answer)
}

fn texts(input: &Input) -> String {
    match input {
        Input::Key(text) => format!("key, sheet, {}", shown(text)),
        Input::Mark(sheet, script) => format!("mark, sheet, {}\nscript, {}", shown(sheet), shown(script)),
    }
}

impl Tally for Counts {
    fn add(&mut self, other: &Counts) {
        for kind in 0..2 {
            self.key[kind] += other.key[kind];
            self.mark[kind] += other.mark[kind];
            self.ask[kind] += other.ask[kind];
            self.steps[kind] += other.steps[kind];
            self.bank[kind] += other.bank[kind];
        }
        (0..3).for_each(|kind| self.check[kind] += other.check[kind]);
    }
}

impl fmt::Display for Counts {
    fn fmt(&self, f: &mut fmt::Formatter) -> fmt::Result {
        let Counts { stored, key: [keys, no_keys], mark: [verdicts, refusals], .. } = self;
        let Counts { ask: [answered, unanswered], steps: [steps, no_steps], .. } = self;
        write!(f, "command-stored={stored} command-key={keys} refused={no_keys}")?;
        write!(f, " command-mark={verdicts} refused={refusals} command-ask={answered} refused={unanswered}")?;
        let Counts { bank: [banked, no_bank], check: [yes, refused, unordered], .. } = self;
        write!(f, " command-steps={steps} refused={no_steps} command-bank={banked} refused={no_bank}")?;
        write!(f, " command-check={yes} refused={refused} refused-with-9={unordered}")
    }
}
