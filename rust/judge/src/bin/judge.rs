//! judge [SEED [COUNT]]: judges the linked library on COUNT random sheets, then on a quarter as many pairs of sheets, hiding steps
//! and lists of questions, on COUNT random texts, on a quarter as many bank sheets, on COUNT random pairs of texts, on which the
//! crate's enums are judged too, and on a quarter as many random pairs of tables; what the built programs print on a tenth as many
//! sheets and pairs, and what the command `acornsled` says on these. Prints a line for each; at the first failure it prints what
//! failed and the input, and exits with 1.

use judge::alike;
use judge::asking;
use judge::banking;
use judge::command;
use judge::command::program::Acornsled;
use judge::enums;
use judge::linked::Linked;
use judge::marking;
use judge::printed;
use judge::printed::programs::Built;
use judge::run;
use judge::stepping;
use judge::table_marking;
use judge::text;
use std::env;
use std::fmt::Display;
use std::process::exit;

const SEED: u64 = 1;
const COUNT: u64 = 20_000;

/// Keys of pairs of sheets are made as those of one sheet, so that fewer of them are enough.
const ALIKE_SHARE: u64 = 4;

/// A step is tried with several numbers of blocks.
const STEPPING_SHARE: u64 = 4;

/// A list has up to 64 questions, and is asked in several ways.
const ASKING_SHARE: u64 = 4;

/// Of each bank sheet several texts are made.
const BANKING_SHARE: u64 = 4;

/// Verdicts on tables are found as on texts, so that fewer of them are enough.
const TABLES_SHARE: u64 = 4;

/// A program takes about a millisecond to run, much more than a call.
const PRINTED_SHARE: u64 = 10;

fn main() {
    let given: Vec<String> = env::args().skip(1).collect();
    let number = |at: usize, default: u64| given.get(at).map_or(Ok(default), |word| word.parse());
    let (Ok(seed), Ok(count), true) = (number(0, SEED), number(1, COUNT), given.len() <= 2) else {
        eprintln!("judge [SEED [COUNT]]");
        exit(2);
    };
    // what is not there is told before anything else is judged
    let built = Built::found().unwrap_or_else(|failure| failed(&failure));
    let acornsled = Acornsled::found().unwrap_or_else(|failure| failed(&failure));
    report(seed, run::all(&Linked, seed, count));
    report(seed, alike::run::all(&Linked, seed, count / ALIKE_SHARE));
    report(seed, stepping::run::all(&Linked, seed, count / STEPPING_SHARE));
    report(seed, asking::run::all(&Linked, seed, count / ASKING_SHARE));
    report(seed, text::run::all(&Linked, seed, count));
    report(seed, banking::run::all(&Linked, seed, count / BANKING_SHARE));
    report(seed, marking::run::all(&Linked, seed, count));
    report(seed, table_marking::run::all(&Linked, seed, count / TABLES_SHARE));
    report(seed, enums::run::all(seed, count));
    report(seed, printed::run::all(&built, seed, count / PRINTED_SHARE));
    report(seed, command::run::all(&built, &acornsled, seed, count / PRINTED_SHARE));
}

fn report(seed: u64, judged: Result<impl Display, String>) {
    match judged {
        Ok(counts) => println!("judge: seed={seed} {counts} failures=0"),
        Err(failure) => failed(&failure),
    }
}

fn failed(failure: &str) -> ! {
    println!("judge: failed: {failure}");
    exit(1);
}
