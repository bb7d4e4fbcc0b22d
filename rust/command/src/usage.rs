//! How the commands are used: what is shown where the use is wrong, and the pages of help.

use crate::output::{say, tell};
use crate::status::Status;

pub const VERSION: &str = concat!("acornsled ", env!("CARGO_PKG_VERSION"), "\n");

pub const COMMAND: &str = "\
usage: acornsled key [FILE]
       acornsled mark SHEET SCRIPT
       acornsled sitting SHEET FOLDER
       acornsled ask SHEET QUESTIONS
       acornsled steps SHEET [QUANTITY]
       acornsled bank [--check] [FILE]
       acornsled explain [FILE]
       acornsled --help | --version
";

/// The help on all commands.
pub const HELP: &str = include_str!("usage/command.txt");

/// What is shown of one command.
pub struct Page {
    /// the arguments, in lines
    pub usage: &'static str,
    /// all of its help
    pub help: &'static str,
}

pub const KEY: Page = Page { usage: "usage: acornsled key [FILE]\n", help: include_str!("usage/key.txt") };
pub const MARK: Page = Page { usage: "usage: acornsled mark SHEET SCRIPT\n", help: include_str!("usage/mark.txt") };
pub const ASK: Page = Page { usage: "usage: acornsled ask SHEET QUESTIONS\n", help: include_str!("usage/ask.txt") };
pub const STEPS: Page =
    Page { usage: "usage: acornsled steps SHEET [QUANTITY]\n", help: include_str!("usage/steps.txt") };
pub const BANK: Page = Page { usage: "usage: acornsled bank [--check] [FILE]\n", help: include_str!("usage/bank.txt") };
pub const EXPLAIN: Page = Page { usage: "usage: acornsled explain [FILE]\n", help: include_str!("usage/explain.txt") };

/// Tells what is wrong with the arguments, and how the command is used.
pub fn wrong(usage: &str, what: &str) -> Status {
    tell(what);
    say(usage);
    Status::Failed
}

/// A number of things, with the word for one or for several.
pub fn counted(number: usize, one: &str, several: &str) -> String {
    format!("{number} {}", if number == 1 { one } else { several })
}
