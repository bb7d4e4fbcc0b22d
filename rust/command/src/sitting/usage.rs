//! How `acornsled sitting` is used.

use crate::usage::Page;

pub const SITTING: Page = Page {
    usage: "\
usage: acornsled sitting [OPTION ..] SHEET FOLDER
       acornsled sitting [OPTION ..] --scripts SHEET [SCRIPT ..]
       acornsled sitting [OPTION ..] --list SHEET < NAMES
       acornsled sitting [OPTION ..] --list0 SHEET < NAMES
",
    help: include_str!("usage.txt"),
};
