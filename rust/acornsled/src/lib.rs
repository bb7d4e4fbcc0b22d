//! Rule sheets, their keys and marked scripts, over `libacornsled.a`, whose every answer is proved.
//!
//! A *sheet* is a list of rules "one or two integer quantities, each with a sign, are together at most a bound" (UTVPI
//! inequalities); some quantities are hidden. [`key`] gives what a sheet implies for the visible ones alone, [`tight_key`] the
//! same with every rule that follows, each at its least bound, [`step`] the way to the first, block by block, [`mark`] the verdict
//! on a candidate's script, and [`ask`] says of each of some rules whether the sheet implies it. All work on texts held as bytes;
//! [`Table`] has the calls on tables, and with [`Table::text`] and [`Table::read_bank`] the one text that a table has in a bank
//! of sheets, which finds duplicates by bytes.
//!
//! ```no_run
//! let sheet = b"quantities=3\nhidden=2\nrules=3\nrule=+1+2:5\nrule=+1-2:2\nrule=+3-2:0\n";
//! let script = b"quantities=3\nhidden=2\nrules=1\nrule=+1:3\n";
//! match acornsled::mark(sheet, script) {
//!     Ok(verdict) => println!("{}", verdict.name()),
//!     Err(refused) => println!("{refused}"),
//! }
//! ```
//!
//! A call keeps nothing and shares nothing, so that any number of threads may call at once. [`calls`] has the same calls over
//! lent slices, with numbers as C gets them, and [`sys`] the declarations.

pub mod calls;
pub mod limits;
mod marking;
mod refusal;
mod rule;
pub mod sys;
mod table;

pub use marking::{mark, Paper, Refused, Verdict};
pub use refusal::Refusal;
pub use rule::Rule;
pub use table::{ask, key, step, tight_key, Table};
