//! A hiding step, one block after another (document 02, request 4): which table is due in the middle of it, and what is tried on
//! the call.
//!
//! The words are decided by document 01's own words, with those sums alone whose place lies in a block that is done (`due`). Beside
//! that stands what is to hold between the tables of one step, whatever makes them (`series`): which words a block may change, which
//! it leaves as the whole step does, and what each table means.

pub mod call;
pub mod check;
pub mod counts;
pub(crate) mod damage;
pub mod due;
pub mod examples;
pub mod given;
pub(crate) mod kinds;
pub mod run;
pub mod series;
