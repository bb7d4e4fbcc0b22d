//! Marking two tables: which verdict or refusal is due, and what is tried on the call.
//!
//! A verdict is decided as for two texts (`marking`), on papers that write the tables' rules. What is judged here beside is
//! the order of the call's own refusals, and every lent word.

pub mod call;
pub mod check;
pub mod counts;
pub(crate) mod damage;
pub mod examples;
pub mod given;
pub mod run;
