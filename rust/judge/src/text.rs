//! Texts: what is due of reading and writing, and what is tried on the two calls.
//!
//! What is due is decided by spelling. A line is read off without judging it and spelled again, and is well formed when
//! this gives its own bytes (`line`, `rule_line`); numbers are numerals of any length (`decimal`). Nothing walks over
//! the bytes of a line, as the library and `plain_text` do.

pub mod calls;
pub mod check;
pub mod counts;
pub mod damage;
mod damaged_bytes;
mod damaged_lines;
pub mod decimal;
pub mod drafts;
pub mod examples;
pub mod faults;
pub mod line;
pub mod noise;
pub mod paper;
pub mod reader;
pub mod refusal;
pub mod rounds;
pub mod rule_line;
pub mod run;
pub mod short;
pub mod tables;
pub mod writer;
pub mod written;
