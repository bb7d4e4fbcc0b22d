//! Marking two texts: which verdict or refusal is due, and what is tried on the call.
//!
//! What is due is decided by meaning, and no key is made: on small papers by trying all visible integers, with all
//! hidden ones for each (`brute`), and on all papers by the least bounds of the terms of visible quantities (`graph`).
//! Rules are taken as the texts write them, a doubled term with its own bound.
//!
//! The rule that a verdict names is found in the key by document 01's own words (`naive`), or in the script's table, and
//! which rule is the first that can be broken is decided by least bounds (`graph`), anew for each rule where quantities are
//! few, and by trying all integers where that is quick (`brute`).

pub mod call;
pub mod check;
pub mod counts;
pub mod damage;
pub mod due;
pub mod examples;
mod far;
mod first;
mod integers;
mod kinds;
pub mod mismatch;
mod own;
pub mod pairs;
pub mod reasons;
pub mod run;
pub mod scripts;
pub mod shown;
pub mod spelling;
pub mod verdict;
