//! Pairs of sheets with one n and one hidden set, both with an assignment: their tightest keys are the same exactly when they
//! allow the same visible integers (document 02, request 2). Whether they do is decided by least bounds, and on small sheets by
//! trying all integers.

pub mod counts;
pub mod pair;
pub mod run;
mod ways;
