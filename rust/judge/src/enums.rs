//! The crate `acornsled` as hosts in Rust use it: what its functions answer by enums, held against the numbers that its
//! calls give for the same texts and tables. The numbers are judged by `marking`, `text`, `banking`, `check`, `stepping` and `asking`.

pub mod ask;
pub mod bank;
pub mod mark;
pub mod pair;
pub mod run;
pub mod step;
pub mod table;
