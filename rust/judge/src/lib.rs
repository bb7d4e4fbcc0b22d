//! Judges Acornsled's static library from Rust: every reply of its calls, its number and its value, and every lent word
//! and byte, against document 01.
//!
//! What a sheet means is decided by enumeration on small sheets (`brute`) and by shortest paths on all (`graph`), and
//! neither eliminates a quantity. How far they are independent of the fact that hiding rests on, `graph` says. The key's
//! words are compared with document 01's steps, written by its own words (`naive`), and those of the tightest key with the
//! least bounds that both ways find; so is what the benchmark measures against, the library's design in ordinary Rust
//! (`plain`). Two sheets have one tightest key exactly where they mean the same (`alike`). The tables in the middle of a hiding
//! step are decided by the same sums, one block after another, and by what is to hold between them (`stepping`). The answers to
//! questions are decided by the same two ways as a sheet, on the questions as they are written (`asking`).
//!
//! What a text says is decided by spelling (`text`), and held against a parser in ordinary Rust (`plain_text`). Whether it is a bank
//! sheet is decided by a list of all terms, and by the text of its own table (`banking`).
//!
//! What a script is worth is decided by the same two ways as a sheet's meaning, and no key is made for it; the rule and the
//! integers of a verdict are held against the meaning, for two texts (`marking`) and for two tables (`table_marking`). All
//! calls that mark are held against the tightest tables of both papers in ordinary Rust (`plain_mark`, `plain_reasons`,
//! `plain_tables`).
//!
//! What hosts in Rust get by the crate's enums is held against the numbers (`enums`). What the programs print is judged to
//! the byte (`printed`), and what the command `acornsled` says is held against that (`command`).
//!
//! Most runs are made on two threads (`halves`). Beside the judge stand what the exam host uses (`held`), and the trial of
//! wrong programs on the crates' proofs (`wrong`).

pub mod alike;
pub mod asking;
pub mod banking;
pub mod brute;
pub mod calls;
pub mod check;
pub mod command;
pub mod counts;
pub mod damage;
pub mod document;
pub mod due;
pub mod enums;
pub mod graph;
pub mod halves;
pub mod held;
pub mod lent;
pub mod library;
pub mod linked;
pub mod marking;
pub mod meaning;
pub mod naive;
pub mod plain;
pub mod plain_mark;
pub mod plain_reasons;
pub mod plain_tables;
pub mod plain_text;
pub mod printed;
pub mod random;
pub mod run;
pub mod sheets;
#[cfg(feature = "plain")]
mod stand_in;
pub mod state;
pub mod stepping;
pub mod table_marking;
pub mod text;
pub mod wrong;
