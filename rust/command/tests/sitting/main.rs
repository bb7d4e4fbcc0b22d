//! `acornsled sitting` as a program, held against tables and messages that are stated by hand.

mod arguments;
mod machine;
mod named;
mod names;
#[path = "../ordinary/mod.rs"]
mod ordinary;
mod parts;
mod progress;
mod room;
mod streams;
mod table;
#[path = "../temporary/mod.rs"]
mod temporary;
mod unread;
