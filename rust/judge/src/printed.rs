//! The built programs *key* and *mark*: what is due of their standard output, and what is tried on them.
//!
//! Every printed byte is judged. All of it is due but the integers of a loose or tight verdict, which are free: these are
//! read off, and have to show the verdict, as `marking` decides.

mod alike;
pub mod counts;
pub(crate) mod folder;
pub(crate) mod inputs;
pub mod key;
pub(crate) mod lines;
pub mod mark;
mod own;
pub mod programs;
pub mod run;
