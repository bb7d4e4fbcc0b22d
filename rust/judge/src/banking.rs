//! Bank sheets (document 02, request 5): what is due of bank reading, and what is tried on the call.
//!
//! Where ordinary reading would end is `text`'s to say. Which of the rules before that is the first that a bank sheet may
//! not have there is decided in two ways that have to agree (`due`): by where its term stands in a list of all terms,
//! spelled one after the other by document 01's words (`list`), and by whether the rules up to it are just those that the
//! writer would put down for what they say. Of a bank sheet that was changed at some rules, what is due is also known from
//! the changes (`changes`). Beside that stands what is to hold between bank reading and the other calls on texts, whatever
//! is due (`holds`).

pub mod call;
pub mod changes;
pub mod check;
pub mod counts;
pub mod cut;
pub mod due;
pub mod examples;
pub mod holds;
pub mod inputs;
pub(crate) mod kinds;
pub mod list;
pub mod run;
pub mod short;
