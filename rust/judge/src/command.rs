//! The command `acornsled`, held against the proved programs *key* and *mark*: standard output byte for byte what they
//! print, and the exit status and standard error that belong to it. What `ask`, `steps` and `bank` print, which no program does, is
//! held against the answers that `asking` finds, against document 01's own sums, and against its list of terms.

pub mod answer;
pub mod ask;
pub mod bank;
pub mod program;
pub mod run;
pub mod steps;
mod stored;
