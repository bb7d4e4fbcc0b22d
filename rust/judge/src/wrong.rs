//! Wrong programs tried on the proofs. An edit makes one function of a crate wrong; the check must then no longer prove that
//! function. Many edits are tried in one check of the crate, as far as none of them can be refused on behalf of another
//! (`rounds`), and always on a copy of the crates.

pub mod body;
pub mod edit;
pub mod log;
pub mod rounds;
pub mod tally;
pub mod trial;
