//! Which edits are tried in one check. A function is proved over the contracts of what it calls, so that an edit within its
//! body fails no other proof: such edits share a round, one for each function. An edit of anything else, as of a definition
//! or a constant, has a round of its own.

use super::edit::{Edit, Files};
use std::collections::BTreeSet;

/// An edit that waits for its round.
pub struct Pending {
    pub edit: Edit,
    pub alone: bool,
}

/// Takes the next round off the edits that wait, and the files with its edits applied. Each edit that waits applies to the
/// files alone; one that does not apply beside those of the round waits on.
pub fn next(waiting: Vec<Pending>, files: &Files) -> (Vec<Pending>, Files, Vec<Pending>) {
    let (mut round, mut edited, mut rest) = (Vec::<Pending>::new(), files.clone(), Vec::new());
    let mut functions = BTreeSet::new();
    for pending in waiting {
        let fits = round.is_empty() || !(pending.alone || round[0].alone || functions.contains(&pending.edit.function));
        let mut with = edited.clone();
        if fits && pending.edit.apply(&mut with).is_ok() {
            edited = with;
            functions.insert(pending.edit.function.clone());
            round.push(pending);
        } else {
            rest.push(pending);
        }
    }
    (round, edited, rest)
}
