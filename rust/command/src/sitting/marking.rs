//! The scripts marked, on several threads at once.

use super::fault;
use super::progress;
use super::text::text;
use crate::threads::with_room;
use acornsled::{Refused, Verdict};
use std::ffi::OsString;
use std::io;
use std::path::Path;
use std::sync::atomic::{AtomicUsize, Ordering};
use std::sync::OnceLock;
use std::thread;

/// A script by its name, and what came of it.
pub struct Row {
    pub name: OsString,
    pub marked: Marked,
}

/// A script that could not be read though it is not at fault.
pub struct Halt {
    pub name: OsString,
    pub fault: io::Error,
}

/// What came of a script.
pub struct Marked {
    pub answer: Result<Verdict, Refused>,
    /// why nothing could be read of it, where nothing could; an empty text was marked then
    pub unread: Option<io::Error>,
}

/// A row for each of the scripts, in the order of the names; or the first script at which there is no going on.
pub fn rows(sheet: &[u8], folder: &Path, names: Vec<OsString>) -> Result<Vec<Row>, Halt> {
    let places: Vec<OnceLock<io::Result<Marked>>> = names.iter().map(|_| OnceLock::new()).collect();
    let (next, done) = (AtomicUsize::new(0), AtomicUsize::new(0));
    // whoever is done takes the next script of the list, so that a slow one holds up nobody else
    let work = || {
        while let Some(at) = taken(&next, names.len()) {
            let marked = marked(sheet, &folder.join(&names[at]));
            if marked.is_err() {
                // there will be no table, so that nobody takes another one
                next.store(names.len(), Ordering::Relaxed);
            }
            // nobody else has taken this place, so that it is empty
            let _ = places[at].set(marked);
            done.fetch_add(1, Ordering::Relaxed);
        }
    };
    progress::shown(&done, names.len(), || on_all_cores(names.len(), &work));
    // places are taken in their order, so that those up to the first error were, and none after it is looked at
    let filled = places.into_iter().map(|place| place.into_inner().expect("it was taken, and the work has ended"));
    let rows = names.into_iter().zip(filled).map(|(name, marked)| match marked {
        Ok(marked) => Ok(Row { name, marked }),
        Err(fault) => Err(Halt { name, fault }),
    });
    rows.collect()
}

/// One script marked, where it can be read or is itself the reason that it cannot.
fn marked(sheet: &[u8], script: &Path) -> io::Result<Marked> {
    match text(script) {
        Ok(text) => Ok(Marked { answer: acornsled::mark(sheet, &text), unread: None }),
        Err(fault) if fault::is_the_scripts(&fault) => {
            Ok(Marked { answer: acornsled::mark(sheet, b""), unread: Some(fault) })
        }
        Err(fault) => Err(fault),
    }
}

/// Does the work on as many threads as there are cores, but no more than there are scripts.
fn on_all_cores(scripts: usize, work: &(impl Fn() + Sync)) {
    let threads = thread::available_parallelism().map_or(1, usize::from);
    thread::scope(|scope| {
        for _ in 1..threads.min(scripts) {
            // this thread works too, so that one which cannot be started is done without
            let _ = with_room().spawn_scoped(scope, work);
        }
        work();
    });
}

/// The next place of a list of this length that nobody has taken.
fn taken(next: &AtomicUsize, length: usize) -> Option<usize> {
    let at = next.fetch_add(1, Ordering::Relaxed);
    (at < length).then_some(at)
}
