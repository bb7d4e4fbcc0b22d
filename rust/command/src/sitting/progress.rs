//! How far a long sitting is, on standard error: in place at a terminal, else in lines, few enough for a log.

use crate::output::{say, tell};
use crate::threads::with_room;
use std::io::{self, IsTerminal};
use std::sync::atomic::{AtomicUsize, Ordering};
use std::sync::mpsc::{self, Receiver, RecvTimeoutError};
use std::thread;
use std::time::Duration;

/// What is over before this says nothing.
const FIRST: Duration = Duration::from_secs(1);
/// Between two looks, at a terminal and elsewhere.
const AT_A_TERMINAL: Duration = Duration::from_millis(200);
const IN_A_LOG: Duration = Duration::from_secs(10);

/// Does the work, and shows how many scripts are done meanwhile.
pub fn shown(done: &AtomicUsize, scripts: usize, work: impl FnOnce()) {
    let (working, ended) = mpsc::channel();
    thread::scope(|scope| {
        // where this thread cannot be started, nothing is shown
        let _ = with_room().spawn_scoped(scope, move || show(done, scripts, &ended));
        work();
        drop(working);
    });
}

/// Shows the progress until the other end of the channel is dropped.
fn show(done: &AtomicUsize, scripts: usize, ended: &Receiver<()>) {
    let terminal = io::stderr().is_terminal();
    let mut pause = FIRST;
    let mut width = 0;
    while ended.recv_timeout(pause) == Err(RecvTimeoutError::Timeout) {
        let line = format!("{} of {scripts} scripts marked", done.load(Ordering::Relaxed));
        if terminal {
            width = rewrite(&line);
            pause = AT_A_TERMINAL;
        } else {
            tell(&line);
            pause = IN_A_LOG;
        }
    }
    if width > 0 {
        // what is told next begins on an empty line
        say(&format!("\r{:width$}\r", ""));
    }
}

/// Writes a line over the one before, which was no longer, for the count only grows; answers its width.
fn rewrite(line: &str) -> usize {
    let line = format!("acornsled: {line}");
    say(&format!("\r{line}"));
    line.len()
}
