//! Threads that can mark, whatever the environment says of stacks.

use crate::status::Status;
use std::thread::{self, Builder};

/// The room of a thread in bytes: far more than marking takes, some 73,000, and so little that many threads can be started.
const STACK: usize = 1 << 20;

/// For a thread with a stack of its own size. Else it would be that of RUST_MIN_STACK, by which a thread may be too small.
pub fn with_room() -> Builder {
    Builder::new().stack_size(STACK)
}

/// Runs the command in such a thread, for the first thread's stack is what `ulimit -s` says; in the first one where no
/// other can be started.
pub fn run(command: impl Fn() -> Status + Sync) -> Status {
    thread::scope(|scope| match with_room().spawn_scoped(scope, &command) {
        // a panic was told by the thread that ended with it
        Ok(thread) => thread.join().unwrap_or(Status::Failed),
        Err(_) => command(),
    })
}
