//! The exit status, alike for all commands.

/// What a script can test. Of two the larger one counts.
#[derive(Clone, Copy, PartialEq, Eq, PartialOrd, Ord, Debug)]
pub enum Status {
    /// an answer
    Answered = 0,
    /// a refusal
    Refused = 1,
    /// wrong use, or a file that cannot be read or written
    Failed = 2,
}
