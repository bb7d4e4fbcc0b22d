//! What a check of a crate prints, and what it says there of a function.

/// What the check says of a function.
#[derive(Clone, PartialEq, Eq, Debug)]
pub enum Said {
    Proved,
    /// Its own proof fails, with the first line of the reason.
    Refused(String),
    /// A function that it calls is not proved, so that nothing is said of its own proof.
    Masked,
    /// Nothing: the crate did not get as far as its proofs.
    Nothing,
}

/// How a line ends that blames what the function calls.
const CALLEES: [&str; 3] = ["`, which is not proved", "`, which are not proved", "`, which has no proof"];

/// What the log says of a function `crate::module::name`.
pub fn said(log: &str, function: &str) -> Said {
    let line = format!("fn {function}: ");
    match log.lines().find_map(|said| said.strip_prefix(&line)) {
        None => Said::Nothing,
        Some("proved") => Said::Proved,
        Some(why) if CALLEES.iter().any(|callee| why.contains(callee)) => Said::Masked,
        Some(why) => Said::Refused(proof_error(log, function).unwrap_or_else(|| reason(why)).to_string()),
    }
}

/// The first error that stands in a file of the function's own proof.
fn proof_error<'a>(log: &'a str, function: &str) -> Option<&'a str> {
    let (_, path) = function.split_once("::")?;
    let folder = format!("/proofs/{}/", path.replace("::", "/"));
    let files = ["Answers", "Invariants", "Proof"].map(|file| format!("{folder}{file}.antt:"));
    log.lines().filter(|line| files.iter().any(|file| line.contains(file))).find_map(message)
}

/// The first error of all, which is what stops a crate before its proofs.
pub fn first_error(log: &str) -> &str {
    log.lines().find_map(message).or(log.lines().last()).unwrap_or_default()
}

/// The message of a line `FILE:LINE:COLUMN: error: MESSAGE`, where an `error` may have a name in brackets.
fn message(line: &str) -> Option<&str> {
    let (_, rest) = line.split_once(": error")?;
    rest.split_once(": ").map(|(_, message)| message)
}

/// Why a function without a file for its proof is not proved: `no proof: expected .. in FILE; WHY`.
fn reason(why: &str) -> &str {
    why.split_once("; ").map_or(why, |(_, reason)| reason)
}
