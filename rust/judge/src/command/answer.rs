//! What the command has said, against what the proved program prints for the same texts.

use crate::printed::lines;

pub struct Said {
    /// none where it was ended by a signal
    pub status: Option<i32>,
    pub output: Vec<u8>,
    pub errors: Vec<u8>,
}

/// What is printed.
#[derive(Clone, Copy, PartialEq, Eq, Debug)]
pub enum Kind {
    Answer,
    Refusal,
    /// a refusal for a file that cannot be read, which counts as an empty text
    Unread,
    /// nothing, for the use is wrong
    Misuse,
}

/// Is standard output what the program prints, and are the exit status and standard error those that belong to it? The number
/// of a refusal has to stand in the message, for who reads that alone.
pub fn judged(printed: &[u8], said: &Said, unread: bool) -> Result<Kind, String> {
    lines::same(&said.output, printed)?;
    let number = refused(printed);
    let (kind, status) = match &number {
        None => (Kind::Answer, 0),
        Some(_) if unread => (Kind::Unread, 2),
        Some(_) => (Kind::Refusal, 1),
    };
    let shown = said.errors.escape_ascii();
    if said.status != Some(status) {
        let found = said.status.map_or("none".into(), |status| status.to_string());
        return Err(format!("exit status {found}, due {status}, with '{shown}' on standard error"));
    }
    match (kind, number) {
        (Kind::Answer, _) if !said.errors.is_empty() => Err(format!("'{shown}' on standard error beside an answer")),
        (Kind::Unread, _) if said.errors.is_empty() => Err("nothing on standard error beside a refusal".into()),
        (Kind::Refusal, Some(number)) if !names(&said.errors, &number) => {
            Err(format!("'{shown}' on standard error, which does not name {number}"))
        }
        _ => Ok(kind),
    }
}

/// The number of a refusal that is printed.
fn refused(printed: &[u8]) -> Option<String> {
    let rest = printed.strip_prefix(b"refused=")?;
    Some(rest.iter().take_while(|byte| byte.is_ascii_digit()).map(|&byte| char::from(byte)).collect())
}

/// Does the number stand in the message as a word of its own?
fn names(message: &[u8], number: &str) -> bool {
    message.split(|byte| !byte.is_ascii_alphanumeric()).any(|word| word == number.as_bytes())
}
