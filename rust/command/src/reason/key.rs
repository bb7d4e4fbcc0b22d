//! A line that does not begin with the key that is due.

use super::cause;
use super::fault::Fault;

/// The keys in the order of their lines.
const KEYS: [&str; 4] = ["quantities", "hidden", "rules", "rule"];
const ORDER: &str = "the lines stand in the order quantities=, hidden=, rules= and then the lines rule=";

/// The fault of such a line; `due` is the key with its `=`.
pub fn fault(line: &[u8], due: &'static str) -> Fault {
    let name = due.trim_end_matches('=');
    let word = &line[..line.iter().take_while(|byte| byte.is_ascii_alphabetic()).count()];
    let blanks = line.iter().take_while(|&&byte| byte == b' ' || byte == b'\t').count();
    match line {
        [] => Fault::new(0, 1, format!("an empty line, where {due} is due")),
        _ if line.iter().all(|&byte| byte == b'\r') => {
            Fault::new(0, line.len(), "an empty line, with a carriage return (CR, byte 13)").with_help(cause::WINDOWS)
        }
        _ if blanks == line.len() => Fault::new(0, blanks, format!("a line of blanks alone, where {due} is due")),
        _ if cause::is_comment(&line[blanks..]) => cause::comment(blanks, line.len() - blanks),
        _ if blanks > 0 => Fault::new(0, blanks, format!("a blank or tab before {due}: no line has blanks or tabs")),
        _ if word.is_empty() => without_word(line, due),
        _ if word == name.as_bytes() => unequal(line, name),
        _ => other_word(line, word, due),
    }
}

/// A line that begins with no letter.
fn without_word(line: &[u8], due: &str) -> Fault {
    match line[0] {
        b'0'..=b'9' | b'+' | b'-' => Fault::new(0, 1, format!("the key is missing: {due} is due before the value")),
        b'=' => Fault::new(0, 1, format!("the key's name is missing: {due} is due")),
        _ => cause::stray(line, 0, due),
    }
}

/// The right name with no `=` after it.
fn unequal(line: &[u8], name: &str) -> Fault {
    match line[name.len()..] {
        [b' ' | b'\t', ..] => {
            Fault::new(name.len(), 1, format!("a blank or tab after {name}: = is due, and no line has blanks"))
        }
        [b':', ..] => Fault::new(name.len(), 1, format!("a colon after {name}: = is due")),
        _ => cause::stray(line, name.len(), "="),
    }
}

/// Another word than the name that is due: in capitals, another key, misspelt, or none of these.
fn other_word(line: &[u8], word: &[u8], due: &str) -> Fault {
    let name = due.trim_end_matches('=');
    let at = word.iter().zip(name.bytes()).take_while(|(got, wanted)| **got == *wanted).count();
    let shown = String::from_utf8_lossy(&word[..word.len().min(20)]);
    if line.len() == at {
        return Fault::new(at, 1, format!("the line ends here, within the key {due}"));
    }
    if word.eq_ignore_ascii_case(name.as_bytes()) {
        return Fault::new(at, 1, format!("a capital letter: the key is written {due}, in small letters"));
    }
    if KEYS.iter().any(|key| word.eq_ignore_ascii_case(key.as_bytes())) {
        return Fault::new(0, word.len(), format!("{shown} stands where {due} is due")).with_help(ORDER);
    }
    if line.get(word.len()) == Some(&b'=') || distance(word, name.as_bytes()) <= 2 {
        return Fault::new(at, word.len() - at, format!("{shown} is no key, or misspelt: {due} is due"));
    }
    Fault::new(0, word.len(), format!("words that are none of the format: {due} is due"))
}

/// How many letters have to be put in, left out or changed to make one word the other.
fn distance(word: &[u8], other: &[u8]) -> usize {
    // a word that is much longer is none of the keys, and is not worth the time
    if word.len() > 20 {
        return word.len();
    }
    let mut row: Vec<usize> = (0..=other.len()).collect();
    for (i, letter) in word.iter().enumerate() {
        let mut corner = row[0];
        row[0] = i + 1;
        for (j, wanted) in other.iter().enumerate() {
            let changed = corner + usize::from(letter != wanted);
            corner = row[j + 1];
            row[j + 1] = changed.min(corner + 1).min(row[j] + 1);
        }
    }
    row[other.len()]
}
