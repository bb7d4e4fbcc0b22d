//! Bytes made visible: names of files, and lines of texts.

use std::ffi::OsStr;
use std::os::unix::ffi::OsStrExt;

/// A file's name for a message: as it is, but what would move the cursor or is no UTF-8 is escaped.
pub fn name(name: &OsStr) -> String {
    let mut shown = String::new();
    for part in name.as_bytes().utf8_chunks() {
        for letter in part.valid().chars() {
            if letter.is_control() || turns(letter) {
                shown.extend(letter.escape_default());
            } else {
                shown.push(letter);
            }
        }
        shown.extend(part.invalid().iter().map(|byte| format!("\\x{byte:02x}")));
    }
    shown
}

/// Whether a character changes the direction of the letters around it, by which a name could pass for another.
fn turns(letter: char) -> bool {
    matches!(letter, '\u{61c}' | '\u{200e}' | '\u{200f}' | '\u{2028}'..='\u{202e}' | '\u{2066}'..='\u{2069}')
}

/// One character of a line, or one byte that is part of none: the place of its first byte, and how it is shown, in ASCII, so
/// that every byte of that takes one column on every terminal.
pub struct Piece {
    pub at: usize,
    pub shown: String,
}

/// The line in pieces.
pub fn pieces(line: &[u8]) -> Vec<Piece> {
    let mut pieces = Vec::new();
    let mut at = 0;
    for part in line.utf8_chunks() {
        for letter in part.valid().chars() {
            pieces.push(Piece { at, shown: character(letter) });
            at += letter.len_utf8();
        }
        for &byte in part.invalid() {
            pieces.push(Piece { at, shown: format!("<0x{byte:02X}>") });
            at += 1;
        }
    }
    pieces
}

/// A character in ASCII: printable ones as they are, others by their name or number.
fn character(letter: char) -> String {
    match letter {
        ' '..='~' => letter.to_string(),
        '\0' => "<NUL>".to_string(),
        '\t' => "<TAB>".to_string(),
        '\n' => "<LF>".to_string(),
        '\r' => "<CR>".to_string(),
        '\0'..='\x7f' => format!("<0x{:02X}>", u32::from(letter)),
        _ => format!("<U+{:04X}>", u32::from(letter)),
    }
}
